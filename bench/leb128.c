/* Each move reads its bytes twice, first to check and then to write, so that a refused one leaves the slice as it was. */
#include "brundelak.h"
#include "leb128.h"

enum { WIDTH = BRUNDELAK_RECORD_BYTES, MOST_STARS = BRUNDELAK_MOST_STARS };
/* The first byte of the form that is written, and of the one before it, which has no rates and is read too. */
enum { MARK = 3, OLD_MARK = 2 };

struct star {
    uint32_t number, asc;
    int32_t dec, asc_rate, dec_rate;
};

static int within(int32_t z, int32_t most)
{
    return z >= -most && z <= most;
}

static int in_range(const struct star *star)
{
    return star->asc < 1296000000 && within(star->dec, 324000000) && within(star->asc_rate, 20000) && within(star->dec_rate, 20000);
}

static uint32_t fold(int32_t z)
{
    return z < 0 ? ~((uint32_t)z << 1) : (uint32_t)z << 1;
}

static int32_t unfold(uint32_t n)
{
    return (int32_t)((n >> 1) ^ -(n & 1));
}

/* ---- numbers in groups */

static size_t size_of(uint32_t n)
{
    size_t size = 1;
    while (n >= 128) {
        n >>= 7;
        size++;
    }
    return size;
}

static uint8_t *put_number(uint8_t *to, uint32_t n)
{
    while (n >= 128) {
        *to++ = (uint8_t)(n | 128);
        n >>= 7;
    }
    *to++ = (uint8_t)n;
    return to;
}

/* The number from *at on, and *at after it; 12 for one that is not the shortest or above 32 bits, 13 where the bytes end first. */
static uint8_t number_at(const uint8_t **at, const uint8_t *end, uint32_t *number)
{
    const uint8_t *p = *at;
    uint32_t n = 0;
    for (unsigned shift = 0; shift <= 28; shift += 7) {
        if (p == end)
            return 13;
        uint8_t b = *p++;
        if (b < 128) {
            if ((b == 0 && shift > 0) || (b > 15 && shift == 28))
                return 12;
            *number = n | (uint32_t)b << shift;
            *at = p;
            return 0;
        }
        n |= (uint32_t)(b - 128) << shift;
    }
    return 12;
}

static uint8_t folded_at(const uint8_t **at, const uint8_t *end, int32_t *z)
{
    uint32_t folded = 0;
    uint8_t refusal = number_at(at, end, &folded);
    *z = unfold(folded);
    return refusal;
}

static uint8_t star_at(uint8_t mark, const uint8_t **at, const uint8_t *end, struct star *star)
{
    uint8_t refusal;
    if ((refusal = number_at(at, end, &star->number)) != 0)
        return refusal;
    if ((refusal = number_at(at, end, &star->asc)) != 0)
        return refusal;
    if ((refusal = folded_at(at, end, &star->dec)) != 0)
        return refusal;
    star->asc_rate = star->dec_rate = 0;
    if (mark == MARK) {
        if ((refusal = folded_at(at, end, &star->asc_rate)) != 0)
            return refusal;
        if ((refusal = folded_at(at, end, &star->dec_rate)) != 0)
            return refusal;
    }
    return in_range(star) ? 0 : 9;
}

/* ---- records */

static uint32_t word_at(const uint8_t *from)
{
    return from[0] | (uint32_t)from[1] << 8 | (uint32_t)from[2] << 16 | (uint32_t)from[3] << 24;
}

static void put_word(uint8_t *to, uint32_t word)
{
    to[0] = (uint8_t)word;
    to[1] = (uint8_t)(word >> 8);
    to[2] = (uint8_t)(word >> 16);
    to[3] = (uint8_t)(word >> 24);
}

static struct star record_at(const uint8_t *from)
{
    struct star star = {word_at(from), word_at(from + 4), (int32_t)word_at(from + 8), (int32_t)word_at(from + 12), (int32_t)word_at(from + 16)};
    return star;
}

/* ---- the moves */

uint8_t plain_list_to_radio(const uint8_t *bytes, uint64_t len, uint8_t *out, uint64_t out_len, uint64_t *written)
{
    if (len > WIDTH * MOST_STARS || len % WIDTH != 0)
        return 8;
    uint32_t stars = (uint32_t)(len / WIDTH);
    size_t size = 1 + size_of(stars);
    for (size_t at = 0; at < len; at += WIDTH) {
        struct star star = record_at(bytes + at);
        if (!in_range(&star))
            return 9;
        size += size_of(star.number) + size_of(star.asc) + size_of(fold(star.dec)) + size_of(fold(star.asc_rate)) + size_of(fold(star.dec_rate));
    }
    if (out_len < size)
        return 8;
    *out++ = MARK;
    out = put_number(out, stars);
    for (size_t at = 0; at < len; at += WIDTH) {
        struct star star = record_at(bytes + at);
        out = put_number(out, star.number);
        out = put_number(out, star.asc);
        out = put_number(out, fold(star.dec));
        out = put_number(out, fold(star.asc_rate));
        out = put_number(out, fold(star.dec_rate));
    }
    *written = size;
    return 0;
}

uint8_t plain_radio_to_list(const uint8_t *bytes, uint64_t len, uint8_t *out, uint64_t out_len, uint64_t *written)
{
    if (len == 0)
        return 13;
    uint8_t mark = bytes[0];
    if (mark != MARK && mark != OLD_MARK)
        return 11;
    const uint8_t *first = bytes + 1, *end = bytes + len, *at;
    uint8_t refusal;
    uint32_t stars;
    struct star star;
    if ((refusal = number_at(&first, end, &stars)) != 0)
        return refusal;
    if (stars > MOST_STARS)
        return 8;
    at = first;
    for (uint32_t i = 0; i < stars; i++)
        if ((refusal = star_at(mark, &at, end, &star)) != 0)
            return refusal;
    if (at != end)
        return 13;
    if (out_len < WIDTH * (size_t)stars)
        return 8;
    at = first;
    for (uint32_t i = 0; i < stars; i++) {
        star_at(mark, &at, end, &star);
        put_word(out + WIDTH * i, star.number);
        put_word(out + WIDTH * i + 4, star.asc);
        put_word(out + WIDTH * i + 8, (uint32_t)star.dec);
        put_word(out + WIDTH * i + 12, (uint32_t)star.asc_rate);
        put_word(out + WIDTH * i + 16, (uint32_t)star.dec_rate);
    }
    *written = WIDTH * (size_t)stars;
    return 0;
}
