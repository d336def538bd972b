/* moves WHAT LIST TIMES: moves the longest list to its radio form, or that form to the list, so many times, by the port or by plain
 * C. Whatever the times, the same list is read and both forms are made once, so that the difference of two counts is the moves' own.
 * moves LIST bytes: how many bytes the radio form has.
 * moves LIST agree: the port and plain C give the same status, size and slice for the list and both forms, damaged in many ways. */
#include <inttypes.h>
#include <stdio.h>
#include <stdlib.h>
#include <string.h>
#include "brundelak.h"
#include "leb128.h"

enum { WIDTH = BRUNDELAK_RECORD_BYTES, LIST = BRUNDELAK_MOST_BYTES, RADIO = BRUNDELAK_MOST_RADIO_BYTES, ROOM = LIST > RADIO ? LIST : RADIO };
enum { DAMAGED = 100000, FEW = 20 };

typedef uint8_t move(const uint8_t *, uint64_t, uint8_t *, uint64_t, uint64_t *);
static const struct { const char *name; move *port, *plain; } moves[] = {
    {"list_to_radio", brundelak_list_to_radio, plain_list_to_radio},
    {"radio_to_list", brundelak_radio_to_list, plain_radio_to_list},
};

static uint8_t list[LIST], radio[RADIO], out[ROOM], other[ROOM];

/* The same each time. */
static uint32_t part(uint32_t below)
{
    static uint64_t state = 1;
    state = state * 6364136223846793005u + 1442695040888963407u;
    return (uint32_t)(state >> 33) % below;
}

/* Whether both do the same with the bytes and a slice of so many. */
static int same(size_t which, const uint8_t *bytes, size_t len, size_t room, unsigned *seen)
{
    uint64_t by_port = 1, by_plain = 1;
    memset(out, 170, sizeof out);
    memset(other, 170, sizeof other);
    uint8_t status = moves[which].port(bytes, len, out, room, &by_port);
    *seen |= 1u << status;
    return status == moves[which].plain(bytes, len, other, room, &by_plain) && by_port == by_plain && memcmp(out, other, sizeof out) == 0;
}

/* A radio list without its rates, in the form that has none. */
static uint64_t without_rates(const uint8_t *from, uint8_t *to)
{
    uint32_t stars, number, asc;
    uint64_t place, next, len;
    int32_t dec, asc_rate, dec_rate;
    if (brundelak_radio_open(from, RADIO, &stars, &place) != 0)
        exit(1);
    memcpy(to, from, place);
    to[0] = 2;
    for (len = place; stars > 0; stars--, place = next) {
        if (brundelak_radio_star(from, RADIO, place, &number, &asc, &dec, &asc_rate, &dec_rate, &next) != 0)
            exit(1);
        /* the rates are the last two numbers: each ends at a byte below 128 */
        uint64_t end = next;
        for (int rate = 0; rate < 2; rate++)
            do
                end--;
            while (from[end - 1] >= 128);
        memcpy(to + len, from + place, end - place);
        len += end - place;
    }
    return len;
}

/* The first few stars, with up to two bytes changed, cut anywhere, into slices that have room for most. */
static int agree(void)
{
    static uint8_t small[RADIO], still[RADIO], bytes[RADIO];
    static const uint8_t *const forms[] = {list, small, still};
    unsigned seen = 0;
    uint64_t sizes[] = {WIDTH * FEW, 0, 0};
    if (plain_list_to_radio(list, WIDTH * FEW, small, sizeof small, &sizes[1]) != 0)
        return 0;
    sizes[2] = without_rates(small, still);
    if (!same(1, still, sizes[2], sizeof out, &seen) || seen != 1u << 0)
        return 0;
    for (int i = 0; i < DAMAGED; i++) {
        size_t form = part(3), which = form > 0, len = sizes[form];
        memcpy(bytes, forms[form], len);
        for (uint32_t k = part(3); k > 0; k--)
            bytes[part((uint32_t)len)] = (uint8_t)(part(2) == 0 ? part(256) : part(2) * 128);
        if (part(4) == 0)
            len = which == 0 ? WIDTH * part(FEW + 1) + part(2) : part((uint32_t)len + 2);
        if (!same(which, bytes, len, part(4) == 0 ? part(WIDTH * FEW) : sizeof out, &seen))
            return 0;
    }
    /* each of 0, 8, 9, 11, 12 and 13 was met, and nothing else */
    return seen == (1u << 0 | 1u << 8 | 1u << 9 | 1u << 11 | 1u << 12 | 1u << 13) && same(0, list, LIST, sizeof out, &seen)
        && same(1, radio, RADIO, sizeof out, &seen);
}

int main(int argc, char **argv)
{
    const char *last = argv[argc - 1];
    FILE *file = argc == 3 || argc == 4 ? fopen(argv[argc - 2], "rb") : NULL;
    uint64_t size, written;
    if (file == NULL || fread(list, 1, LIST, file) != LIST || plain_list_to_radio(list, LIST, radio, RADIO, &size) != 0)
        return 1;
    if (plain_radio_to_list(radio, size, out, LIST, &written) != 0 || written != LIST || memcmp(out, list, LIST) != 0)
        return 1;
    if (strcmp(last, "bytes") == 0) {
        printf("%" PRIu64 "\n", size);
        return 0;
    }
    if (strcmp(last, "agree") == 0)
        return agree() ? 0 : 1;
    for (size_t which = 0; argc == 4 && which < 2; which++) {
        size_t plain = strncmp(argv[1], "plain_", 6) == 0 ? 6 : 0;
        if (strcmp(argv[1] + plain, moves[which].name) != 0)
            continue;
        move *work = plain ? moves[which].plain : moves[which].port;
        for (int k = atoi(last); k > 0; k--)
            if (work(which == 0 ? list : radio, which == 0 ? LIST : size, out, sizeof out, &written) != 0)
                return 1;
        return memcmp(out, which == 0 ? radio : list, which == 0 ? size : LIST) == 0 ? 0 : 1;
    }
    return 1;
}
