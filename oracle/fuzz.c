/* fuzz N [SEED]: N calls in all at every function, any bits and any bytes, lengths and places at their limits. It needs no Rust.
 * What is lent lies against a page that nobody may touch, on one side or the other, with canaries on the free side: a byte read or
 * written past it on the one side ends the program, one written on the other is seen. Checked after each call: canaries and given
 * bytes kept; a status that the function has; after a refusal all that is lent kept, after an answer each number finite. Floats are lent
 * as NaNs of any sign and payload, signalling ones among them, and are kept bit for bit. */
#define _GNU_SOURCE
#include <inttypes.h>
#include <math.h>
#include <signal.h>
#include <stdio.h>
#include <stdlib.h>
#include <string.h>
#include <sys/mman.h>
#include <sys/wait.h>
#include <unistd.h>
#include "bits.h"
#include "functions.h"

/* ---- random numbers ---- */

/* Bits of a NaN, which no function answers: some that are known for their edges, or any sign and payload, quiet or signalling. */
static uint64_t any_nan(void)
{
    static const uint64_t at[] = {0x7FF0000000000001, 0xFFF0000000000001, 0x7FF4A5A5A5A50003, 0x7FF7FFFFFFFFFFFF,
                                  0x7FF8000000000000, 0xFFF8000000000000, 0x7FFFFFFFFFFFFFFF, 0xFFFFFFFFFFFFFFFF};
    if (drawn_below(4) == 0)
        return at[drawn_below(sizeof at / sizeof *at)];
    return drawn_bits() | 0x7FF0000000000000 | (uint64_t)1 << drawn_below(52);
}

/* Any bits, limits and doubles beside them, or small enough to be answered; one of 32 a NaN or an infinity, which some functions refuse
 * alone. */
static double any_double(void)
{
    static const double at[] = {0.0, 64.0, 1.57, 1.5707963267948966, 400000.0, 1.0, 0.0001, 1000000.0, -1000.0, 100000.0,
                                1721045.0, 3182045.0, 2451545.0, 360.0, 6.283185307179586, 89.8, 1e-310, INFINITY, NAN};
    double x;
    uint64_t b;
    if (drawn_below(32) == 0)
        return drawn_below(2) == 0 ? as_double(any_nan()) : drawn_below(2) == 0 ? INFINITY : -INFINITY;
    switch (drawn_below(8)) {
    case 0:
        return as_double(drawn_bits());
    case 1:
        x = at[drawn_below(sizeof at / sizeof *at)];
        b = as_bits(x);
        return as_double((b + drawn_below(3) - (b == 0 ? 0 : 1)) ^ (drawn_bits() & 1) << 63);
    case 2:
        return 1721045.0 + (double)(drawn_bits() >> 11) / 9007199254740992.0 * 1461000.0;
    case 3:
        return as_double(drawn_bits() & 0xBFFFFFFFFFFFFFFF);
    default:
        return ((double)(drawn_bits() >> 11) / 9007199254740992.0 - 0.5) * 3.14;
    }
}

static double any_day(void)
{
    return drawn_below(8) == 0 ? any_double() : 1721045.0 + (double)(drawn_bits() >> 11) / 9007199254740992.0 * 1461000.0;
}

/* ---- guarded memory ---- */

/* More stars than a list that is drawn has, and room for it and its radio form: a damaged number has up to six groups. */
enum { NEAR = 64, WIDTH = BRUNDELAK_RECORD_BYTES, WORDS = WIDTH / 4, MANY = BRUNDELAK_MOST_STARS + 100, ROOM = (WIDTH + 6 * WORDS) * MANY };
/* Bytes of a record of the days before there were rates. */
enum { OLD = 12 };
static const uint8_t canary[8] = {0xA1, 0x5B, 0xC3, 0x2D, 0xE5, 0x97, 0xF7, 0x7F};
/* Room between two pages that nobody may touch; what is lent lies at its start or at its end. */
struct room { uint8_t *start, *at, *kept; size_t size, len; };

static void make(struct room *r, size_t size)
{
    size_t page = (size_t)sysconf(_SC_PAGESIZE);
    r->size = (size + NEAR + page - 1) / page * page;
    uint8_t *all = mmap(NULL, r->size + 2 * page, PROT_NONE, MAP_PRIVATE | MAP_ANONYMOUS, -1, 0);
    r->start = all + page;
    r->kept = malloc(r->size);
    if (all == MAP_FAILED || r->kept == NULL || mprotect(r->start, r->size, PROT_READ | PROT_WRITE) != 0) {
        printf("fuzz: no guarded memory\n");
        exit(1);
    }
    r->at = r->start;
    r->len = 0;
}

/* The part looked at: what is lent and the canaries beside it, on the free side. */
static uint8_t *seen(const struct room *r, size_t *len)
{
    *len = r->len + NEAR;
    return r->at == r->start ? r->start : r->at - NEAR;
}

/* Lends len bytes at one end or the other. */
static void *lend(struct room *r, size_t len)
{
    size_t n;
    r->len = len;
    r->at = drawn_bits() & 1 ? r->start : r->start + r->size - len;
    uint8_t *from = seen(r, &n);
    /* By eights from an address that eight divides these bytes are NaNs, which no function answers. */
    for (size_t i = 0; i < n; i++)
        from[i] = canary[(uintptr_t)(from + i) % 8];
    memcpy(r->kept, from, n);
    return r->at;
}

/* What is given stays as it is from here. */
static void given(struct room *r)
{
    size_t n;
    uint8_t *from = seen(r, &n);
    memcpy(r->kept, from, n);
}

/* Lends so many floats, each a NaN by its bits. */
static double *lend_floats(struct room *r, size_t count)
{
    uint8_t *to = lend(r, count * sizeof(double));
    for (size_t i = 0; i < count; i++) {
        uint64_t nan = any_nan();
        memcpy(to + i * sizeof nan, &nan, sizeof nan);
    }
    given(r);
    return (double *)to;
}

static int kept(const struct room *r)
{
    size_t n;
    uint8_t *from = seen(r, &n);
    return memcmp(r->kept, from, n) == 0;
}

/* Kept but for so many of the bytes lent, from a place on. */
static int kept_but(const struct room *r, size_t place, size_t len)
{
    size_t n, skipped = (r->at == r->start ? 0 : NEAR) + place;
    uint8_t *from = seen(r, &n);
    return memcmp(r->kept, from, skipped) == 0 && memcmp(r->kept + skipped + len, from + skipped + len, n - skipped - len) == 0;
}

/* Kept but for the first len bytes lent. */
static int kept_beyond(const struct room *r, size_t len)
{
    return kept_but(r, 0, len);
}

/* Of the words the first are a star's fields, in a record's order; the last is the place after it. */
enum { NEXT = WORDS };
static struct room places[3], bytes, slice, back, statuses, ascs, decs, seen_ascs, seen_decs, tally, sheets[2], words[NEXT + 1];

/* ---- what is told where a call is unsound ---- */

static const char *name = "start";
static double args[9];
static uint64_t at_call;

static void tell(const char *what)
{
    char line[512];
    int n = snprintf(line, sizeof line, "fuzz: call %" PRIu64 ", %s: %s;", at_call, name, what);
    for (int i = 0; i < 9 && n < 480; i++)
        n += snprintf(line + n, sizeof line - (size_t)n, " %016" PRIx64, as_bits(args[i]));
    line[n++] = '\n';
    if (write(1, line, (size_t)n) < 0)
        _exit(1);
}

static void fault(int signal)
{
    tell(signal == SIGFPE ? "a fault of arithmetic" : "memory that is not lent");
    _exit(1);
}

/* ---- calls ---- */

/* star, find, both batches, both rotations, tally_raise, put_star, those of radio lists, the moves, the edits, the residuals, both headings
 * and the mean of headings stand behind the functions of numbers. */
enum { KINDS = FUNCTION_COUNT + 24 };
static uint64_t answered[KINDS], refused[KINDS], unsound;
static size_t which;

static void judge(uint8_t status, int sound)
{
    answered[which] += status == 0;
    refused[which] += status != 0;
    if (!sound) {
        unsound++;
        if (unsound <= 5)
            tell("unsound");
    }
}

/* What a function answered last: most calls change a number or two of it. */
static double last[FUNCTION_COUNT][9];

static void numbers(const struct function *f)
{
    double *to[3];
    int all_kept = 1, sound = 1;
    name = f->name;
    if (answered[which] > 0 && drawn_below(8) != 0) {
        memcpy(args, last[which], sizeof args);
        for (size_t k = drawn_below(3); k > 0; k--)
            args[drawn_below(f->given)] = any_double();
    } else {
        /* Days stand last: what takes two is seldom answered where both must be met among any numbers. */
        size_t days = drawn_below(8) == 0 ? 2 : 0;
        for (size_t i = 0; i < f->given; i++)
            args[i] = i + days >= f->given ? any_day() : any_double();
    }
    for (size_t i = 0; i < f->answered; i++)
        to[i] = lend_floats(&places[i], 1);
    uint8_t status = f->f(args, to);
    for (size_t i = 0; i < f->answered; i++) {
        all_kept &= kept(&places[i]);
        sound &= kept_beyond(&places[i], sizeof(double)) && (status != 0 || isfinite(*to[i]));
    }
    if (status == 0)
        memcpy(last[which], args, sizeof args);
    int its_own = status <= 7 || ((status == BRUNDELAK_REFUSAL_NEVER_RISES || status == BRUNDELAK_REFUSAL_NEVER_SETS) && f->f == rise_culm_set);
    judge(status, sound && (status == 0 || (all_kept && its_own)));
}

/* A star count: small, or beside the most. */
static size_t any_count(void)
{
    return drawn_below(64) == 0 ? BRUNDELAK_MOST_STARS - 10 + drawn_below(12) : drawn_below(16);
}

/* A star's words are its number, right ascension, declination and both rates. */
static int small(uint32_t word, int32_t most)
{
    int32_t z = (int32_t)word;
    return z >= -most && z <= most;
}

static int in_range(const uint32_t *of)
{
    return of[1] < 1296000000 && small(of[2], 324000000) && small(of[3], 20000) && small(of[4], 20000);
}

/* None, any within the limits, a limit, or one beyond. */
static uint32_t any_rate(void)
{
    static const uint32_t at[] = {20000, (uint32_t)-20000, 20001, (uint32_t)-20001, 0x80000000, 0x7FFFFFFF};
    size_t by = drawn_below(16);
    return by < 4 ? 0 : by == 4 ? at[drawn_below(6)] : (uint32_t)drawn_below(40001) - 20000;
}

/* A list of some length, its records of so many bytes, in range or of any bytes; its length. Of some lists many places are empty, or all;
 * numbers are from few, so that those of others are too. */
static size_t list_of(size_t width)
{
    static const uint32_t asc_at[] = {0, 1295999999, 1296000000, 0xFFFFFFFF}, dec_at[] = {324000000, 324000001, 0x80000000, 0};
    size_t len = width * any_count(), empty = drawn_below(4) == 0 ? 1 + drawn_below(8) : 0;
    if (drawn_below(6) == 0)
        len += drawn_below(width);
    uint8_t *to = lend(&bytes, len);
    for (size_t i = 0; i < len; i += width) {
        uint32_t record[WORDS] = {(uint32_t)drawn_below(16), (uint32_t)drawn_below(1296000000), (uint32_t)drawn_below(648000001) - 324000000,
                                  any_rate(), any_rate()};
        size_t damage = drawn_below(8);
        if (damage == 0)
            record[1] = asc_at[drawn_below(4)];
        if (damage == 1)
            record[2] = dec_at[drawn_below(4)];
        if (damage == 2)
            for (size_t k = 0; k < WORDS; k++)
                record[k] = (uint32_t)drawn_bits();
        if (drawn_below(8) < empty)
            record[0] = 0;
        for (size_t k = 0; k < width && i + k < len; k++)
            to[i + k] = (uint8_t)(record[k / 4] >> 8 * (k % 4));
    }
    given(&bytes);
    return len;
}

static size_t list(void)
{
    return list_of(WIDTH);
}

/* The star of the list's i-th record; one of before stands still. */
static void star_of(size_t width, size_t i, uint32_t *of)
{
    memset(of, 0, sizeof(uint32_t[WORDS]));
    memcpy(of, bytes.at + width * i, width);
}

/* Each record out of range made one in range, and a still one where that is wanted. */
static void mend(size_t len, size_t width, int still)
{
    for (size_t i = 0; i < len / width; i++) {
        uint32_t of[WORDS];
        star_of(width, i, of);
        if (!in_range(of))
            memset(of + 1, 0, sizeof(uint32_t[WORDS - 1]));
        if (still)
            memset(of + 3, 0, sizeof(uint32_t[WORDS - 3]));
        memcpy(bytes.at + width * i, of, width);
    }
    given(&bytes);
}

static int bad_list(size_t len)
{
    return len % WIDTH != 0 || len > BRUNDELAK_MOST_BYTES;
}

/* The place of the first record with the number; the end where none has it. */
static size_t place_of(size_t len, uint32_t number)
{
    size_t place = 0;
    while (place + WIDTH <= len && memcmp(bytes.at + place, &number, sizeof number) != 0)
        place += WIDTH;
    return place + WIDTH <= len ? place : len;
}

/* Whether the record at a place is an empty one. */
static int is_empty(uint64_t place)
{
    return memcmp(bytes.at + place, "\0\0\0", 4) == 0;
}

/* The words that are lent, from one up to another: written after an answer, kept after a refusal. */
static int handed(uint8_t status, size_t from, size_t to)
{
    int sound = 1;
    for (size_t i = from; i < to; i++)
        sound &= status == 0 ? kept_beyond(&words[i], words[i].len) : kept(&words[i]);
    return sound;
}

/* What was handed out as the place after a star. */
static uint64_t next_place(void)
{
    uint64_t next;
    memcpy(&next, words[NEXT].at, sizeof next);
    return next;
}

static void *lend_next(void)
{
    return lend(&words[NEXT], sizeof(uint64_t));
}

typedef uint8_t star_call(const uint8_t *, uint64_t, uint64_t, uint32_t *, uint32_t *, int32_t *, int32_t *, int32_t *, uint64_t *);

/* A call that hands a star out, every place of it lent. */
static uint8_t star_by(star_call *call, size_t len, uint64_t place)
{
    void *to[WORDS];
    for (size_t i = 0; i < WORDS; i++)
        to[i] = lend(&words[i], 4);
    return call(bytes.at, len, place, to[0], to[1], to[2], to[3], to[4], lend_next());
}

static void star(void)
{
    static const uint64_t far[] = {UINT64_MAX, UINT64_MAX - 3, UINT64_MAX - WIDTH + 1, UINT64_MAX / WIDTH * WIDTH, (uint64_t)1 << 63};
    name = "star";
    size_t len = list();
    uint64_t place = drawn_below(8) == 0 ? far[drawn_below(5)] : drawn_below(3) == 0 ? len - len % WIDTH : drawn_below(len + WIDTH + 1);
    if (drawn_below(2) == 0)
        place -= place % WIDTH;
    uint8_t status = star_by(brundelak_star, len, place);
    int refused = bad_list(len) || place > len || place % WIDTH != 0;
    /* where the first star from the place on stands, empty places passed over */
    uint64_t at = place;
    while (!refused && at < len && is_empty(at))
        at += WIDTH;
    int sound = status == (refused ? 8 : at == len ? BRUNDELAK_END : 0) && kept(&bytes) && handed(status, 0, NEXT + 1);
    if (status == 0) {
        sound &= next_place() == at + WIDTH;
        for (size_t i = 0; i < WORDS; i++)
            sound &= memcmp(words[i].at, bytes.at + at + 4 * i, 4) == 0;
    }
    judge(status, sound);
}

/* A number that a drawn list often has, 0 among them. */
static uint32_t number_of_few(void)
{
    size_t by = drawn_below(8);
    return by == 0 ? (uint32_t)drawn_bits() : by == 1 ? 0 : (uint32_t)drawn_below(20);
}

static void find(void)
{
    name = "find";
    size_t len = list();
    uint32_t number = number_of_few();
    uint8_t status = brundelak_find(bytes.at, len, number, lend(&words[0], sizeof(uint64_t)), lend(&words[1], 4), lend(&words[2], 4),
                                    lend(&words[3], 4), lend(&words[4], 4));
    uint8_t expected = bad_list(len) ? 8 : number == 0 || place_of(len, number) == len ? 10 : 0;
    if (expected == 0) {
        uint32_t of[WORDS];
        star_of(WIDTH, place_of(len, number) / WIDTH, of);
        expected = in_range(of) ? 0 : 9;
    }
    int sound = status == expected && kept(&bytes) && handed(status, 0, WORDS);
    if (status == 0) {
        uint64_t index;
        memcpy(&index, words[0].at, sizeof index);
        sound &= WIDTH * index == place_of(len, number);
        for (size_t i = 1; i < WORDS; i++)
            sound &= memcmp(bytes.at + WIDTH * index + 4 * i, words[i].at, 4) == 0;
    }
    judge(status, sound);
}

/* Bytes of a tally. */
enum { TALLY = sizeof(uint32_t[BRUNDELAK_COUNTS]) };

/* The length of a lent slice: exact, longer, or too short. */
static size_t length(size_t stars)
{
    size_t by = drawn_below(16);
    return by == 0 ? 0 : by == 1 && stars > 0 ? stars - 1 : by == 2 ? stars + drawn_below(9) : stars;
}

typedef uint8_t batch_call(const uint8_t *, uint64_t, double, double, uint8_t *, uint64_t, double *, uint64_t, double *, uint64_t, uint32_t *);

/* Whether a record can have the status: in a batch; under a rotation, which knows no 4. */
static int of_a_star(uint8_t status)
{
    return status == 0 || status == 3 || status == 4 || status == 7 || status == 9 || status == 10 || status == 14;
}

static int of_a_rotated_star(uint8_t status)
{
    return status == 0 || status == 3 || status == 7 || status == 9 || status == 10 || status == 14;
}

static void stored_by(batch_call *call, int (*can_be)(uint8_t))
{
    size_t len = list(), stars = len / WIDTH, lens[3] = {length(stars), length(stars), length(stars)};
    args[0] = any_day();
    args[1] = any_day();
    uint8_t *status_of = lend(&statuses, lens[0]);
    double *asc = lend_floats(&ascs, lens[1]), *dec = lend_floats(&decs, lens[2]);
    uint32_t *counts = lend(&tally, TALLY), sum = 0, empty = 0;
    uint8_t status = call(bytes.at, len, args[0], args[1], status_of, lens[0], asc, lens[1], dec, lens[2], counts);
    int bad = bad_list(len) || lens[0] < stars || lens[1] < stars || lens[2] < stars;
    int sound = kept(&bytes) && (status <= 2 || status == 8) && (status == 1 || status == 2 || (status == 8) == bad);
    if (status != 0) {
        judge(status, sound && kept(&statuses) && kept(&ascs) && kept(&decs) && kept(&tally));
        return;
    }
    sound &= kept_beyond(&statuses, stars) && kept_beyond(&ascs, 8 * stars) && kept_beyond(&decs, 8 * stars) && kept_beyond(&tally, TALLY);
    for (size_t i = 0; i < stars; i++) {
        sound &= status_of[i] == 0 ? isfinite(asc[i]) && isfinite(dec[i]) : as_bits(asc[i]) == 0 && as_bits(dec[i]) == 0;
        uint32_t of[WORDS];
        star_of(WIDTH, i, of);
        sound &= can_be(status_of[i]) && (status_of[i] == 10) == (of[0] == 0) && (status_of[i] == 9) == (of[0] != 0 && !in_range(of));
        empty += of[0] == 0;
    }
    for (size_t i = 0; i < BRUNDELAK_COUNTS; i++)
        sum += counts[i];
    judge(status, sound && sum == stars && counts[10] == empty);
}

static void batch(void)
{
    name = "batch";
    stored_by(brundelak_batch, of_a_star);
}

static void batch_published(void)
{
    name = "batch_published";
    stored_by(brundelak_batch_published, of_a_star);
}

static void rotate(void)
{
    name = "rotate";
    stored_by(brundelak_rotate, of_a_rotated_star);
}

static void rotate_published(void)
{
    name = "rotate_published";
    stored_by(brundelak_rotate_published, of_a_rotated_star);
}

static void tally_raise(void)
{
    name = "tally_raise";
    uint8_t of = (uint8_t)(drawn_below(2) ? drawn_below(BRUNDELAK_COUNTS) : drawn_bits());
    uint32_t *counts = lend(&tally, TALLY), before[BRUNDELAK_COUNTS];
    for (size_t i = 0; i < BRUNDELAK_COUNTS; i++)
        counts[i] = drawn_below(2) ? (uint32_t)drawn_below(BRUNDELAK_FULLEST + 2) : (uint32_t)drawn_bits();
    given(&tally);
    memcpy(before, counts, sizeof before);
    uint8_t status = brundelak_tally_raise(of, counts);
    uint8_t want = of > BRUNDELAK_HIGHEST_STATUS ? 9 : before[of % BRUNDELAK_COUNTS] >= BRUNDELAK_FULLEST ? 8 : 0;
    if (want == 0)
        before[of]++;
    judge(status, status == want && memcmp(before, counts, sizeof before) == 0 && (status == 0 ? kept_beyond(&tally, TALLY) : kept(&tally)));
}

/* ---- radio lists ---- */

static size_t groups(uint32_t n)
{
    size_t k = 1;
    for (; n >= 128; n /= 128)
        k++;
    return k;
}

/* A number in so many groups, at least as many as it needs. */
static size_t spell(uint8_t *to, uint64_t n, size_t k)
{
    for (size_t i = 0; i < k; i++, n /= 128)
        to[i] = (uint8_t)(n % 128 + (i + 1 < k ? 128 : 0));
    return k;
}

static uint32_t any_number(void)
{
    return (uint32_t)drawn_bits() >> drawn_below(32);
}

/* A radio list of either form, good or damaged, or any bytes; its length. */
static size_t radio(void)
{
    static uint8_t text[ROOM];
    size_t len = 0, stars = any_count(), damage = drawn_below(12);
    size_t said = damage == 0 ? stars + 1 : damage == 1 ? any_number() : stars, numbers = drawn_below(3) == 0 ? 3 : 5;
    text[len++] = damage == 2 ? (uint8_t)drawn_bits() : numbers == 3 ? 2 : 3;
    len += spell(text + len, said, groups((uint32_t)said) + (damage == 3 && drawn_below(4) == 0));
    for (size_t i = 0; i < stars; i++) {
        uint32_t of[WORDS] = {any_number(), any_number() % 1296000000, any_number() % 648000001, any_number() % 40001, any_number() % 40001};
        if (damage == 4 && drawn_below(4) == 0)
            of[drawn_below(numbers)] = (uint32_t)drawn_bits();
        for (size_t k = 0; k < numbers; k++)
            len += spell(text + len, of[k] + (damage == 5 && drawn_below(8) == 0 ? (uint64_t)1 << 32 : 0),
                         groups(of[k]) + (damage == 3 && drawn_below(8) == 0));
    }
    if (damage == 6)
        len = drawn_below(len + 1);
    if (damage == 7)
        for (size_t k = 1 + drawn_below(8); k > 0; k--)
            text[len++] = (uint8_t)drawn_below(3);
    if (damage == 8)
        for (size_t k = 1 + drawn_below(3); k > 0; k--)
            text[drawn_below(len)] = (uint8_t)drawn_bits();
    if (damage == 9 && drawn_below(4) == 0)
        for (size_t i = len = drawn_below(64); i > 0; i--)
            text[i - 1] = (uint8_t)drawn_bits();
    uint8_t *to = lend(&bytes, len);
    for (size_t i = 0; i < len; i++)
        to[i] = text[i];
    given(&bytes);
    return len;
}

/* Numbers of a star in the radio list that is lent. */
static size_t numbers_of(void)
{
    return bytes.at[0] == 2 ? 3 : 5;
}

/* Whether a status is one of the reader's, and 13 or 11 where the first byte says so. */
static int known(uint8_t status, size_t len)
{
    int first = len == 0 ? 13 : bytes.at[0] != 2 && bytes.at[0] != 3 ? 11 : 0;
    return first != 0 ? status == first : status == 0 || status == 8 || status == 9 || status == 12 || status == 13;
}

static uint64_t any_place(size_t len)
{
    static const uint64_t far[] = {UINT64_MAX, UINT64_MAX - 1, UINT64_MAX - 4, (uint64_t)1 << 63};
    return drawn_below(8) == 0 ? far[drawn_below(4)] : drawn_below(8) == 0 ? len : drawn_below(4) == 0 ? drawn_below(len + 4) : 2 + drawn_below(2);
}

static void radio_open(void)
{
    name = "radio_open";
    size_t len = radio();
    uint32_t *count = lend(&words[0], 4);
    uint64_t *place = lend_next();
    uint8_t status = brundelak_radio_open(bytes.at, len, count, place);
    int sound = known(status, len) && status != 9 && kept(&bytes) && handed(status, 0, 1) && handed(status, NEXT, NEXT + 1);
    if (status == 0)
        sound &= *count <= BRUNDELAK_MOST_STARS && *place == 1 + groups(*count) && *place <= len;
    judge(status, sound);
}

static uint32_t fold(uint32_t word)
{
    return word >> 31 ? ~(word << 1) : word << 1;
}

/* The bytes of a star in the form that has so many numbers. */
static size_t star_size(const uint32_t *of, size_t numbers)
{
    size_t size = 0;
    for (size_t i = 0; i < numbers; i++)
        size += groups(i < 2 ? of[i] : fold(of[i]));
    return size;
}

static void radio_star(void)
{
    name = "radio_star";
    size_t len = radio();
    uint64_t place = any_place(len);
    uint8_t status = star_by(brundelak_radio_star, len, place);
    int sound = known(status, len) && status != 8 && kept(&bytes) && (place < len || status == 13 || status == 11) && handed(status, 0, NEXT + 1);
    if (status == 0) {
        uint32_t of[WORDS];
        for (size_t i = 0; i < WORDS; i++)
            memcpy(&of[i], words[i].at, 4);
        sound &= in_range(of) && next_place() == place + star_size(of, numbers_of()) && next_place() <= len
            && (numbers_of() == WORDS || (of[3] == 0 && of[4] == 0));
    }
    judge(status, sound);
}

static void radio_accept(void)
{
    name = "radio_accept";
    size_t len = radio();
    uint32_t *count = lend(&words[0], 4);
    uint8_t status = brundelak_radio_accept(bytes.at, len, count);
    int sound = known(status, len) && kept(&bytes);
    if (status == 0)
        sound &= *count <= BRUNDELAK_MOST_STARS && len >= 1 + groups(*count) + numbers_of() * (size_t)*count;
    judge(status, sound && handed(status, 0, 1));
}

/* A call that wrote size bytes from a place of the slice on, or was refused. */
static int wrote(uint8_t status, uint64_t place, size_t size)
{
    return handed(status, NEXT, NEXT + 1) && (status == 0 ? kept_but(&slice, place, size) && next_place() == place + size : kept(&slice));
}

static int fits(size_t size, uint64_t place, size_t len)
{
    return place <= len && size <= len - place;
}

static void radio_put_head(void)
{
    name = "radio_put_head";
    uint32_t count = drawn_below(4) == 0 ? any_number() : (uint32_t)drawn_below(BRUNDELAK_MOST_STARS + 2);
    size_t len = drawn_below(12);
    uint64_t place = any_place(len);
    lend(&slice, len);
    uint8_t status = brundelak_radio_put_head(slice.at, len, place, count, lend_next());
    size_t size = 1 + groups(count);
    judge(status, status == (count > BRUNDELAK_MOST_STARS || !fits(size, place, len) ? 8 : 0) && wrote(status, place, size));
}

/* A star of any words, most of them in range. */
static void any_star(uint32_t *of)
{
    of[0] = any_number();
    of[1] = any_number();
    of[2] = any_number() ^ (uint32_t)-(int32_t)drawn_below(2);
    of[3] = any_rate();
    of[4] = any_rate();
}

typedef uint8_t put_call(uint8_t *, uint64_t, uint64_t, uint32_t, uint32_t, int32_t, int32_t, int32_t, uint64_t *);

/* A call that writes a star from a place of the slice on. */
static uint8_t put_by(put_call *call, size_t len, uint64_t place, const uint32_t *of)
{
    lend(&slice, len);
    return call(slice.at, len, place, of[0], of[1], (int32_t)of[2], (int32_t)of[3], (int32_t)of[4], lend_next());
}

static void radio_put_star(void)
{
    name = "radio_put_star";
    uint32_t of[WORDS];
    any_star(of);
    size_t len = drawn_below(32), size = star_size(of, WORDS);
    uint64_t place = any_place(len);
    uint8_t status = put_by(brundelak_radio_put_star, len, place, of);
    judge(status, status == (!in_range(of) ? 9 : !fits(size, place, len) ? 8 : 0) && wrote(status, place, size));
}

/* Read again, it is the star; number 0 is an empty place, which is not shown. */
static void put_star(void)
{
    name = "put_star";
    uint32_t of[WORDS], again[WORDS] = {0};
    any_star(of);
    if (drawn_below(8) == 0)
        of[0] = 0;
    size_t end = WIDTH * (drawn_below(8) == 0 ? BRUNDELAK_MOST_STARS - 1 + drawn_below(3) : drawn_below(6));
    size_t len = end + drawn_below(2 * WIDTH);
    uint64_t place = drawn_below(4) == 0 ? any_place(len) : end, next = 0;
    uint8_t status = put_by(brundelak_put_star, len, place, of);
    int begins = place % WIDTH == 0 && place < BRUNDELAK_MOST_BYTES;
    int sound = status == (!in_range(of) ? 9 : !begins || !fits(WIDTH, place, len) ? 8 : 0) && wrote(status, place, WIDTH);
    if (status == 0) {
        int32_t z[3] = {0};
        uint8_t shown = brundelak_star(slice.at, place + WIDTH, place, &again[0], &again[1], &z[0], &z[1], &z[2], &next);
        for (size_t i = 0; i < 3; i++)
            again[2 + i] = (uint32_t)z[i];
        sound &= of[0] == 0 ? shown == BRUNDELAK_END : shown == 0 && next == place + WIDTH && memcmp(of, again, sizeof of) == 0;
    }
    judge(status, sound);
}

/* The length of a slice that size bytes go into: exact, longer, too short, or any. */
static size_t any_length(size_t size)
{
    size_t by = drawn_below(16);
    return by == 0 ? 0 : by == 1 && size > 0 ? size - 1 : by == 2 ? size + drawn_below(9) : by == 3 ? drawn_below(BRUNDELAK_MOST_RADIO_BYTES + 97) : size;
}

static void radio_to_list(void)
{
    name = "radio_to_list";
    size_t len = radio();
    uint32_t *count = lend(&words[0], 4);
    uint8_t accepted = brundelak_radio_accept(bytes.at, len, count);
    size_t size = accepted == 0 ? WIDTH * (size_t)*count : 0, room = any_length(accepted == 0 ? size : drawn_below(200));
    lend(&slice, room);
    uint8_t status = brundelak_radio_to_list(bytes.at, len, slice.at, room, lend_next());
    judge(status, status == (accepted != 0 ? accepted : room < size ? 8 : 0) && kept(&bytes) && wrote(status, 0, size));
}

/* Whether the list's records are in range, and how many of them move. */
static int records(size_t len, size_t width, size_t *moving)
{
    int good = 1;
    *moving = 0;
    for (size_t i = 0; i < len / width; i++) {
        uint32_t of[WORDS];
        star_of(width, i, of);
        good &= in_range(of);
        *moving += of[3] != 0 || of[4] != 0;
    }
    return good;
}

typedef uint8_t move_call(const uint8_t *, uint64_t, uint8_t *, uint64_t, uint64_t *);

/* A list moved into a slice, which has room for it or not: the status that is expected where it has. What was moved goes back to the same
 * bytes. */
static void move(move_call *there, move_call *again, size_t len, uint8_t expected, size_t size)
{
    size_t room = any_length(size);
    uint64_t written = 0;
    lend(&slice, room);
    uint8_t status = there(bytes.at, len, slice.at, room, lend_next());
    int sound = status == (expected != 0 ? expected : room < size ? 8 : 0) && kept(&bytes) && wrote(status, 0, size);
    if (status == 0) {
        lend(&back, len);
        sound &= again(slice.at, size, back.at, len, &written) == 0 && written == len && memcmp(back.at, bytes.at, len) == 0 && kept_beyond(&back, len);
    }
    judge(status, sound);
}

static void list_to_radio(void)
{
    name = "list_to_radio";
    size_t len = list(), size = 1 + groups((uint32_t)(len / WIDTH)), moving;
    if (drawn_below(4) != 0)
        mend(len, WIDTH, 0);
    for (size_t i = 0; i < len / WIDTH; i++) {
        uint32_t of[WORDS];
        star_of(WIDTH, i, of);
        size += star_size(of, WORDS);
    }
    uint8_t expected = bad_list(len) ? 8 : records(len, WIDTH, &moving) ? 0 : 9;
    move(brundelak_list_to_radio, brundelak_radio_to_list, len, expected, size);
}

/* A list of either width, at a move between widths that takes lists of one: in range more often than not. */
static size_t list_to_move(size_t width)
{
    size_t of = drawn_below(8) == 0 ? OLD + WIDTH - width : width, len = list_of(of);
    if (drawn_below(4) != 0)
        mend(len, of, drawn_below(4) != 0);
    return len;
}

static void list_12_to_20(void)
{
    name = "list_12_to_20";
    size_t len = list_to_move(OLD), moving;
    int bad = len % OLD != 0 || len > OLD * BRUNDELAK_MOST_STARS;
    move(brundelak_list_12_to_20, brundelak_list_20_to_12, len, bad ? 8 : records(len, OLD, &moving) ? 0 : 9, len / OLD * WIDTH);
}

static void list_20_to_12(void)
{
    name = "list_20_to_12";
    size_t len = list_to_move(WIDTH), moving;
    int good = records(len, WIDTH, &moving);
    move(brundelak_list_20_to_12, brundelak_list_12_to_20, len, bad_list(len) ? 8 : !good ? 9 : moving > 0 ? 17 : 0, len / WIDTH * OLD);
}

/* ---- edits of the list where it stands ---- */

/* A list, now and then of zero bytes alone. */
static size_t list_to_edit(void)
{
    size_t len = list();
    if (drawn_below(8) == 0)
        memset(bytes.at, 0, len);
    given(&bytes);
    return len;
}

/* Refused, every byte of the list is as it was; answered, all but the record at a place, which has these words. */
static int put_there(uint8_t status, size_t place, const uint32_t *of)
{
    return status != 0 ? kept(&bytes) : kept_but(&bytes, place, WIDTH) && memcmp(bytes.at + place, of, WIDTH) == 0;
}

static void strike(void)
{
    static const uint32_t nought[WORDS];
    name = "strike";
    size_t len = list_to_edit();
    uint32_t number = number_of_few();
    size_t place = place_of(len, number);
    uint8_t status = brundelak_strike(bytes.at, len, number);
    judge(status, status == (bad_list(len) ? 8 : number == 0 || place == len ? 10 : 0) && put_there(status, place, nought));
}

static void add(void)
{
    name = "add";
    uint32_t of[WORDS];
    any_star(of);
    of[0] = number_of_few();
    size_t len = list_to_edit(), same = place_of(len, of[0]), empty = place_of(len, 0);
    uint8_t status = brundelak_add(bytes.at, len, of[0], of[1], (int32_t)of[2], (int32_t)of[3], (int32_t)of[4]);
    uint8_t expected = bad_list(len) ? 8 : of[0] == 0 || !in_range(of) ? 9 : same != len ? 18 : empty == len ? 19 : 0;
    judge(status, status == expected && put_there(status, empty, of));
}

static void gather(void)
{
    static uint8_t want[ROOM];
    name = "gather";
    size_t len = list_to_edit(), end = 0;
    memset(want, 0, len);
    for (size_t i = 0; i < len / WIDTH; i++) {
        uint32_t of[WORDS];
        star_of(WIDTH, i, of);
        if (of[0] != 0) {
            memcpy(want + end, of, WIDTH);
            end += WIDTH;
        }
    }
    uint8_t status = brundelak_gather(bytes.at, len);
    int done = status != 0 ? kept(&bytes) : kept_beyond(&bytes, len) && memcmp(bytes.at, want, len) == 0;
    judge(status, status == (bad_list(len) ? 8 : 0) && done);
}

/* ---- the residuals of a night ---- */

/* Bytes of a sheet. */
enum { SHEET = sizeof(int64_t[BRUNDELAK_FIGURES]) };

/* So many angles near one another, or up to 64; spoilt, some of any bits, about one or many. The least refusal of 1 and 3 among them, 0 where
 * there is none. */
static uint8_t angles(struct room *r, size_t count, int spoilt)
{
    static const double ends[] = {64.0, -64.0, 6.283185307179586, 3.141592653589793, 0.0, -0.0};
    double *to = lend(r, 8 * count);
    size_t among = drawn_below(2) ? count : 3;
    uint8_t refusal = 0;
    for (size_t i = 0; i < count; i++) {
        double part = (double)(drawn_bits() >> 11) / 9007199254740992.0 - 0.5;
        size_t by = drawn_below(8);
        double x = by == 0 ? 128.0 * part : by == 1 ? ends[drawn_below(6)] : 1.0 + 0.008 * part;
        if (spoilt && drawn_below(among) == 0)
            x = any_double();
        memcpy(to + i, &x, sizeof x);
        uint8_t one = !isfinite(x) ? 1 : x > 64.0 || x < -64.0 ? 3 : 0;
        refusal = one != 0 && (refusal == 0 || one < refusal) ? one : refusal;
    }
    given(r);
    return refusal;
}

/* Whether six numbers can be the sheet of a night. */
static int is_sheet(const struct room *r, size_t entries, size_t of_status_0)
{
    int64_t of[BRUNDELAK_FIGURES];
    memcpy(of, r->at, sizeof of);
    int64_t count = of[0], sum = of[1], squares = of[2], largest = of[3], place = of[4], aside = of[5];
    if (count < 0 || aside < 0 || (size_t)(count + aside) != of_status_0 || largest < 0 || largest > 1000000 || !kept_beyond(r, SHEET))
        return 0;
    if (count == 0)
        return sum == 0 && squares == 0 && largest == 0 && place == 0;
    return place >= 0 && (size_t)place < entries && statuses.at[place] == 0 && squares >= largest * largest && squares <= count * largest * largest
        && sum <= count * largest && sum >= -count * largest && sum * sum <= count * squares && (sum - squares) % 2 == 0;
}

static void residuals(void)
{
    name = "residuals";
    struct room *const of[4] = {&ascs, &decs, &seen_ascs, &seen_decs};
    size_t entries = any_count(), unequal = drawn_below(8) == 0 ? drawn_below(5) : 5, spoilt = drawn_below(4) == 0 ? drawn_below(5) : 5, zeros = 0;
    size_t lens[5];
    for (size_t i = 0; i < 5; i++)
        lens[i] = i == unequal ? drawn_below(entries + 4) : entries;
    uint8_t *status_of = lend(&statuses, lens[4]), floats = 0;
    for (size_t i = 0; i < lens[4]; i++) {
        status_of[i] = drawn_below(4) == 0 ? (uint8_t)drawn_bits() : 0;
        zeros += status_of[i] == 0;
    }
    given(&statuses);
    for (size_t i = 0; i < 4; i++) {
        uint8_t one = angles(of[i], lens[i], i == spoilt || spoilt == 4);
        floats = one != 0 && (floats == 0 || one < floats) ? one : floats;
    }
    for (size_t i = 0; i < 2; i++)
        lend(&sheets[i], SHEET);
    uint8_t status = brundelak_residuals(status_of, lens[4], (double *)ascs.at, lens[0], (double *)decs.at, lens[1], (double *)seen_ascs.at,
                                         lens[2], (double *)seen_decs.at, lens[3], (int64_t *)sheets[0].at, (int64_t *)sheets[1].at);
    int unlike = lens[4] > BRUNDELAK_MOST_STARS;
    for (size_t i = 0; i < 5; i++)
        unlike |= lens[i] != lens[4];
    int sound = status == (unlike ? 8 : floats) && kept(&statuses);
    for (size_t i = 0; i < 4; i++)
        sound &= kept(of[i]);
    for (size_t i = 0; i < 2; i++)
        sound &= status == 0 ? is_sheet(&sheets[i], entries, zeros) : kept(&sheets[i]);
    judge(status, sound);
}

/* ---- the heading of a star ---- */

typedef uint8_t sight_call(uint32_t, int32_t, int32_t, int32_t, double, double, double, double, double *, double *, double *);

/* Of a star in range or not, one in eight past 1.57 in declination, which nothing moves; days, and a place that is good more often than not. */
static void sight(sight_call *call)
{
    uint32_t of[WORDS];
    double *to[3];
    int all_kept = 1, sound = 1;
    any_star(of);
    for (size_t i = 0; i < 4; i++)
        args[i] = i < 2 ? any_day() : drawn_below(4) == 0 ? any_double() : ((double)(drawn_bits() >> 11) / 9007199254740992.0 - 0.5) * 3.14;
    if (drawn_below(8) == 0) {
        of[2] = 323840000 + (uint32_t)drawn_below(160000);
        of[3] = of[4] = 0;
        args[1] = args[0];
    }
    for (size_t i = 0; i < 3; i++)
        to[i] = lend_floats(&places[i], 1);
    uint8_t status = call(of[1], (int32_t)of[2], (int32_t)of[3], (int32_t)of[4], args[0], args[1], args[2], args[3], to[0], to[1], to[2]);
    for (size_t i = 0; i < 3; i++) {
        all_kept &= kept(&places[i]);
        sound &= kept_beyond(&places[i], sizeof(double)) && (status != 0 || isfinite(*to[i]));
    }
    if (status == 0)
        sound &= in_range(of) && *to[0] >= 0.0 && *to[0] < 360.0 && *to[1] >= -180.0 && *to[1] <= 180.0 && *to[2] >= -90.0 && *to[2] <= 90.0;
    int its_own = status <= 4 || status == 7 || status == 9 || status == 14;
    judge(status, sound && (status != 9 || !in_range(of)) && (status == 0 || (all_kept && its_own)));
}

static void heading(void)
{
    name = "heading";
    sight(brundelak_heading);
}

static void heading_published(void)
{
    name = "heading_published";
    sight(brundelak_heading_published);
}

/* ---- the mean of headings ---- */

/* Whether with none of the headings more than half of all agree, by 999.9 seconds: those that are beside the limit are left out. */
static int none_agree(const double *of, size_t count)
{
    for (size_t i = 0; i < count; i++) {
        size_t agree = 0;
        for (size_t j = 0; j < count; j++) {
            double off = fabs(of[i] - of[j]);
            agree += off < 999.9 / 3600.0 || off > 360.0 - 999.9 / 3600.0;
        }
        if (2 * agree > count)
            return 0;
    }
    return 1;
}

/* Of headings about north or elsewhere, some of them anywhere, in one set of four of any bits too. */
static void mean_heading(void)
{
    name = "mean_heading";
    size_t count = any_count(), spoilt = drawn_below(4) == 0, wide = 2 + drawn_below(6), among = drawn_below(2) ? count : 3;
    double *to = lend(&ascs, 8 * count), *mean = lend_floats(&places[0], 1), about = drawn_below(2) ? 0.0 : 359.0 * (double)drawn_below(2);
    uint8_t floats = 0;
    for (size_t i = 0; i < count; i++) {
        double part = (double)(drawn_bits() >> 11) / 9007199254740992.0;
        double x = drawn_below(wide) == 0 ? 360.0 * part : about + 0.4 * (part - 0.5);
        x = x < 0.0 ? x + 360.0 : x;
        x = x < 360.0 ? x : 0.0;
        if (spoilt && drawn_below(among) == 0)
            x = any_double();
        memcpy(to + i, &x, sizeof x);
        uint8_t one = !isfinite(x) ? 1 : x < 0.0 || x >= 360.0 ? 3 : 0;
        floats = one != 0 && (floats == 0 || one < floats) ? one : floats;
    }
    given(&ascs);
    memset(lend(&statuses, count), 0, count);
    lend(&sheets[0], SHEET);
    uint8_t status = brundelak_mean_heading(to, count, mean, (int64_t *)sheets[0].at);
    uint8_t want = count == 0 || count > BRUNDELAK_MOST_STARS ? 8 : floats;
    int sound = kept(&ascs);
    if (status == 0) {
        int64_t taken;
        memcpy(&taken, sheets[0].at, sizeof taken);
        sound &= want == 0 && is_sheet(&sheets[0], count, count) && 2 * (size_t)taken > count && kept_beyond(&places[0], sizeof(double))
            && *mean >= 0.0 && *mean < 360.0;
    } else {
        sound &= kept(&places[0]) && kept(&sheets[0]) && (want != 0 ? status == want : status == 20 && none_agree(to, count));
    }
    judge(status, sound);
}

/* ---- the guard is tried first ---- */

enum { SEEN = 3 };

static void see(int signal)
{
    (void)signal;
    _exit(SEEN);
}

/* Reads a byte beyond what is lent, on the guarded side. */
static void read_past(int side)
{
    volatile uint8_t *lent;
    do
        lent = lend(&places[0], sizeof(double));
    while ((places[0].at == places[0].start) != (side < 0));
    signal(SIGSEGV, see);
    signal(SIGBUS, see);
    (void)lent[side < 0 ? -1 : 8];
    _exit(0);
}

static void try_the_guard(void)
{
    for (int side = -1; side <= 1; side += 2) {
        int ended = 0;
        pid_t child = fork();
        if (child == 0)
            read_past(side);
        if (child < 0 || waitpid(child, &ended, 0) != child || !WIFEXITED(ended) || WEXITSTATUS(ended) != SEEN) {
            printf("fuzz: a byte read past what is lent is not seen\n");
            exit(1);
        }
    }
    for (int k = 0; k < 64; k++) {
        uint8_t *lent = lend(&places[0], sizeof(double));
        lent[lent == places[0].start ? 8 : -1] ^= 1;
        if (kept_beyond(&places[0], sizeof(double))) {
            printf("fuzz: a canary written is not seen\n");
            exit(1);
        }
    }
}

int main(int argc, char **argv)
{
    uint64_t calls = argc > 1 ? strtoull(argv[1], NULL, 10) : 0;
    drawn_from = argc > 2 ? strtoull(argv[2], NULL, 10) : 1;
    for (size_t i = 0; i < 3; i++)
        make(&places[i], sizeof(double));
    for (size_t i = 0; i <= NEXT; i++)
        make(&words[i], sizeof(uint64_t));
    make(&bytes, ROOM);
    make(&slice, ROOM);
    make(&back, ROOM);
    make(&statuses, MANY);
    make(&ascs, sizeof(double) * MANY);
    make(&decs, sizeof(double) * MANY);
    make(&seen_ascs, sizeof(double) * MANY);
    make(&seen_decs, sizeof(double) * MANY);
    make(&tally, TALLY);
    for (size_t i = 0; i < 2; i++)
        make(&sheets[i], SHEET);
    try_the_guard();
    signal(SIGSEGV, fault);
    signal(SIGBUS, fault);
    signal(SIGFPE, fault);
    static void (*const others[KINDS - FUNCTION_COUNT])(void) = {
        star, find, batch, batch_published, rotate, rotate_published, tally_raise, put_star, radio_open, radio_star, radio_accept,
        radio_put_head, radio_put_star, radio_to_list, list_to_radio, list_12_to_20, list_20_to_12, strike, add, gather, residuals,
        heading, heading_published, mean_heading};
    for (at_call = 0; at_call < calls; at_call++) {
        which = drawn_below(KINDS);
        memset(args, 0, sizeof args);
        if (which < FUNCTION_COUNT)
            numbers(&functions[which]);
        else
            others[which - FUNCTION_COUNT]();
    }
    uint64_t all = 0, least = UINT64_MAX;
    for (which = 0; which < KINDS; which++) {
        uint64_t fewer = answered[which] < refused[which] ? answered[which] : refused[which];
        least = fewer < least ? fewer : least;
        all += answered[which];
    }
    printf("fuzz: %" PRIu64 " calls at guarded memory, %" PRIu64 " answered; each function answered and refused at least %" PRIu64
           " times; unsound %" PRIu64 "\n", calls, all, least, unsound);
    return least > 0 && unsound == 0 ? 0 : 1;
}
