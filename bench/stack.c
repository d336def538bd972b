/* stack: the most bytes of stack that each entry point of the archive takes, its return address among them, a line each, the deepest last.
 * A call runs on a stack of its own that is painted; how deep the paint is gone is what it took. The same call of a function that does
 * nothing is taken off, so that the driver's frames and the arguments that it pushes do not count. */
#define _GNU_SOURCE
#include <stdio.h>
#include <stdlib.h>
#include <string.h>
#include <ucontext.h>
#include "../oracle/bits.h"
#include "../oracle/functions.h"

/* ---- random numbers (splitmix64) ---- */

static double between(double low, double high)
{
    return low + (double)(drawn_bits() >> 11) / 9007199254740992.0 * (high - low);
}

/* A small number, a day, any bits, or an infinity. */
static double any_double(void)
{
    uint64_t b = drawn_bits();
    size_t by = drawn_below(16);
    double x;
    if (by < 8)
        return between(-1.57, 1.57);
    if (by < 12)
        return between(1721045.0, 3182045.0);
    if (by < 14)
        return between(-64.0, 64.0);
    b = by == 14 ? b : (uint64_t)0x7FF << 52;
    memcpy(&x, &b, sizeof x);
    return x;
}

/* ---- the painted stack ---- */

enum { WORDS = 32768 };
static uint64_t stack[WORDS];
static const uint64_t PAINT = 0xC3A55A3C96E17B2D;

typedef void any_function(void);
/* What is called in the place of every function, and the call that is measured. */
static any_function *called;
static void (*work)(void);

static void nothing(void)
{
}

static void run_on_it(void)
{
    static ucontext_t here, there;
    getcontext(&there);
    there.uc_stack.ss_sp = stack;
    there.uc_stack.ss_size = sizeof stack;
    there.uc_link = &here;
    makecontext(&there, work, 0);
    swapcontext(&here, &there);
}

/* The bytes from the stack's top down to the deepest that the work has written. */
static size_t depth(void)
{
    size_t kept = 0;
    for (size_t i = 0; i < WORDS; i++)
        stack[i] = PAINT;
    run_on_it();
    while (kept < WORDS && stack[kept] == PAINT)
        kept++;
    if (kept == 0) {
        printf("stack: more than %zu bytes\n", sizeof stack);
        exit(1);
    }
    return sizeof stack - sizeof *stack * kept;
}

/* A function's own depth: beyond what the same work takes with nothing called, whose return address is the function's. */
static size_t own_depth(any_function *f, void (*by)(void))
{
    work = by;
    called = nothing;
    size_t driver = depth();
    called = f;
    return depth() - driver + sizeof(void *);
}

/* ---- functions of numbers ---- */

#define CALLED(name, given, answered) \
    static uint8_t called_##name(const double *a, double *const *o) { return ((__typeof__(&brundelak_##name))called)(given, answered); }
FUNCTIONS(CALLED)
#define MEASURED(name, given, answered) {called_##name, (any_function *)brundelak_##name},
static const struct { call *by; any_function *f; } measured[] = {FUNCTIONS(MEASURED)};

enum { CALLS = 4000 };
static double drawn[CALLS][9], answers[3];
static double *const places[3] = {&answers[0], &answers[1], &answers[2]};
static size_t which;

static void calls(void)
{
    for (size_t i = 0; i < CALLS; i++)
        measured[which].by(drawn[i], places);
}

/* Arguments of which many are answered: once one is, most of the others change a number or two of it. */
static void draw(const struct function *f)
{
    size_t answered = 0, last = 0;
    for (size_t i = 0; i < CALLS; i++) {
        int fresh = answered == 0 || drawn_below(8) == 0;
        memcpy(drawn[i], drawn[last], sizeof drawn[i]);
        for (size_t k = 0; k < f->given; k++)
            if (fresh || drawn_below(f->given) == 0)
                drawn[i][k] = any_double();
        if (f->f(drawn[i], places) == 0) {
            answered++;
            last = i;
        }
    }
    if (answered < CALLS / 20 || answered == CALLS) {
        printf("stack: %s answered %zu of %d calls\n", f->name, answered, CALLS);
        exit(1);
    }
}

/* ---- lists ---- */

enum { WIDTH = BRUNDELAK_RECORD_BYTES, STARS = BRUNDELAK_MOST_STARS, LIST = BRUNDELAK_MOST_BYTES, RADIO = BRUNDELAK_MOST_RADIO_BYTES };
/* Bytes of a record of the days before there were rates. */
enum { OLD = 12 };
static uint8_t list[LIST + 1], holed[LIST], still[LIST], old[OLD * STARS + 1], radio[RADIO], text[LIST > RADIO ? LIST : RADIO], statuses[STARS];
static double ascs[STARS], decs[STARS];
static uint32_t tally[BRUNDELAK_COUNTS], word[3];
static int32_t signed_word[3];
static uint64_t list_len, still_len, old_len, radio_len, after;

#define AT(name) ((__typeof__(&brundelak_##name))called)

static int32_t any_rate(void)
{
    return (int32_t)drawn_below(40001) - 20000;
}

/* A list of so many stars, no place empty, and its radio form; the list of before, without rates, and that one moved up; the list with every third place
 * empty. */
static void fill(size_t stars)
{
    for (size_t i = 0; i < stars; i++) {
        if (brundelak_put_star(list, sizeof list, WIDTH * i, 1 | (uint32_t)(drawn_bits() >> 32 >> drawn_below(32)), (uint32_t)drawn_below(1296000000),
                               (int32_t)drawn_below(648000001) - 324000000, any_rate(), any_rate(), &after) != 0)
            exit(1);
        memcpy(old + OLD * i, list + WIDTH * i, OLD);
        memcpy(holed + WIDTH * i, list + WIDTH * i, WIDTH);
        if (i % 3 == 1)
            memset(holed + WIDTH * i, 0, 4);
    }
    list_len = WIDTH * stars;
    old_len = OLD * stars;
    if (brundelak_list_to_radio(list, list_len, radio, sizeof radio, &radio_len) != 0)
        exit(1);
    if (brundelak_list_12_to_20(old, old_len, still, sizeof still, &still_len) != 0 || still_len != list_len)
        exit(1);
}

/* Records out of range, and a radio form with some bytes of numbers that are none. */
static void damage(void)
{
    for (size_t n = list_len == 0 ? 0 : 1 + list_len / 500; n > 0; n--) {
        list[drawn_below(list_len)] = 0xFF;
        holed[drawn_below(list_len)] = 0xFF;
        still[drawn_below(still_len)] = 0xFF;
        old[drawn_below(old_len)] = 0xFF;
        radio[radio_len / 2 + drawn_below(radio_len / 2)] = 0xFF;
    }
}

/* A length less some bytes. */
static size_t less(size_t len, size_t by)
{
    return len < by ? 0 : len - by;
}

static void batch(void)
{
    AT(batch)(list, list_len, 2415020.5, 2462088.69, statuses, STARS, ascs, STARS, decs, STARS, tally);
    AT(batch)(holed, list_len, 2415020.5, 2462088.69, statuses, STARS, ascs, STARS, decs, STARS, tally);
    AT(batch)(list, list_len, 2415020.5, 0.0, statuses, STARS, ascs, STARS, decs, STARS, tally);
    AT(batch)(list, list_len + 1, 2415020.5, 2462088.69, statuses, STARS, ascs, STARS, decs, STARS, tally);
}

static void tally_raise(void)
{
    for (unsigned i = 0; i < 256; i++)
        AT(tally_raise)((uint8_t)i, tally);
}

static void star(void)
{
    for (size_t i = 0; i <= list_len; i += 4) {
        AT(star)(list, list_len, i, &word[0], &word[1], &signed_word[0], &signed_word[1], &signed_word[2], &after);
        AT(star)(holed, list_len, i, &word[0], &word[1], &signed_word[0], &signed_word[1], &signed_word[2], &after);
    }
}

static void put_star(void)
{
    for (size_t i = 0; i <= sizeof text; i += 4)
        AT(put_star)(text, sizeof text, i, 7, (uint32_t)i << 15, -7, (int32_t)i / 2 - 1000, -7, &after);
}

static void find(void)
{
    for (uint32_t i = 0; i < 80; i++)
        AT(find)(i % 2 ? list : holed, list_len, i / 2, &after, &word[1], &signed_word[0], &signed_word[1], &signed_word[2]);
}

static void radio_open(void)
{
    for (size_t i = 0; i < 8; i++)
        AT(radio_open)(radio + i % 2, less(radio_len, i), &word[0], &after);
}

static void radio_star(void)
{
    for (size_t i = 0; i <= radio_len; i++)
        AT(radio_star)(radio, radio_len, i, &word[0], &word[1], &signed_word[0], &signed_word[1], &signed_word[2], &after);
}

static void radio_accept(void)
{
    for (size_t i = 0; i < 4; i++)
        AT(radio_accept)(radio, less(radio_len, i), &word[0]);
}

static void radio_put_head(void)
{
    for (uint32_t i = 0; i < STARS + 1000; i++)
        AT(radio_put_head)(text, 4, i % 5, i, &after);
}

static void radio_put_star(void)
{
    for (uint32_t i = 0; i < 32; i++)
        for (size_t room = 0; room < 24; room++)
            AT(radio_put_star)(text, room, 0, (uint32_t)1 << i, (uint32_t)1 << i, -(int32_t)(i * 12000000), (int32_t)(i * 640), -(int32_t)i, &after);
}

static void radio_to_list(void)
{
    for (size_t i = 0; i < 4; i++)
        AT(radio_to_list)(radio, less(radio_len, i / 2), text, i % 2 ? WIDTH : sizeof text, &after);
}

static void list_to_radio(void)
{
    for (size_t i = 0; i < 4; i++)
        AT(list_to_radio)(list, less(list_len, i / 2), text, i % 2 ? WIDTH : sizeof text, &after);
}

static void list_12_to_20(void)
{
    for (size_t i = 0; i < 4; i++)
        AT(list_12_to_20)(old, less(old_len, i / 2), text, i % 2 ? WIDTH : sizeof text, &after);
}

static void list_20_to_12(void)
{
    for (size_t i = 0; i < 4; i++) {
        AT(list_20_to_12)(still, less(still_len, i / 2), text, i % 2 ? WIDTH : sizeof text, &after);
        AT(list_20_to_12)(list, less(list_len, i / 2), text, i % 2 ? WIDTH : sizeof text, &after);
    }
}

static void strike(void)
{
    for (uint32_t i = 0; i < 40; i++)
        AT(strike)(holed, less(list_len, i / 32), i);
}

static void add(void)
{
    for (uint32_t i = 0; i < 40; i++)
        AT(add)(holed, less(list_len, i / 32), i, 3600000 * i, -(int32_t)(i * 10000000), (int32_t)(i * 640), -(int32_t)i);
}

static void gather(void)
{
    for (size_t i = 0; i < 2; i++)
        AT(gather)(holed, less(list_len, 1 - i));
}

/* A night measured where it is computed, and beside it; a float that is refused; slices of unequal lengths. */
static void residuals(void)
{
    static const double last[] = {0.5, 65.0, 1.0 / 0.0};
    static uint8_t all[STARS];
    static double measured[STARS];
    int64_t sheets[2][BRUNDELAK_FIGURES];
    size_t n = list_len / WIDTH;
    for (size_t i = 0; i < STARS; i++) {
        ascs[i] = 6.28 - 0.002 * (double)i;
        decs[i] = -1.5 + 0.001 * (double)i;
        measured[i] = decs[i] + 0.000001 * (double)i;
    }
    for (size_t k = 0; k < sizeof last / sizeof *last; k++) {
        measured[n == 0 ? 0 : n - 1] = last[k];
        AT(residuals)(all, n, ascs, n, decs, n, ascs, n, measured, n, sheets[0], sheets[1]);
        AT(residuals)(all, n, measured, n, decs, less(n, k), ascs, n, measured, n, sheets[0], sheets[1]);
    }
}

/* A star that is up and one out of range; a day and a place that are refused. */
static void heading(void)
{
    double out[3];
    for (uint32_t i = 0; i < 64; i++)
        AT(heading)(20000000 * i, (int32_t)(10000000 * i) - 310000000, any_rate(), any_rate(), 2415020.5, i == 1 ? 0.0 : 2462088.69, 0.1 * i, 0.9,
                    &out[0], &out[1], &out[2]);
    AT(heading)(1296000000, 0, 0, 0, 2415020.5, 2462088.69, 0.0, 0.9, &out[0], &out[1], &out[2]);
    AT(heading)(0, 0, 0, 0, 2415020.5, 2462088.69, 0.0, 1.6, &out[0], &out[1], &out[2]);
}

/* Of as many as there may be: those that agree, and those of which none do; none, and one that is refused. */
static void mean_heading(void)
{
    static double headings[BRUNDELAK_MOST_STARS];
    double mean;
    int64_t sheet[BRUNDELAK_FIGURES];
    for (size_t i = 0; i < BRUNDELAK_MOST_STARS; i++)
        headings[i] = i % 7 == 0 ? 180.0 : 359.9 + 0.00003 * (double)i < 360.0 ? 359.9 + 0.00003 * (double)i : 0.0;
    AT(mean_heading)(headings, BRUNDELAK_MOST_STARS, &mean, sheet);
    AT(mean_heading)(headings, 0, &mean, sheet);
    for (size_t i = 0; i < 64; i++)
        headings[i] = 5.0 * (double)i;
    AT(mean_heading)(headings, 64, &mean, sheet);
    headings[1] = 360.0;
    AT(mean_heading)(headings, 64, &mean, sheet);
}

#define LISTED(name, by) {#name, (any_function *)brundelak_##name, by}
static const struct { const char *name; any_function *f; void (*by)(void); } listed[] = {
    LISTED(batch, batch), LISTED(batch_published, batch), LISTED(rotate, batch), LISTED(rotate_published, batch),
    LISTED(tally_raise, tally_raise), LISTED(star, star), LISTED(put_star, put_star), LISTED(find, find), LISTED(radio_open, radio_open),
    LISTED(radio_star, radio_star), LISTED(radio_accept, radio_accept), LISTED(radio_put_head, radio_put_head),
    LISTED(radio_put_star, radio_put_star), LISTED(radio_to_list, radio_to_list), LISTED(list_to_radio, list_to_radio),
    LISTED(list_12_to_20, list_12_to_20), LISTED(list_20_to_12, list_20_to_12),
    LISTED(strike, strike), LISTED(add, add), LISTED(gather, gather), LISTED(residuals, residuals),
    LISTED(heading, heading), LISTED(heading_published, heading),
    LISTED(mean_heading, mean_heading)};

enum { LISTED_COUNT = sizeof listed / sizeof *listed };

/* The deepest over lists of several lengths, good and damaged. */
static size_t over_lists(any_function *f, void (*by)(void))
{
    static const size_t lengths[] = {0, 1, 2, 3, STARS - 1, STARS};
    size_t deepest = 0;
    for (size_t i = 0; i < 2 * (sizeof lengths / sizeof *lengths); i++) {
        fill(lengths[i / 2]);
        if (i % 2 == 1)
            damage();
        size_t one = own_depth(f, by);
        deepest = one > deepest ? one : deepest;
    }
    return deepest;
}

/* ---- */

struct taken { const char *name; size_t bytes; };

static int by_bytes(const void *a, const void *b)
{
    const struct taken *x = a, *y = b;
    return x->bytes != y->bytes ? (x->bytes > y->bytes) - (x->bytes < y->bytes) : strcmp(x->name, y->name);
}

int main(void)
{
    static struct taken all[FUNCTION_COUNT + LISTED_COUNT];
    for (which = 0; which < FUNCTION_COUNT; which++) {
        draw(&functions[which]);
        all[which] = (struct taken){functions[which].name, own_depth(measured[which].f, calls)};
    }
    for (size_t k = 0; k < LISTED_COUNT; k++)
        all[FUNCTION_COUNT + k] = (struct taken){listed[k].name, over_lists(listed[k].f, listed[k].by)};
    qsort(all, FUNCTION_COUNT + LISTED_COUNT, sizeof *all, by_bytes);
    for (size_t i = 0; i < FUNCTION_COUNT + LISTED_COUNT; i++)
        printf("%6zu %s\n", all[i].bytes, all[i].name);
    return 0;
}
