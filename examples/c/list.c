/* A list written star by star, read back, reduced from one day to another, each star's place or why it has none, edited where it stands,
   and read and reduced again with an empty place in it. */
#include <stdio.h>
#include "brundelak.h"

enum { STARS = 5 };

struct star {
    uint32_t number, asc;
    int32_t dec, asc_rate, dec_rate;
};

/* Places of J2000 in milliarcseconds, and their yearly changes: Polaris and Capella; a right ascension of a whole turn, which is out of
   range; the pole itself, and a star that moves past it. */
static const struct star stars[STARS] = {{424, 136636350, 321350800, 3441, -12},
                                         {1708, 285020400, 165592800, 109, -427},
                                         {1, 1296000000, 0, 0, 0},
                                         {2, 0, 324000000, 0, 0},
                                         {3, 0, 324000000, 0, 1}};

/* Writes the stars that are in range, and answers how many bytes their list has. */
static uint64_t write_list(uint8_t *out, uint64_t len)
{
    uint64_t end = 0;
    for (int i = 0; i < STARS; i++) {
        uint8_t status = brundelak_put_star(out, len, end, stars[i].number, stars[i].asc, stars[i].dec, stars[i].asc_rate,
                                            stars[i].dec_rate, &end);
        if (status != BRUNDELAK_ANSWERED)
            printf("star %u is not written: %s\n", (unsigned)stars[i].number, brundelak_sentence(status));
    }
    return end;
}

/* The next star of a list, and the place after it. */
static uint8_t next_star(const uint8_t *list, uint64_t len, uint64_t *place, struct star *s)
{
    return brundelak_star(list, len, *place, &s->number, &s->asc, &s->dec, &s->asc_rate, &s->dec_rate, place);
}

/* Walks a list to its end. */
static uint8_t print_list(const uint8_t *list, uint64_t len)
{
    struct star s;
    uint64_t place = 0;
    uint8_t status;
    while ((status = next_star(list, len, &place, &s)) == BRUNDELAK_ANSWERED)
        printf("star %u at %u, %d moves by %d, %d a year\n", (unsigned)s.number, (unsigned)s.asc, (int)s.dec, (int)s.asc_rate,
               (int)s.dec_rate);
    return status;
}

/* Reduces a list to 2006 January 1.0, and walks it with what the batch answered. The batch goes by records, empty places among them: that
   of the star that is shown is the one that ends at the next place. */
static uint8_t print_places(const uint8_t *list, uint64_t len)
{
    struct star s;
    uint64_t place = 0;
    uint8_t status[STARS], answer;
    double asc[STARS], dec[STARS];
    uint32_t tally[BRUNDELAK_COUNTS];
    answer = brundelak_batch(list, len, 2451545.0, 2453736.5, status, STARS, asc, STARS, dec, STARS, tally);
    if (answer != BRUNDELAK_ANSWERED) {
        printf("refused by %u: %s\n", (unsigned)answer, brundelak_sentence(answer));
        return answer;
    }
    while ((answer = next_star(list, len, &place, &s)) == BRUNDELAK_ANSWERED) {
        uint64_t i = place / BRUNDELAK_RECORD_BYTES - 1;
        if (status[i] == BRUNDELAK_ANSWERED)
            printf("star %u is reduced to %.9f, %.9f radians\n", (unsigned)s.number, asc[i], dec[i]);
        else
            printf("star %u is refused by %u: %s\n", (unsigned)s.number, (unsigned)status[i], brundelak_sentence(status[i]));
    }
    printf("answered %u, too steep %u, past the pole %u, empty %u\n", (unsigned)tally[BRUNDELAK_ANSWERED],
           (unsigned)tally[BRUNDELAK_REFUSAL_STEEP], (unsigned)tally[BRUNDELAK_REFUSAL_ANGLE],
           (unsigned)tally[BRUNDELAK_REFUSAL_NO_STAR]);
    return answer;
}

/* Adds a star to a list, and says why where that is refused. */
static void add(uint8_t *list, uint64_t len, struct star s)
{
    uint8_t status = brundelak_add(list, len, s.number, s.asc, s.dec, s.asc_rate, s.dec_rate);
    if (status != BRUNDELAK_ANSWERED)
        printf("star %u is not added: %s\n", (unsigned)s.number, brundelak_sentence(status));
}

/* Strikes the star past the pole and adds Arcturus in its place, then strikes the star at the pole, whose place is left empty. */
static uint8_t edit_list(uint8_t *list, uint64_t len)
{
    static const struct star arcturus = {5340, 770095050, 69056700, -1158, -1999};
    add(list, len, arcturus); /* no place is empty yet */
    uint8_t status = brundelak_strike(list, len, 3);
    if (status != BRUNDELAK_ANSWERED)
        return status;
    add(list, len, arcturus);
    add(list, len, arcturus); /* and now it is there */
    return brundelak_strike(list, len, 2);
}

int main(void)
{
    if (brundelak_version() != BRUNDELAK_VERSION_NUMBER) {
        fprintf(stderr, "the archive is not of version %s, which the header is of\n", BRUNDELAK_VERSION);
        return 1;
    }
    uint8_t list[BRUNDELAK_RECORD_BYTES * STARS];
    uint64_t len = write_list(list, sizeof list);

    if (print_list(list, len) != BRUNDELAK_END || print_places(list, len) != BRUNDELAK_END)
        return 1;
    /* With its empty place the list is one still. */
    if (edit_list(list, len) != BRUNDELAK_ANSWERED || print_list(list, len) != BRUNDELAK_END || print_places(list, len) != BRUNDELAK_END)
        return 1;
    /* The stars brought forward, and the place that is empty behind them cut off. */
    if (brundelak_gather(list, len) != BRUNDELAK_ANSWERED)
        return 1;
    return print_places(list, len - BRUNDELAK_RECORD_BYTES) == BRUNDELAK_END ? 0 : 1;
}
