/* night WHAT LIST STARS NIGHTS: the first stars of a list from J2000 to each of some nights, by the batch, under one rotation, by the chain
 * star by star, or by another library where it is compiled in. No place of the list may be empty, as a batch does no work for one. What
 * takes no rates is given a star where its rates have brought it, which is worked out here. Whatever the counts, the same list is read and
 * as many places are added up, so that the difference of two counts is the work's own.
 * night WHAT LIST time: the nanoseconds of a star, the night's own taken off: the median of seven rounds.
 * night WHAT LIST apart: the widest distance of its places from the chain's, in seconds of arc, over all stars of the first night. */
#include <math.h>
#include <stdint.h>
#include <stdio.h>
#include <stdlib.h>
#include <string.h>
#include "brundelak.h"
#include "clock.h"
#ifdef WITH_ERFA
#include <erfa.h>
#endif
#ifdef WITH_NOVA
#include <libnova/aberration.h>
#include <libnova/nutation.h>
#include <libnova/precession.h>
#endif

enum { WIDTH = BRUNDELAK_RECORD_BYTES, ROOM = BRUNDELAK_MOST_STARS };
static const double J2000 = 2451545.0, FIRST_NIGHT = 2462088.69, RADIAN = 3.14159265358979323846 / 180.0;

static uint8_t bytes[WIDTH * ROOM], status[ROOM];
static double given_asc[ROOM], given_dec[ROOM], asc_rate[ROOM], dec_rate[ROOM], asc[ROOM], dec[ROOM];

static double years(double day)
{
    return (day - J2000) / 365.25;
}

/* A star's place after so many years. */
static double asc_after(size_t i, double years)
{
    return given_asc[i] + asc_rate[i] * years;
}

static double dec_after(size_t i, double years)
{
    return given_dec[i] + dec_rate[i] * years;
}

static void batch(size_t stars, double day)
{
    uint32_t tally[BRUNDELAK_COUNTS];
    if (brundelak_batch(bytes, WIDTH * stars, J2000, day, status, stars, asc, stars, dec, stars, tally) != 0 || tally[0] != stars)
        exit(1);
}

static void batch_published(size_t stars, double day)
{
    uint32_t tally[BRUNDELAK_COUNTS];
    if (brundelak_batch_published(bytes, WIDTH * stars, J2000, day, status, stars, asc, stars, dec, stars, tally) != 0 || tally[0] != stars)
        exit(1);
}

static void rotate(size_t stars, double day)
{
    uint32_t tally[BRUNDELAK_COUNTS];
    if (brundelak_rotate(bytes, WIDTH * stars, J2000, day, status, stars, asc, stars, dec, stars, tally) != 0 || tally[0] != stars)
        exit(1);
}

static void rotate_published(size_t stars, double day)
{
    uint32_t tally[BRUNDELAK_COUNTS];
    if (brundelak_rotate_published(bytes, WIDTH * stars, J2000, day, status, stars, asc, stars, dec, stars, tally) != 0 || tally[0] != stars)
        exit(1);
}

static void chain(size_t stars, double day)
{
    double since = years(day);
    for (size_t i = 0; i < stars; i++)
        if (brundelak_chain(asc_after(i, since), dec_after(i, since), J2000, day, &asc[i], &dec[i]) != 0)
            exit(1);
}

#ifdef WITH_ERFA
/* Precession alone, as rotate: the IAU 1976 matrix once, and each star's vector by it. */
static void erfa_matrix(size_t stars, double day)
{
    double matrix[3][3], from[3], to[3], since = years(day);
    eraPmat76(day, 0.0, matrix);
    for (size_t i = 0; i < stars; i++) {
        eraS2c(asc_after(i, since), dec_after(i, since), from);
        eraRxp(matrix, from, to);
        eraC2s(to, &asc[i], &dec[i]);
    }
}

/* What the day fixes once; eo turns the right ascension from ERFA's origin to the equinox. */
static void erfa_quick(size_t stars, double day)
{
    eraASTROM night;
    double from_origin, eo, since = years(day);
    eraApci13(day, 0.0, &night, &eo);
    for (size_t i = 0; i < stars; i++) {
        eraAtciqz(asc_after(i, since), dec_after(i, since), &night, &from_origin, &dec[i]);
        asc[i] = eraAnp(from_origin - eo);
    }
}

/* The same with the rates, which are of the coordinate in ERFA too; no parallax and no radial velocity. */
static void erfa_motion(size_t stars, double day)
{
    eraASTROM night;
    double from_origin, eo;
    eraApci13(day, 0.0, &night, &eo);
    for (size_t i = 0; i < stars; i++) {
        eraAtciq(given_asc[i], given_dec[i], asc_rate[i], dec_rate[i], 0.0, 0.0, &night, &from_origin, &dec[i]);
        asc[i] = eraAnp(from_origin - eo);
    }
}

static void erfa_full(size_t stars, double day)
{
    double from_origin, eo;
    for (size_t i = 0; i < stars; i++) {
        eraAtci13(given_asc[i], given_dec[i], asc_rate[i], dec_rate[i], 0.0, 0.0, day, 0.0, &from_origin, &dec[i], &eo);
        asc[i] = eraAnp(from_origin - eo);
    }
}
#endif

#ifdef WITH_NOVA
/* libnova has no nutation of a place: its angles are applied to first order, as the chain does. Degrees in and out. */
static void nova(size_t stars, double day)
{
    struct ln_nutation n;
    ln_get_nutation(day, &n);
    double sin_oblq = sin(n.ecliptic * RADIAN), cos_oblq = cos(n.ecliptic * RADIAN), since = years(day);
    for (size_t i = 0; i < stars; i++) {
        struct ln_equ_posn star = {asc_after(i, since) / RADIAN, dec_after(i, since) / RADIAN}, moved, seen;
        ln_get_equ_prec2(&star, J2000, day, &moved);
        ln_get_equ_aber(&moved, day, &seen);
        double a = moved.ra * RADIAN, sin_a = sin(a), cos_a = cos(a), tan_d = tan(moved.dec * RADIAN);
        asc[i] = (seen.ra + (cos_oblq + sin_oblq * sin_a * tan_d) * n.longitude - cos_a * tan_d * n.obliquity) * RADIAN;
        dec[i] = (seen.dec + sin_oblq * cos_a * n.longitude + sin_a * n.obliquity) * RADIAN;
    }
}
#endif

static const struct { const char *name; void (*work)(size_t, double); } works[] = {
    {"batch", batch},
    {"batch_published", batch_published},
    {"rotate", rotate},
    {"rotate_published", rotate_published},
    {"chain", chain},
#ifdef WITH_ERFA
    {"erfa_quick", erfa_quick},
    {"erfa_matrix", erfa_matrix},
    {"erfa_motion", erfa_motion},
    {"erfa_full", erfa_full},
#endif
#ifdef WITH_NOVA
    {"nova", nova},
#endif
};

static uint32_t word(size_t at)
{
    return bytes[at] | (uint32_t)bytes[at + 1] << 8 | (uint32_t)bytes[at + 2] << 16 | (uint32_t)bytes[at + 3] << 24;
}

/* A signed count of milliarcseconds in radians. */
static double radians(size_t at)
{
    return (int32_t)word(at) / 3600000.0 * RADIAN;
}

static double squared(double x)
{
    return x * x;
}

static double widest(void (*work)(size_t, double))
{
    static double other_asc[ROOM], other_dec[ROOM];
    double wide = 0.0;
    work(ROOM, FIRST_NIGHT);
    memcpy(other_asc, asc, sizeof asc);
    memcpy(other_dec, dec, sizeof dec);
    chain(ROOM, FIRST_NIGHT);
    for (size_t i = 0; i < ROOM; i++) {
        double h = squared(sin((dec[i] - other_dec[i]) / 2.0))
            + cos(dec[i]) * cos(other_dec[i]) * squared(sin((asc[i] - other_asc[i]) / 2.0));
        wide = fmax(wide, 2.0 * asin(sqrt(h)) / RADIAN * 3600.0);
    }
    return wide;
}

/* The nanoseconds of a star. */
static double timed(void (*work)(size_t, double))
{
    enum { ROUNDS = 7 };
    double figures[ROUNDS];
    work(ROOM, FIRST_NIGHT);
    for (size_t k = 0; k < ROUNDS; k++) {
        double begun = nanoseconds();
        work(ROOM, FIRST_NIGHT);
        double stars = nanoseconds();
        work(0, FIRST_NIGHT);
        figures[k] = ((stars - begun) - (nanoseconds() - stars)) / ROOM;
    }
    return median(figures, ROUNDS);
}

int main(int argc, char **argv)
{
    FILE *list = argc == 4 || argc == 5 ? fopen(argv[2], "rb") : NULL;
    if (list == NULL || fread(bytes, 1, sizeof bytes, list) != sizeof bytes)
        return 1;
    /* atoi's work grows with the digits: counts to be compared have as many. */
    size_t stars = (size_t)atoi(argv[3]), nights = argc == 5 ? (size_t)atoi(argv[4]) : 0;
    if (stars > ROOM)
        return 1;
    for (size_t i = 0; i < ROOM; i++) {
        given_asc[i] = word(WIDTH * i + 4) / 3600000.0 * RADIAN;
        given_dec[i] = radians(WIDTH * i + 8);
        asc_rate[i] = radians(WIDTH * i + 12);
        dec_rate[i] = radians(WIDTH * i + 16);
    }
    for (size_t w = 0; w < sizeof works / sizeof *works; w++) {
        if (strcmp(works[w].name, argv[1]) != 0)
            continue;
        if (strcmp(argv[3], "time") == 0) {
            printf("%.1f\n", timed(works[w].work));
            return 0;
        }
        if (strcmp(argv[3], "apart") == 0) {
            printf("%.3f\n", widest(works[w].work));
            return 0;
        }
        for (size_t k = 0; k < nights; k++)
            works[w].work(stars, FIRST_NIGHT + (double)k);
        double sum = 0.0;
        for (size_t i = 0; i < ROOM; i++)
            sum += asc[i] + dec[i];
        printf("%.6f\n", sum);
        return 0;
    }
    return 1;
}
