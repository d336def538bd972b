/* rotation STARS: how far a star's place under the one rotation of two days (request (xiv)) lies from that of brundelak_precess_eq_coords of
 * the same edition at the same shifted place, over so many stars and days drawn from all accepted ones, and in the published edition from
 * ERFA's IAU 1976 precession (eraPrec76, its matrix by eraRz and eraRy, applied by eraRxp): rows of a table, the widest gap on the sky, and
 * in each coordinate modulo a turn, in microarcseconds; of places that end within a degree of either pole, and of the others. */
#include <erfa.h>
#include <math.h>
#include <stdio.h>
#include <stdlib.h>
#include "brundelak.h"

static const double RADIAN = 3.14159265358979323846 / 180.0, TURN = 2.0 * 3.14159265358979323846;
enum { WIDTH = BRUNDELAK_RECORD_BYTES, STARS = 100 };

typedef uint8_t rotate_call(const uint8_t *, uint64_t, double, double, uint8_t *, uint64_t, double *, uint64_t, double *, uint64_t, uint32_t *);
typedef uint8_t precess_call(double, double, double, double, double *, double *);

static uint64_t state = 0x9E3779B97F4A7C15;

static double drawn(double from, double to)
{
    state ^= state << 13;
    state ^= state >> 7;
    state ^= state << 17;
    return from + (to - from) * (double)(state >> 11) / 9007199254740992.0;
}

static double radians(double milliarcseconds)
{
    return milliarcseconds / 3600000.0 * RADIAN;
}

/* The widest gaps: elsewhere, and within a degree of a pole. */
struct gaps {
    double sky, asc, dec;
};

static void widen(struct gaps *gaps, double asc, double dec, double other_asc, double other_dec)
{
    struct gaps *of = &gaps[fabs(other_dec) > 89.0 * RADIAN];
    of->sky = fmax(of->sky, eraSeps(asc, dec, other_asc, other_dec));
    of->asc = fmax(of->asc, fabs(remainder(asc - other_asc, TURN)));
    of->dec = fmax(of->dec, fabs(dec - other_dec));
}

static void row(const char *title, const struct gaps *gaps)
{
    const double unit = 3600000000.0 / RADIAN;
    for (int near = 0; near < 2; near++)
        printf("| %s, %s | %.2g | %.2g | %.2g |\n", title, near ? "within a degree of a pole" : "elsewhere", gaps[near].sky * unit,
               gaps[near].asc * unit, gaps[near].dec * unit);
}

int main(int argc, char **argv)
{
    long lists = argc == 2 ? atol(argv[1]) / STARS : 0;
    static rotate_call *const rotates[2] = {brundelak_rotate, brundelak_rotate_published};
    static precess_call *const precesses[2] = {brundelak_precess_eq_coords, brundelak_precess_eq_coords_published};
    struct gaps gaps[3][2] = {{{0.0, 0.0, 0.0}}};
    for (long k = 0; k < lists; k++) {
        uint8_t list[WIDTH * STARS], status[STARS];
        double asc[STARS], dec[STARS], day1 = drawn(1721045.0, 3182045.0), day2 = drawn(1721045.0, 3182045.0), years = (day2 - day1) / 365.25;
        double first, second, third, matrix[3][3], of_asc[STARS], of_dec[STARS];
        uint32_t tally[BRUNDELAK_COUNTS];
        uint64_t next = 0;
        for (uint32_t i = 0; i < STARS; i++) {
            double start = drawn(0.0, TURN), height = asin(drawn(-1.0, 1.0));
            int32_t a_rate = (int32_t)drawn(-1000.0, 1000.0), d_rate = (int32_t)drawn(-1000.0, 1000.0);
            /* evenly over the sky, but every fourth of a night is to end near a pole */
            if (i % 4 == 0 && brundelak_precess_eq_coords(start, copysign(asin(drawn(0.9998, 1.0)), height), day2, day1, &start, &height) != 0)
                return 1;
            start -= i % 4 == 0 ? radians(a_rate) * years : 0.0;
            height -= i % 4 == 0 ? radians(d_rate) * years : 0.0;
            uint32_t a = (uint32_t)((start - TURN * floor(start / TURN)) / RADIAN * 3600000.0) % 1296000000;
            int32_t d = (int32_t)(fmax(-1.57, fmin(1.57, height)) / RADIAN * 3600000.0);
            if (brundelak_put_star(list, sizeof list, next, 1 + i, a, d, a_rate, d_rate, &next) != 0)
                return 1;
            of_asc[i] = radians(a) + radians(a_rate) * years;
            of_dec[i] = radians(d) + radians(d_rate) * years;
        }
        eraPrec76(day1, 0.0, day2, 0.0, &first, &second, &third);
        eraIr(matrix);
        eraRz(-first, matrix);
        eraRy(third, matrix);
        eraRz(-second, matrix);
        for (int published = 0; published < 2; published++) {
            if (rotates[published](list, sizeof list, day1, day2, status, STARS, asc, STARS, dec, STARS, tally) != 0)
                return 1;
            for (int i = 0; i < STARS; i++) {
                double other_asc, other_dec, from[3], to[3];
                if (status[i] != 0)
                    continue;
                if (precesses[published](of_asc[i], of_dec[i], day1, day2, &other_asc, &other_dec) == 0)
                    widen(gaps[published], asc[i], dec[i], other_asc, other_dec);
                if (published) {
                    eraS2c(of_asc[i], of_dec[i], from);
                    eraRxp(matrix, from, to);
                    eraC2s(to, &other_asc, &other_dec);
                    widen(gaps[2], asc[i], dec[i], other_asc, other_dec);
                }
            }
        }
    }
    row("`precess_eq_coords`", gaps[0]);
    row("`precess_eq_coords_published`", gaps[1]);
    row("ERFA's IAU 1976 precession, published edition", gaps[2]);
    return lists > 0 && gaps[0][0].sky > 0.0 && gaps[0][1].sky > 0.0 ? 0 : 1;
}
