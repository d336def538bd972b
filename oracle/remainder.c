/* remainder N: N finite doubles of every exponent and either sign, folded into 360, into 2·PI and, as a culmination, into a day, and
 * compared bit for bit with what C's fmod gives. At each exponent the first are the least and the largest, the others have any digits.
 * With SLIP an answer is spoilt on its way, and the comparison must report it. */
#include <math.h>
#include <stdint.h>
#include <stdio.h>
#include <stdlib.h>
#include <string.h>
#include "brundelak.h"
#include "bits.h"

enum { EXPONENTS = 2047 };
static const double TURN = 6.283185307179586;
/* Double i: its exponent and its sign by turns. */
static double drawn(size_t i)
{
    const uint64_t digits = ((uint64_t)1 << 52) - 1;
    size_t turn = i / (2 * EXPONENTS);
    uint64_t low = turn == 0 ? 0 : turn == 1 ? digits : drawn_bits() & digits;
    return as_double((uint64_t)(i % 2) << 63 | (uint64_t)(i / 2 % EXPONENTS) << 52 | low);
}

static double folded(double x, double full)
{
    double r = fmod(x, full);
    return r < 0.0 ? r + full : r;
}

static double spoilt(double x, double answer)
{
    (void)x;
#if SLIP == 1 /* a sign lost on the way */
    return as_bits(answer) == as_bits(-0.0) ? 0.0 : answer;
#elif SLIP == 2 /* a step fewer */
    return fabs(x) > 1e300 ? answer + 360.0 : answer;
#elif SLIP == 3 /* a subnormal taken for zero */
    return fabs(x) < 0x1p-1022 && x > 0.0 ? 0.0 : answer;
#elif SLIP == 4 /* the largest double alone */
    return x == 0x1.fffffffffffffp+1023 ? 0.0 : answer;
#else
    return answer;
#endif
}

static size_t compared, differing;

static void same(const char *what, double x, uint8_t status, double got, double wanted)
{
    compared++;
    if (status == 0 && as_bits(spoilt(x, got)) == as_bits(wanted))
        return;
    if (differing++ < 5)
        fprintf(stderr, "remainder: %s of %a: status %d, %a for %a\n", what, x, status, got, wanted);
}

/* A double within 64, of any exponent that has such ones. */
static double angle(void)
{
    double x = as_double(drawn_bits());
    return fabs(x) <= 64.0 ? x : as_double((as_bits(x) & ~((uint64_t)0x7FF << 52)) | (uint64_t)(1013 + drawn_bits() % 15) << 52);
}

int main(int argc, char **argv)
{
    size_t calls = argc == 2 ? (size_t)atol(argv[1]) : 0;
    for (size_t i = 0; i < calls; i++) {
        double x = drawn(i), out = 0.0, rise = 0.0, set = 0.0;
        uint8_t status = brundelak_limit_to_360(x, &out);
        same("limit_to_360", x, status, out, folded(x, 360.0));
        status = brundelak_limit_to_two_pi(x, &out);
        same("limit_to_two_pi", x, status, out, folded(x, TURN));
        double asc = angle(), longitude = angle(), sidereal = angle(), fraction = (asc + longitude - sidereal) / TURN;
        status = brundelak_rise_culm_set(asc, 0.0, sidereal, longitude, 0.0, 0.0, &rise, &out, &set);
        same("culmination", fraction, status, out, folded(fraction, 1.0));
    }
    printf("remainder: %zu folds of %zu doubles of every exponent against fmod, differing %zu\n", compared, calls, differing);
    return differing != 0 || compared == 0;
}
