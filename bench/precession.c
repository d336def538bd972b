/* precession: the widest distance of both editions of precession from ERFA's IAU 1976 precession, in seconds of arc, over days and stars
 * drawn at random: first and second day within a century of J2000, then anywhere on the domain. A line for each edition. */
#include <math.h>
#include <stdint.h>
#include <stdio.h>
#include <erfa.h>
#include "brundelak.h"

enum { DRAWN = 200000 };
static const double J2000 = 2451545.0, RADIAN = 3.14159265358979323846 / 180.0;

/* splitmix64: a number from low to high */
static uint64_t state = 1;
static double between(double low, double high)
{
    uint64_t z = state += 0x9E3779B97F4A7C15;
    z = (z ^ z >> 30) * 0xBF58476D1CE4E5B9;
    z = (z ^ z >> 27) * 0x94D049BB133111EB;
    return low + (high - low) * (double)((z ^ z >> 31) >> 11) / 9007199254740992.0;
}

static void erfa(double asc, double dec, double day1, double day2, double *new_asc, double *new_dec)
{
    double zeta, z, theta;
    eraPrec76(day1, 0.0, day2, 0.0, &zeta, &z, &theta);
    double a = cos(dec) * sin(asc + zeta);
    double b = cos(theta) * cos(dec) * cos(asc + zeta) - sin(theta) * sin(dec);
    double c = sin(theta) * cos(dec) * cos(asc + zeta) + cos(theta) * sin(dec);
    *new_asc = atan2(a, b) + z;
    *new_dec = atan2(c, hypot(a, b));
}

static double squared(double x)
{
    return x * x;
}

static double apart(double asc1, double dec1, double asc2, double dec2)
{
    double h = squared(sin((dec1 - dec2) / 2.0)) + cos(dec1) * cos(dec2) * squared(sin((asc1 - asc2) / 2.0));
    return 2.0 * asin(fmin(1.0, sqrt(h))) / RADIAN * 3600.0;
}

typedef uint8_t edition(double, double, double, double, double *, double *);

static double widest(edition *of, double days)
{
    double wide = 0.0;
    state = 1;
    for (int i = 0; i < DRAWN; i++) {
        double asc = between(0.0, 6.283), dec = asin(between(-0.999, 0.999));
        double day1 = J2000 + between(-days, days), day2 = J2000 + between(-days, days);
        double our_asc, our_dec, their_asc, their_dec;
        if (of(asc, dec, day1, day2, &our_asc, &our_dec) != 0)
            continue;
        erfa(asc, dec, day1, day2, &their_asc, &their_dec);
        wide = fmax(wide, apart(our_asc, our_dec, their_asc, their_dec));
    }
    return wide;
}

int main(void)
{
    printf("the crate's edition|%.3g|%.3g\n", widest(brundelak_precess_eq_coords, 36525.0), widest(brundelak_precess_eq_coords, 730500.0));
    printf("the published edition|%.3g|%.3g\n", widest(brundelak_precess_eq_coords_published, 36525.0),
           widest(brundelak_precess_eq_coords_published, 730500.0));
    return 0;
}
