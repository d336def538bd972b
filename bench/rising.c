/* rising port|nova N: rise, culmination and set of the first N of some stars at one place, by the port or by libnova.
 * rising apart: the widest difference between the two, in seconds of time: as the port answers, and after its fractions are divided by
 * the turns of the sky in a day. As many stars are made ready whatever N is, so that the difference of two counts is the calls' own. */
#include <math.h>
#include <stdint.h>
#include <stdio.h>
#include <stdlib.h>
#include <string.h>
#include "brundelak.h"
#ifdef WITH_NOVA
#include <libnova/libnova.h>
#endif

enum { ROOM = 5000 };
/* a day at 0h; Boston, west positive, and the altitude of the horizon, in degrees; turns of the sky in a day */
static const double DAY = 2462088.5, LONG = 71.0833, LAT = 42.3333, ALT = -0.5667, TURNS = 1.00273790935;
static const double RADIAN = 3.14159265358979323846 / 180.0;
static double asc[ROOM], dec[ROOM], times[ROOM][3], sidereal;

static void port(size_t stars)
{
    for (size_t i = 0; i < stars; i++)
        if (brundelak_rise_culm_set(asc[i], dec[i], sidereal, LONG * RADIAN, LAT * RADIAN, ALT * RADIAN, &times[i][0], &times[i][1],
                                    &times[i][2]) != 0)
            exit(1);
}

#ifdef WITH_NOVA
static void nova(size_t stars)
{
    struct ln_lnlat_posn place = {-LONG, LAT};
    for (size_t i = 0; i < stars; i++) {
        struct ln_equ_posn star = {asc[i] / RADIAN, dec[i] / RADIAN};
        struct ln_rst_time at;
        if (ln_get_object_rst(DAY, &place, &star, &at) != 0)
            exit(1);
        times[i][0] = at.rise - DAY;
        times[i][1] = at.transit - DAY;
        times[i][2] = at.set - DAY;
    }
}

/* The port's times over so many turns a day, apart from libnova's: whole days do not count. */
static double widest(double turns)
{
    static double ours[ROOM][3];
    double wide = 0.0;
    port(ROOM);
    memcpy(ours, times, sizeof times);
    nova(ROOM);
    for (size_t i = 0; i < ROOM; i++)
        for (size_t k = 0; k < 3; k++)
            wide = fmax(wide, fabs(remainder(ours[i][k] / turns - times[i][k], 1.0)));
    return 86400.0 * wide;
}
#endif

/* The same each time: from low to high. */
static double between(double low, double high)
{
    static uint64_t state = 1;
    state = state * 6364136223846793005u + 1442695040888963407u;
    return low + (high - low) * (double)(state >> 11) / 9007199254740992.0;
}

int main(int argc, char **argv)
{
    /* atoi's work grows with the digits: counts to be compared have as many. */
    size_t stars = argc == 3 ? (size_t)atoi(argv[2]) : 0;
    if (argc < 2 || stars > ROOM)
        return 1;
    for (size_t i = 0; i < ROOM; i++) {
        asc[i] = between(0.0, 360.0) * RADIAN;
        dec[i] = between(-45.0, 45.0) * RADIAN;
    }
#ifdef WITH_NOVA
    sidereal = 15.0 * ln_get_apparent_sidereal_time(DAY) * RADIAN;
    if (strcmp(argv[1], "apart") == 0) {
        printf("%.1f | %.1f\n", widest(1.0), widest(TURNS));
        return 0;
    }
    if (strcmp(argv[1], "nova") == 0)
        nova(stars);
#endif
    if (strcmp(argv[1], "port") == 0)
        port(stars);
    double sum = 0.0;
    for (size_t i = 0; i < ROOM; i++)
        sum += times[i][0] + times[i][1] + times[i][2];
    printf("%.6f\n", sum);
    return 0;
}
