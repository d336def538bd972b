/* sidereal DAYS: how far sidereal time at Greenwich lies from ERFA's, mean from eraGmst82 and apparent from eraGst94, over so many days drawn
 * within a century of J2000, and as many from all accepted ones: rows of a table, the widest gap modulo a turn in microseconds of time. The
 * day goes to ERFA in two parts, whole and below, which lose nothing. */
#include <erfa.h>
#include <math.h>
#include <stdio.h>
#include <stdlib.h>
#include "brundelak.h"

static const double TURN = 2.0 * 3.14159265358979323846;
static uint64_t state = 0x9E3779B97F4A7C15;

static double drawn(double from, double to)
{
    state ^= state << 13;
    state ^= state >> 7;
    state ^= state << 17;
    return from + (to - from) * (double)(state >> 11) / 9007199254740992.0;
}

/* In microseconds of time. */
static double apart(double x, double y)
{
    return fabs(remainder(x - y, TURN)) / TURN * 86400e6;
}

int main(int count, char **words)
{
    static const double within[] = {36525.0, 730500.0};
    static const char *const names[] = {"within a century of J2000", "any accepted day"};
    long days = count > 1 ? strtol(words[1], NULL, 10) : 0;
    for (int k = 0; k < 2; k++) {
        double mean_gap = 0.0, apparent_gap = 0.0;
        for (long i = 0; i < days; i++) {
            double day = 2451545.0 + drawn(-within[k], within[k]), whole = floor(day), mean, apparent;
            if (brundelak_mean_sidereal(day, &mean) || brundelak_apparent_sidereal(day, &apparent))
                return 1;
            mean_gap = fmax(mean_gap, apart(mean, eraGmst82(whole, day - whole)));
            apparent_gap = fmax(apparent_gap, apart(apparent, eraGst94(whole, day - whole)));
        }
        printf("| %s | %.0f | %.0f |\n", names[k], mean_gap, apparent_gap);
    }
    return 0;
}
