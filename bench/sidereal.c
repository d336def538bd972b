/* sidereal FUNCTION N: N calls of mean_sidereal, or of apparent_sidereal, on days from all accepted ones. As many days are made ready
 * whatever N is, so that the difference of two counts is the calls' own. */
#include <stdlib.h>
#include <string.h>
#include "brundelak.h"

enum { ROOM = 5000 };
static double days[ROOM], out[ROOM];

int main(int argc, char **argv)
{
    size_t calls = argc == 3 ? (size_t)atol(argv[2]) : 0;
    uint8_t (*f)(double, double *) = argc == 3 && strcmp(argv[1], "mean_sidereal") == 0 ? brundelak_mean_sidereal : brundelak_apparent_sidereal;
    if (calls == 0 || calls > ROOM)
        return 1;
    for (size_t i = 0; i < ROOM; i++)
        days[i] = 2451545.0 - 730500.0 + 292.2 * (double)i;
    for (size_t i = 0; i < calls; i++)
        if (f(days[i], &out[i]) != 0)
            return 1;
    return 0;
}
