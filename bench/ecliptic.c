/* ecliptic N: the ecliptic points of the first N of some stars. As many stars are made ready whatever N is, so that the difference of two
 * counts is the calls' own. */
#include <stdint.h>
#include <stdio.h>
#include <stdlib.h>
#include "brundelak.h"

enum { ROOM = 5000 };
/* of J2000 */
static const double OBLIQUITY = 0.40909280422232897;
static double asc[ROOM], dec[ROOM], points[ROOM][2];

/* The same each time: from low to high. */
static double between(double low, double high)
{
    static uint64_t state = 1;
    uint64_t z = state += 0x9E3779B97F4A7C15;
    z = (z ^ z >> 30) * 0xBF58476D1CE4E5B9;
    z = (z ^ z >> 27) * 0x94D049BB133111EB;
    return low + (high - low) * (double)((z ^ z >> 31) >> 11) / 9007199254740992.0;
}

int main(int argc, char **argv)
{
    /* atoi's work grows with the digits: counts to be compared have as many. */
    size_t calls = argc == 2 ? (size_t)atoi(argv[1]) : ROOM + 1;
    if (calls > ROOM)
        return 1;
    for (size_t i = 0; i < ROOM; i++) {
        asc[i] = between(0.0, 6.283185307179586);
        dec[i] = between(-1.4, 1.4);
    }
    for (size_t i = 0; i < calls; i++)
        if (brundelak_ecl_frm_eq(asc[i], dec[i], OBLIQUITY, &points[i][0], &points[i][1]) != 0)
            exit(1);
    double sum = 0.0;
    for (size_t i = 0; i < ROOM; i++)
        sum += points[i][0] + points[i][1];
    printf("%.6f\n", sum);
    return 0;
}
