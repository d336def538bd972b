/* motion LIST: each star of a list a century after J2000, as request (x) shifts it and as ERFA's eraPmsafe moves it, a row of a table each:
 * its number, its rates, how far it moves, and how far apart the two places are. ERFA moves a star straight on in space; the shift goes
 * evenly in each coordinate. Both take the rates as those of the coordinates. Without radial velocity the parallax tells nothing but how
 * long the light is under way; it is one second of arc here, as ERFA's light time at great distances costs it some milliarcseconds. */
#include <erfa.h>
#include <stdio.h>
#include "brundelak.h"

static const double J2000 = 2451545.0, J2100 = 2488070.0, PARALLAX = 1.0, RADIAN = 3.14159265358979323846 / 180.0;

static double radians(double milliarcseconds)
{
    return milliarcseconds / 3600000.0 * RADIAN;
}

static double milliarcseconds(double radians)
{
    return radians / RADIAN * 3600000.0;
}

int main(int argc, char **argv)
{
    static uint8_t list[BRUNDELAK_MOST_BYTES];
    FILE *file = argc == 2 ? fopen(argv[1], "rb") : NULL;
    uint64_t len = file != NULL ? fread(list, 1, sizeof list, file) : 0, place = 0;
    uint32_t number, asc;
    int32_t dec, asc_rate, dec_rate;
    uint8_t status = len == 0;
    double widest = 0.0, years = (J2100 - J2000) / 365.25;
    while (status == 0 && (status = brundelak_star(list, len, place, &number, &asc, &dec, &asc_rate, &dec_rate, &place)) == 0) {
        double a = radians(asc), d = radians(dec), a_rate = radians(asc_rate), d_rate = radians(dec_rate), a_then, d_then, other[4];
        if (eraPmsafe(a, d, a_rate, d_rate, PARALLAX, 0.0, J2000, 0.0, J2100, 0.0, &a_then, &d_then, &other[0], &other[1], &other[2], &other[3]) < 0)
            return 1;
        double shifted_a = a + a_rate * years, shifted_d = d + d_rate * years, gap = milliarcseconds(eraSeps(shifted_a, shifted_d, a_then, d_then));
        double way = milliarcseconds(eraSeps(a, d, a_then, d_then)) / 1000.0;
        printf("| %u | %d | %d | %.1f | %.2f |\n", (unsigned)number, (int)asc_rate, (int)dec_rate, way, gap);
        widest = gap > widest ? gap : widest;
    }
    printf("| widest | | | | %.2f |\n", widest);
    return status == BRUNDELAK_END ? 0 : 1;
}
