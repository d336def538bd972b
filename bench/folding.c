/* folding FUNCTION SIZE N: N calls of the port's brundelak_limit_to_360 or brundelak_limit_to_two_pi, or of the same fold by C's fmod
 * (fmod_to_360, fmod_to_two_pi), at angles from 7 to 64 and -7 to -64 (`ordinary`), all of which are more than 2·PI, or at the largest
 * double (`largest`). The count is taken inside the function alone. */
#include <float.h>
#include <math.h>
#include <stdint.h>
#include <stdio.h>
#include <stdlib.h>
#include <string.h>
#include "brundelak.h"

enum { ROOM = 5000 };

static inline uint8_t by_fmod(double x, double full, double *out)
{
    double r = fmod(x, full);
    *out = r < 0.0 ? r + full : r;
    return 0;
}

__attribute__((noinline)) uint8_t fmod_to_360(double x, double *out);
__attribute__((noinline)) uint8_t fmod_to_two_pi(double x, double *out);
uint8_t fmod_to_360(double x, double *out) { return by_fmod(x, 360.0, out); }
uint8_t fmod_to_two_pi(double x, double *out) { return by_fmod(x, 6.283185307179586, out); }

int main(int argc, char **argv)
{
    static const struct { const char *name; uint8_t (*f)(double, double *); double unit; } functions[] = {
        {"brundelak_limit_to_360", brundelak_limit_to_360, 180.0 / 3.141592653589793},
        {"brundelak_limit_to_two_pi", brundelak_limit_to_two_pi, 1.0},
        {"fmod_to_360", fmod_to_360, 180.0 / 3.141592653589793},
        {"fmod_to_two_pi", fmod_to_two_pi, 1.0},
    };
    if (argc != 4)
        return 1;
    size_t calls = (size_t)atoi(argv[3]);
    int ordinary = strcmp(argv[2], "ordinary") == 0;
    double sum = 0.0;
    for (size_t k = 0; k < sizeof functions / sizeof *functions; k++)
        for (size_t i = 0; i < calls && strcmp(argv[1], functions[k].name) == 0; i++) {
            double size = 7.0 + 57.0 * (double)(i % ROOM) / ROOM, out;
            if (functions[k].f(ordinary ? functions[k].unit * (i % 2 ? -size : size) : DBL_MAX, &out) != 0)
                return 1;
            sum += out;
        }
    printf("%.6f\n", sum);
    return 0;
}
