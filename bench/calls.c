/* calls FUNCTION port|glibc alone|chain: the nanoseconds of one call, the median of seven rounds: of a function of the port through its
 * C boundary or of C's, each call by itself, or each waiting for the answer of the one before. */
#include <math.h>
#include <stdint.h>
#include <stdio.h>
#include <string.h>
#include "brundelak.h"
#include "clock.h"

enum { ROOM = 1000, TIMES = 20, ROUNDS = 7 };
static double given[ROOM];

static double port_root(double x) { double r = 0.0; brundelak_root(x, &r); return r; }
static double port_arcsine(double x) { double r = 0.0; brundelak_arcsine(x, &r); return r; }
static double port_arctangent(double x) { double r = 0.0; brundelak_arctangent(x, 0.5, &r); return r; }
static double port_sine(double x) { double r = 0.0; brundelak_sine(x, &r); return r; }
static double c_root(double x) { return sqrt(x); }
static double c_arcsine(double x) { return asin(x); }
static double c_arctangent(double x) { return atan2(x, 0.5); }
static double c_sine(double x) { return sin(x); }

static const struct { const char *name; double (*port)(double), (*glibc)(double); } functions[] = {
    {"root", port_root, c_root},
    {"arcsine", port_arcsine, c_arcsine},
    {"arctangent", port_arctangent, c_arctangent},
    {"sine", port_sine, c_sine},
};

int main(int argc, char **argv)
{
    if (argc != 4)
        return 1;
    double (*volatile f)(double) = NULL, figures[ROUNDS], sum = 0.0;
    for (size_t k = 0; k < sizeof functions / sizeof *functions; k++)
        if (strcmp(argv[1], functions[k].name) == 0)
            f = strcmp(argv[2], "port") == 0 ? functions[k].port : functions[k].glibc;
    if (f == NULL)
        return 1;
    /* Numbers between 0 and 1, spread over it by the golden section. */
    for (size_t i = 0; i < ROOM; i++)
        given[i] = fmod(0.6180339887498949 * (double)(i + 1), 1.0);
    /* What is waited for is too small to change the argument. */
    double waited = strcmp(argv[3], "chain") == 0 ? 1e-300 : 0.0;
    for (size_t r = 0; r < ROUNDS; r++) {
        double (*call)(double) = f, last = 0.0, begun = nanoseconds();
        for (size_t k = 0; k < TIMES; k++)
            for (size_t i = 0; i < ROOM; i++) {
                double x = waited != 0.0 ? given[i] + waited * last : given[i];
                last = call(x);
                sum += last;
            }
        figures[r] = (nanoseconds() - begun) / (TIMES * ROOM);
    }
    printf("%.1f\n", median(figures, ROUNDS));
    return !(sum > 0.0);
}
