/* refraction FUNCTION N: N calls of one of the port's four functions of refraction, or of libnova's (`nova`), at altitudes from 0 to
 * 89.8 degrees.
 * refraction apart: the widest difference of the port's refraction from libnova's, in minutes of arc. libnova has a small correction
 * more, and takes pressure and temperature, here those for which the rules stand.
 * As many altitudes are made ready whatever N is, so that the difference of two counts is the calls' own. */
#include <math.h>
#include <stdint.h>
#include <stdio.h>
#include <stdlib.h>
#include <string.h>
#include "brundelak.h"
#ifdef WITH_NOVA
#include <libnova/libnova.h>
#endif

enum { ROOM = 5000 };
static double alt[ROOM], out[ROOM];

static void port(uint8_t (*f)(double, double *), size_t calls)
{
    for (size_t i = 0; i < calls; i++)
        if (f(alt[i], &out[i]) != 0)
            exit(1);
}

#ifdef WITH_NOVA
/* Degrees as minutes of arc. */
static void nova(size_t calls)
{
    for (size_t i = 0; i < calls; i++)
        out[i] = 60.0 * ln_get_refraction_adj(alt[i], 1010.0, 10.0);
}

static double widest(void)
{
    static double ours[ROOM];
    double wide = 0.0;
    port(brundelak_refrac_frm_apprnt_alt, ROOM);
    memcpy(ours, out, sizeof out);
    nova(ROOM);
    for (size_t i = 0; i < ROOM; i++)
        wide = fmax(wide, fabs(ours[i] - out[i]));
    return wide;
}
#endif

int main(int argc, char **argv)
{
    static const struct { const char *name; uint8_t (*f)(double, double *); } functions[] = {
        {"refrac_frm_apprnt_alt", brundelak_refrac_frm_apprnt_alt},
        {"refrac_frm_true_alt", brundelak_refrac_frm_true_alt},
        {"sight_alt", brundelak_sight_alt},
        {"plan_alt", brundelak_plan_alt},
    };
    /* atoi's work grows with the digits: counts to be compared have as many. */
    size_t calls = argc == 3 ? (size_t)atoi(argv[2]) : 0;
    if (argc < 2 || calls > ROOM)
        return 1;
    for (size_t i = 0; i < ROOM; i++)
        alt[i] = 89.8 * (double)i / (ROOM - 1);
#ifdef WITH_NOVA
    if (strcmp(argv[1], "apart") == 0) {
        printf("%.3f\n", widest());
        return 0;
    }
    if (strcmp(argv[1], "nova") == 0)
        nova(calls);
#endif
    for (size_t i = 0; i < sizeof functions / sizeof *functions; i++)
        if (strcmp(argv[1], functions[i].name) == 0)
            port(functions[i].f, calls);
    double sum = 0.0;
    for (size_t i = 0; i < ROOM; i++)
        sum += out[i];
    printf("%.6f\n", sum);
    return 0;
}
