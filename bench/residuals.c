/* residuals N: the residuals of N entries, which are as a night leaves them: places over the whole sky, each measured within some hundred
 * milliarcseconds of where it was computed, one of 50 refused and one of 50 measured as another star. As many entries are made ready
 * whatever N is, so that the difference of two counts is the entries' own. */
#include <stdlib.h>
#include "brundelak.h"

enum { MOST = BRUNDELAK_MOST_STARS };
static uint8_t status[MOST];
static double asc[MOST], dec[MOST], measured_asc[MOST], measured_dec[MOST];

int main(int argc, char **argv)
{
    size_t n = argc == 2 ? (size_t)atol(argv[1]) : 0;
    int64_t asc_sheet[BRUNDELAK_FIGURES], dec_sheet[BRUNDELAK_FIGURES];
    if (n == 0 || n > MOST)
        return 1;
    for (size_t i = 0; i < MOST; i++) {
        status[i] = i % 50 == 7 ? 9 : 0;
        asc[i] = 6.283185307179586 * (double)i / MOST;
        dec[i] = 1.5 - 3.0 * (double)(i * 1237 % MOST) / MOST;
        /* 1e-6 radians are 206 milliarcseconds */
        measured_asc[i] = asc[i] + 1e-6 * ((double)(i * 31 % 100) / 50.0 - 1.0) + (i % 50 == 23 ? 1.0 : 0.0);
        measured_dec[i] = dec[i] + 1e-6 * ((double)(i * 57 % 100) / 50.0 - 1.0) + (i % 50 == 23 ? 0.5 : 0.0);
    }
    return brundelak_residuals(status, n, asc, n, dec, n, measured_asc, n, measured_dec, n, asc_sheet, dec_sheet);
}
