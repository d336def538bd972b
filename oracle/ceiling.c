/* ceiling DAYS: nutation beside its ceiling, on so many days drawn from all accepted ones. A line for each component: its name, the largest
 * share of the ceiling that was reached, the day of it, and how many days were above. */
#include <math.h>
#include <stdio.h>
#include <stdlib.h>
#include "brundelak.h"
#include "bits.h"

static const double J2000 = 2451545.0, FARTHEST = 730500.0;

/* A day that is accepted, each as likely as any other. */
static double drawn_day(void)
{
    double part = (double)(drawn_bits() >> 11) / 9007199254740992.0;
    return J2000 + FARTHEST * (2.0 * part - 1.0);
}

int main(int argc, char **argv)
{
    static const char *const names[2] = {"longitude", "obliquity"};
    long days = argc == 2 ? atol(argv[1]) : 0, above[2] = {0, 0};
    double share[2] = {0.0, 0.0}, at[2] = {0.0, 0.0};
    if (days <= 0)
        return 1;
    for (long i = 0; i < days; i++) {
        double day = drawn_day(), nutation[2], most[2];
        if (brundelak_nutation(day, &nutation[0], &nutation[1]) != 0 || brundelak_nutation_ceiling(day, &most[0], &most[1]) != 0)
            return 1;
        for (int k = 0; k < 2; k++) {
            double reached = fabs(nutation[k]) / most[k];
            above[k] += !(fabs(nutation[k]) <= most[k]);
            if (reached > share[k]) {
                share[k] = reached;
                at[k] = day;
            }
        }
    }
    for (int k = 0; k < 2; k++)
        printf("%s %.4f %.2f %ld\n", names[k], share[k], at[k], above[k]);
    return above[0] + above[1] > 0;
}
