/* A pad's true heading from a star sight: a star's record, a moment and a place to the star's heading and the altitude at which to
   look for it, and two readings of the pad's circle to the heading of a mark. */
#include <stdio.h>
#include "brundelak.h"

/* Whether a call was answered; says why it was not. */
static int answered(const char *call, uint8_t status)
{
    if (status != BRUNDELAK_ANSWERED)
        printf("%s refused by %u: %s\n", call, (unsigned)status, brundelak_sentence(status));
    return status == BRUNDELAK_ANSWERED;
}

int main(void)
{
    /* Aldebaran's record: its place of J2000 in milliarcseconds, and what changes of it in a year. */
    const uint32_t asc = 248328600;
    const int32_t dec = 59433400, asc_rate = 66, dec_rate = -189;
    /* The sight: 2028-11-13T04:33:36.5Z as a Julian day, from 71.0833 degrees west of Greenwich, which is positive, and 42.3333
       north. The circle, which counts clockwise, reads 10.5 degrees at the star and 66.0083 at the mark. */
    const double day = 2462088.690005787;
    double longitude, latitude, heading, azimuth, alt, look, mark, untouched = 0.25;
    uint8_t status;

    if (brundelak_float_environment() != 0) {
        printf("floats do not round to nearest here, or do not keep subnormal numbers: the answers would be wrong\n");
        return 1;
    }
    if (!answered("longitude", brundelak_to_radians(71.0833, &longitude)) ||
        !answered("latitude", brundelak_to_radians(42.3333, &latitude)) ||
        !answered("heading", brundelak_heading(asc, dec, asc_rate, dec_rate, 2451545.0, day, longitude, latitude, &heading, &azimuth, &alt)) ||
        !answered("refraction", brundelak_plan_alt(alt, &look)) ||
        !answered("mark", brundelak_mark_heading(heading, 10.5, 66.0083, &mark)))
        return 1;
    printf("heading %.6f degrees from north, clockwise\n", heading);
    printf("azimuth %.6f degrees from south, west positive\n", azimuth);
    printf("altitude %.6f degrees, seen at %.6f\n", alt, look);
    printf("mark %.6f degrees from north, clockwise\n", mark);

    /* A refused call writes nothing: a circle has no reading of 360 degrees. */
    status = brundelak_mark_heading(heading, 10.5, 360.0, &untouched);
    answered("a reading of 360 degrees", status);
    printf("still %.2f\n", untouched);
    return status == BRUNDELAK_REFUSAL_ANGLE && untouched == 0.25 ? 0 : 1;
}
