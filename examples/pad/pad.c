/* What a pad does in a night, without a system under it: it holds a list of stars, adds one, reduces all of them at once, and shows for each
   the true heading and the altitude at which to look for it, or why there is none. No heap, no libm. */
#include <stddef.h>
#include "board.h"
#include "brundelak.h"

/* ---- texts ---- */

/* A whole number, with as many digits at least. */
static void put_whole(uint32_t number, unsigned digits)
{
    char text[11];
    char *at = text + sizeof text - 1;
    *at = '\0';
    do {
        *--at = (char)('0' + number % 10);
        number /= 10;
    } while (number > 0 || at > text + sizeof text - 1 - digits);
    put(at);
}

/* Degrees, from -360 to 360, with four decimals. */
static void put_degrees(double degrees)
{
    if (degrees < 0.0)
        put("-");
    uint32_t parts = (uint32_t)((degrees < 0.0 ? -degrees : degrees) * 10000.0 + 0.5);
    put_whole(parts / 10000, 1);
    put(".");
    put_whole(parts % 10000, 4);
}

static void put_refusal(uint8_t status)
{
    put("refused by ");
    put_whole(status, 1);
    put(": ");
    put(brundelak_sentence(status));
}

/* ---- the list, as it came with the program, with room for one star more ---- */

__asm__(".section .rodata.stars, \"a\"\n"
        ".global kept_stars, kept_stars_end\n"
        "kept_stars: .incbin \"sighting-stars.list\"\n"
        "kept_stars_end:\n"
        ".text\n");
extern const uint8_t kept_stars[], kept_stars_end[];

enum { MOST = 32, BYTES = BRUNDELAK_RECORD_BYTES * MOST };
static uint8_t list[BYTES], statuses[MOST];
static double ascs[MOST], decs[MOST];
static uint32_t tally[BRUNDELAK_COUNTS];

/* ---- the sight ---- */

static const double J2000 = 2451545.0, DEGREES = 57.29577951308232;
/* 2028 November 13.19; the sidereal time at Greenwich comes from an almanac for that moment; the pad lies 3 h west, 52.3 degrees north. */
static const double DAY = 2462088.69, SIDEREAL = 2.1157, LONGITUDE = 0.7853981633974483, LATITUDE = 0.912807;

/* Shows where a star stands whose place is worked out; answers the status of the first call that is refused. */
static uint8_t put_sight(double asc, double dec)
{
    double hour_angle, az, alt, heading, look;
    uint8_t status;
    if ((status = brundelak_hr_angl_frm_observer_long(SIDEREAL, LONGITUDE, asc, &hour_angle)) != 0
        || (status = brundelak_az_frm_eq(hour_angle, dec, LATITUDE, &az)) != 0
        || (status = brundelak_alt_frm_eq(hour_angle, dec, LATITUDE, &alt)) != 0
        || (status = brundelak_limit_to_360(az * DEGREES + 180.0, &heading)) != 0)
        return status;
    put("heading ");
    put_degrees(heading);
    put(" altitude ");
    put_degrees(alt * DEGREES);
    if (alt < 0.0)
        put(", below the horizon");
    else if (brundelak_plan_alt(alt * DEGREES, &look) == 0) {
        put(", seen at ");
        put_degrees(look);
    }
    return 0;
}

static void put_star(uint32_t number, size_t record)
{
    put("star ");
    put_whole(number, 1);
    put(": ");
    uint8_t status = statuses[record];
    if (status == 0)
        status = put_sight(ascs[record], decs[record]);
    if (status != 0)
        put_refusal(status);
    put("\n");
}

int main(void)
{
    uint64_t len = BYTES, place = 0, next;
    uint32_t number, asc;
    int32_t dec, asc_rate, dec_rate;
    uint8_t status;
    if (brundelak_float_environment() != 0) {
        put("floats do not round to nearest here, or do not keep subnormal numbers\n");
        return 1;
    }
    for (size_t i = 0; i < BYTES && kept_stars + i < kept_stars_end; i++)
        list[i] = kept_stars[i];
    /* a star at the pole, which its yearly change carries past it: its place is refused, in words */
    status = brundelak_add(list, len, 9999, 0, 324000000, 0, 20000);
    if (status == 0)
        status = brundelak_batch(list, len, J2000, DAY, statuses, MOST, ascs, MOST, decs, MOST, tally);
    if (status != 0) {
        put_refusal(status);
        put("\n");
        return 1;
    }
    while (brundelak_star(list, len, place, &number, &asc, &dec, &asc_rate, &dec_rate, &next) == 0) {
        put_star(number, next / BRUNDELAK_RECORD_BYTES - 1);
        place = next;
    }
    struct bytes bytes = used();
    put("flash ");
    put_whole(bytes.flash, 1);
    put(" bytes, RAM ");
    put_whole(bytes.ram, 1);
    put(" bytes, stack ");
    put_whole(bytes.stack, 1);
    put(" bytes\n");
    return 0;
}
