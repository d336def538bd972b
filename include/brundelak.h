/*
 * Brundelak: star places, proved against written rules.
 *
 * Every function answers its status: 0, or the number of a refusal; enum brundelak_status names them,
 * brundelak_sentence says what each means. Each number of the answer comes out through a pointer of its own, after the
 * arguments; a refused call leaves what the pointers point to unchanged. Any double may be given. Pointers must be
 * valid and distinct. No function keeps state or allocates; all may be called from any thread.
 *
 * Status
 *    0   answered
 *    1   an argument is NaN or infinite
 *    2   a day is more than 730500.0 from 2451545.0
 *    3   an angle exceeds 64.0 in size (deg_frm_dms, deg_frm_hms, to_radians and both limit_to_.. excepted, which take
 *        every finite number); a declination, altitude, observer or frame latitude exceeds a quarter turn
 *        (1.5707963267948966) in size; for sine, cosine and tangent called alone: exceeds 400000.0; of refraction: an
 *        altitude outside 0.0 to 89.8 degrees; of a star in a batch: its declination, shifted by its rate, exceeds a quarter
 *        turn; of residuals: any angle, a declination too, exceeds 64.0; of a mark and of a mean: degrees outside 0.0 to
 *        below 360.0
 *    4   an angle that goes into a tangent, or whose cosine divides, exceeds 1.57 in size
 *    5   a distance outside 0.0001 to 1000000.0 AU, a height outside -1000.0 to 100000.0 m, the root of a number below 0
 *    6   the sine of the new inclination, or N in topopcent_ecl_coords, is zero; in topopcent_ecl_coords_published also the
 *        cosine of the topocentric longitude
 *    7   the argument of an arcsine exceeds 1 in size
 *    8   list bytes not a multiple of 20, or more than 60000; of a narrow list that is to move up no multiple of 12, or
 *        more than 36000; a slice lent to a batch shorter than the list has records; a place past the end of the list or not
 *        at a record's start (the end itself is accepted); a record to be written elsewhere than at one of a list's 3000
 *        record starts, or without room; a count to be raised already at 60000; a star count of a radio list above 3000; a
 *        slice too short for a radio list, a part of one or the list of one, or for a list of the other width; slices of
 *        residuals that have unequal lengths, or more than 3000 entries; no headings, or more than 3000
 *    9   a star record out of range; a star to be added whose number is 0; a status given to the tally that is above 19
 *        (before 8)
 *   10   no star has the number sought or to be struck, as none has number 0; of a record in a batch: an empty place
 *   11   the first byte of a radio list is neither 2 nor 3
 *   12   a number of a radio list is not in its shortest length or above 32 bits
 *   13   a radio list is cut short, an empty one too, or has bytes over
 *   14   both arguments of an arctangent are zero, of either sign: there is no direction
 *   15   the star never rises: it stays below the standard altitude
 *   16   the star never sets: it stays above the standard altitude
 *   17   a star's rate is not zero, and a narrow list, to which it is to move down, has no rates
 *   18   a star to be added has the number of a record of the list, in range or not
 *   19   no place of the list is empty, so that no star can be added
 *   20   the headings of a mark do not agree: with none of them do more than half
 * 1 to 5 are tested first, lowest number first, over all arguments; the others as the work meets them. Residuals and the mean
 * of headings alone have 8 before 1 and 3.
 * Limits themselves are accepted.
 *
 * Units: angles in radians, unless degrees are named; days are Julian (Ephemeris) days; distances in astronomical units;
 * heights in metres above sea level. Azimuth is counted from south, west positive: the true heading, from north and
 * clockwise, is azimuth plus half a turn. Geographical longitude is positive west of Greenwich, latitude positive north.
 * Meeus: J. Meeus, Astronomical Algorithms, 2nd edition.
 *
 * Editions: where the ported crate's rule is not Meeus's, the plain name is the crate's, by which past files reproduce, and
 * the name with _published is Meeus's, for new files. Arguments and answers are the same.
 *
 * What changed from 0.1 to 0.2: a star's record has 20 bytes in place of 12, since it holds two rates, the yearly change of
 * right ascension and of declination; a list has at most 3000 stars in place of 5000, in every form; the radio form that is
 * written begins with byte 3. Five functions have another shape: brundelak_star, brundelak_find and brundelak_radio_star
 * hand out asc_rate and dec_rate after dec, brundelak_put_star and brundelak_radio_put_star take both after dec. New are
 * brundelak_list_12_to_20 and brundelak_list_20_to_12, by which lists of before move up and back, brundelak_strike,
 * brundelak_add and brundelak_gather, by which a list is edited where it stands, the refusals 17, 18 and 19, and in a batch
 * the statuses 3 and 10; brundelak_nutation_ceiling, brundelak_residuals and brundelak_rotate; brundelak_mean_sidereal and
 * brundelak_apparent_sidereal; brundelak_heading, brundelak_mark_heading and brundelak_mean_heading, with refusal 20. A
 * record whose number is 0 is no star any more but an empty place: brundelak_star passes over it, brundelak_find never
 * answers it. Lengths, places and indices are uint64_t, which on x86-64 is the same call. The number of a version is major *
 * 65536 + minor * 256 + patch; of 0.1.0 it was 100.
 *
 * For C99 or later, and C++. There is an archive, libbrundelak.a, for x86-64, aarch64, riscv64 and armv7 (hard float) with
 * Linux, for a Cortex-M7 without a system, and for wasm32; for x86-64 a shared library, libbrundelak.so, too. All give the same
 * bits, and need nothing of libm; pkg-config brundelak says how to compile and link.
 *
 * Floats are assumed to round to nearest and to keep subnormal numbers, as they do where a C program starts; not in one
 * that is linked with -ffast-math, nor after fesetround. Under another rounding, or where subnormals are flushed, answers
 * have other bits and status 0 all the same: brundelak_float_environment() says whether all is well.
 */
#ifndef BRUNDELAK_H
#define BRUNDELAK_H

#include <stdint.h>
#include <string.h>

#ifdef __cplusplus
extern "C" {
#endif

/* The version, and its number: major * 65536 + minor * 256 + patch. */
#define BRUNDELAK_VERSION "0.2.0"
#define BRUNDELAK_VERSION_MAJOR 0
#define BRUNDELAK_VERSION_MINOR 2
#define BRUNDELAK_VERSION_PATCH 0
#define BRUNDELAK_VERSION_NUMBER (65536 * BRUNDELAK_VERSION_MAJOR + 256 * BRUNDELAK_VERSION_MINOR + BRUNDELAK_VERSION_PATCH)

/* The version of the archive, or of the shared library, that is linked.
 *
 * Returned:  its number, which is BRUNDELAK_VERSION_NUMBER where header and archive are of one version */
uint32_t brundelak_version(void);

/* The status of brundelak_star where no star is left. */
#define BRUNDELAK_END 255

/* The stored list: the bytes of a record; at most, a list's stars, which are its records where no place is empty; its bytes. */
#define BRUNDELAK_RECORD_BYTES 20
#define BRUNDELAK_MOST_STARS 3000
#define BRUNDELAK_MOST_BYTES (BRUNDELAK_RECORD_BYTES * BRUNDELAK_MOST_STARS)

/* The narrow list, as version 0.1 had it: the bytes of its record, which has no rates, and its bytes at most. */
#define BRUNDELAK_NARROW_RECORD_BYTES 12
#define BRUNDELAK_MOST_NARROW_BYTES (BRUNDELAK_NARROW_RECORD_BYTES * BRUNDELAK_MOST_STARS)

/* The bytes of a radio list at most: the first, two of the star count, and for each star three numbers of five and two rates
 * of three. */
#define BRUNDELAK_MOST_RADIO_BYTES (3 + 21 * BRUNDELAK_MOST_STARS)

/* The tally: how many counts it has, the count at which one is full, and the highest status that it knows:
 * of a record there is no higher one. */
#define BRUNDELAK_COUNTS 20
#define BRUNDELAK_FULLEST 60000
#define BRUNDELAK_HIGHEST_STATUS 19

/* The residual sheet of a coordinate: how many numbers it has, and which they are. */
#define BRUNDELAK_FIGURES 6
#define BRUNDELAK_FIGURE_COUNT 0
#define BRUNDELAK_FIGURE_SUM 1
#define BRUNDELAK_FIGURE_SQUARES 2
#define BRUNDELAK_FIGURE_LARGEST 3
#define BRUNDELAK_FIGURE_PLACE 4
#define BRUNDELAK_FIGURE_ASIDE 5

/* What brundelak_float_environment finds wrong. */
#define BRUNDELAK_ENVIRONMENT_ROUNDING 1
#define BRUNDELAK_ENVIRONMENT_SUBNORMALS 2

/* ---- statuses ---------------------------------------------------------------------------------------------------- */

/* A status by name. The functions answer it as a uint8_t. */
enum brundelak_status {
    BRUNDELAK_ANSWERED = 0,
    BRUNDELAK_REFUSAL_NOT_FINITE = 1,
    BRUNDELAK_REFUSAL_DAY = 2,
    BRUNDELAK_REFUSAL_ANGLE = 3,
    BRUNDELAK_REFUSAL_STEEP = 4,
    BRUNDELAK_REFUSAL_RANGE = 5,
    BRUNDELAK_REFUSAL_ZERO = 6,
    BRUNDELAK_REFUSAL_ARCSINE = 7,
    BRUNDELAK_REFUSAL_LIST = 8,
    BRUNDELAK_REFUSAL_RECORD = 9,
    BRUNDELAK_REFUSAL_NO_STAR = 10,
    BRUNDELAK_REFUSAL_FIRST_BYTE = 11,
    BRUNDELAK_REFUSAL_SPELLING = 12,
    BRUNDELAK_REFUSAL_END = 13,
    BRUNDELAK_REFUSAL_NO_DIRECTION = 14,
    BRUNDELAK_REFUSAL_NEVER_RISES = 15,
    BRUNDELAK_REFUSAL_NEVER_SETS = 16,
    BRUNDELAK_REFUSAL_MOVING_STAR = 17,
    BRUNDELAK_REFUSAL_NUMBER_PRESENT = 18,
    BRUNDELAK_REFUSAL_NO_EMPTY_PLACE = 19,
    BRUNDELAK_REFUSAL_SIGHTS_APART = 20
};

/* What a status means, as a sentence for people: also of BRUNDELAK_END, and of a number that has no name here. */
static inline const char *brundelak_sentence(uint8_t status)
{
    switch (status) {
    case BRUNDELAK_ANSWERED:
        return "the call was answered";
    case BRUNDELAK_REFUSAL_NOT_FINITE:
        return "an argument is NaN or infinite";
    case BRUNDELAK_REFUSAL_DAY:
        return "a day is more than 730500 days from 2451545.0";
    case BRUNDELAK_REFUSAL_ANGLE:
        return "an angle is too large, or a latitude or declination exceeds a quarter turn";
    case BRUNDELAK_REFUSAL_STEEP:
        return "an angle that goes into a tangent or divides by its cosine exceeds 1.57";
    case BRUNDELAK_REFUSAL_RANGE:
        return "a distance, a height or the argument of a root is outside its range";
    case BRUNDELAK_REFUSAL_ZERO:
        return "the sine of the new inclination, or the divisor N, is zero";
    case BRUNDELAK_REFUSAL_ARCSINE:
        return "the argument of an arcsine exceeds 1 in size";
    case BRUNDELAK_REFUSAL_LIST:
        return "the list, a place in it or a lent slice has a bad length, or a radio list too many stars";
    case BRUNDELAK_REFUSAL_RECORD:
        return "a star record is out of range";
    case BRUNDELAK_REFUSAL_NO_STAR:
        return "no star has the number, or the place is empty";
    case BRUNDELAK_REFUSAL_FIRST_BYTE:
        return "the first byte of a radio list is neither 2 nor 3";
    case BRUNDELAK_REFUSAL_SPELLING:
        return "a number of a radio list is not in its shortest length or above 32 bits";
    case BRUNDELAK_REFUSAL_END:
        return "a radio list is cut short, an empty one too, or has bytes over";
    case BRUNDELAK_REFUSAL_NO_DIRECTION:
        return "there is no direction: both arguments of an arctangent are zero";
    case BRUNDELAK_REFUSAL_NEVER_RISES:
        return "the star never rises: it stays below the standard altitude";
    case BRUNDELAK_REFUSAL_NEVER_SETS:
        return "the star never sets: it stays above the standard altitude";
    case BRUNDELAK_REFUSAL_MOVING_STAR:
        return "a star's rate is not zero, and a record of 12 bytes has no rates";
    case BRUNDELAK_REFUSAL_NUMBER_PRESENT:
        return "a star of the list has the number already";
    case BRUNDELAK_REFUSAL_NO_EMPTY_PLACE:
        return "no place of the list is empty";
    case BRUNDELAK_REFUSAL_SIGHTS_APART:
        return "the sights do not agree: with none of them do more than half";
    case BRUNDELAK_END:
        return "no star is left";
    default:
        return "the call was refused";
    }
}

/* ---- floats as they are assumed ---------------------------------------------------------------------------------- */

/* Whether floats are as the functions assume them, in the thread that asks.
 * Returned:  0, or a sum: BRUNDELAK_ENVIRONMENT_ROUNDING where they do not round to nearest, ties to even,
 *            BRUNDELAK_ENVIRONMENT_SUBNORMALS where subnormal results are flushed to zero or operands taken as zero
 * Note:      what is volatile is worked out at the call, also under -ffast-math. */
static inline int brundelak_float_environment(void)
{
    /* Two numbers and their sum to nearest: a tie that falls, a tie that rises, a little less and a little more than half
     * of the last place. */
    static const volatile double sums[8][3] = {
        {1.0, 1.1102230246251565e-16, 1.0},
        {1.0000000000000002, 1.1102230246251565e-16, 1.0000000000000004},
        {1.0, 5.551115123125783e-17, 1.0},
        {1.0, 1.6653345369377348e-16, 1.0000000000000002},
        {-1.0, -1.1102230246251565e-16, -1.0},
        {-1.0000000000000002, -1.1102230246251565e-16, -1.0000000000000004},
        {-1.0, -5.551115123125783e-17, -1.0},
        {-1.0, -1.6653345369377348e-16, -1.0000000000000002}
    };
    volatile double least_normal = 2.2250738585072014e-308, half = 0.5, high = 1.0715086071862673e301, operand, result;
    uint64_t bits = 1;
    double number;
    int wrong = 0, i;
    for (i = 0; i < 8; i++) {
        result = sums[i][0] + sums[i][1];
        if (result != sums[i][2])
            wrong |= BRUNDELAK_ENVIRONMENT_ROUNDING;
    }
    /* 2^-1074, given by its bits, times 2^1000: an operand taken as zero gives zero. */
    memcpy(&number, &bits, sizeof number);
    operand = number;
    result = operand * high;
    if (result != 5.293955920339377e-23)
        wrong |= BRUNDELAK_ENVIRONMENT_SUBNORMALS;
    /* 2^-1022 halved, looked at by its bits, as a comparison may take it as zero. */
    result = least_normal * half;
    number = result;
    memcpy(&bits, &number, sizeof bits);
    if (bits != (uint64_t)1 << 51)
        wrong |= BRUNDELAK_ENVIRONMENT_SUBNORMALS;
    return wrong;
}

/* ---- elementary functions ---------------------------------------------------------------------------------------- */

/* Sine.
 * Given:     x      angle (radians), size at most 400000.0
 * Returned:  out    its sine; of -0.0 it is -0.0
 * Refusals:  1, 3 */
uint8_t brundelak_sine(double x, double *out);

/* Cosine.
 * Given:     x      angle (radians), size at most 400000.0
 * Returned:  out    its cosine
 * Refusals:  1, 3 */
uint8_t brundelak_cosine(double x, double *out);

/* Tangent.
 * Given:     x      angle (radians), size at most 1.57
 * Returned:  out    its tangent
 * Refusals:  1, 3 (above 400000.0), 4 (above 1.57) */
uint8_t brundelak_tangent(double x, double *out);

/* Arctangent of two arguments.
 * Given:     y, x   numbers of any size
 * Returned:  out    angle (radians) of size at most PI, with the sign of y; of size at least a quarter turn where x
 *                   bears a minus sign, -0.0 among them
 * Refusals:  1, 14 where both are zero */
uint8_t brundelak_arctangent(double y, double x, double *out);

/* Arcsine.
 * Given:     s      number of size at most 1
 * Returned:  out    angle (radians)
 * Refusals:  1, 7 */
uint8_t brundelak_arcsine(double s, double *out);

/* Square root, rounded to nearest as IEEE 754 demands.
 * Given:     x      number, not below zero; -0.0 answers -0.0
 * Returned:  out    its root
 * Refusals:  1, 5 */
uint8_t brundelak_root(double x, double *out);

/* ---- angles, time, the Earth ------------------------------------------------------------------------------------- */

/* Seconds of arc to degrees.
 * Given:     seconds   seconds of arc
 * Returned:  out       degrees
 * Refusals:  1 */
uint8_t brundelak_deg_frm_dms(double seconds, double *out);

/* Seconds of time to degrees.
 * Given:     seconds   seconds of time
 * Returned:  out       degrees
 * Refusals:  1 */
uint8_t brundelak_deg_frm_hms(double seconds, double *out);

/* Degrees to radians.
 * Given:     x      degrees
 * Returned:  out    radians
 * Refusals:  1 */
uint8_t brundelak_to_radians(double x, double *out);

/* Degrees folded into one turn.
 * Given:     x      degrees
 * Returned:  out    the remainder by 360, from 0 up; 360.0 itself for some tiny negative x, -0.0 for -360.0
 * Refusals:  1 */
uint8_t brundelak_limit_to_360(double x, double *out);

/* Radians folded into one turn.
 * Given:     x      radians
 * Returned:  out    the remainder by the double 2 PI, from 0 up; 2 PI itself for some tiny negative x
 * Refusals:  1 */
uint8_t brundelak_limit_to_two_pi(double x, double *out);

/* Centuries from 2451545.0 (J2000).
 * Given:     day    Julian day
 * Returned:  out    Julian centuries of 36525 days
 * Refusals:  1, 2 */
uint8_t brundelak_julian_cent(double day, double *out);

/* Mean sidereal time at Greenwich (Meeus, 12.4).
 * Given:     day    Julian day, of universal time
 * Returned:  out    radians, from 0 to a turn
 * Refusals:  1, 2 */
uint8_t brundelak_mean_sidereal(double day, double *out);

/* Apparent sidereal time at Greenwich: the mean one with nutation's share, that in longitude times the cosine of the
 * true obliquity. The same day serves nutation, of universal time for dynamical time.
 * Given:     day    Julian day, of universal time
 * Returned:  out    radians, from 0 to a turn, and a turn itself just before 0
 * Refusals:  1, 2 */
uint8_t brundelak_apparent_sidereal(double day, double *out);

/* The observer's place from the Earth's centre (Meeus, chapter 11).
 * Given:     lat       observer's latitude, size at most 1.57
 *            height    metres above sea level
 * Returned:  rho_sin   rho sin phi', in equatorial radii
 *            rho_cos   rho cos phi'
 * Refusals:  1, 3, 4, 5 */
uint8_t brundelak_rho_sin_cos_phi(double lat, double height, double *rho_sin, double *rho_cos);

/* ---- changes of frame (Meeus, chapter 13) ------------------------------------------------------------------------ */

/* Hour angle from the sidereal time at Greenwich.
 * Given:     green_sidreal   sidereal time at Greenwich
 *            observer_long   observer's longitude
 *            asc             right ascension
 * Returned:  out             hour angle, not folded
 * Refusals:  1, 3 */
uint8_t brundelak_hr_angl_frm_observer_long(double green_sidreal, double observer_long, double asc, double *out);

/* Hour angle from the local sidereal time.
 * Given:     local_sidreal   local sidereal time
 *            asc             right ascension
 * Returned:  out             hour angle, not folded
 * Refusals:  1, 3 */
uint8_t brundelak_hr_angl_frm_loc_sidr(double local_sidreal, double asc, double *out);

/* Ecliptic longitude and latitude from equatorial coordinates.
 * Given:     asc, dec     right ascension, declination (size at most 1.57)
 *            oblq_eclip   obliquity of the ecliptic
 * Returned:  long_, lat   ecliptic longitude, -PI to PI, and latitude
 * Refusals:  1, 3, 4, 7 */
uint8_t brundelak_ecl_frm_eq(double asc, double dec, double oblq_eclip, double *long_, double *lat);

/* Right ascension from ecliptic coordinates.
 * Given:     ecl_long, ecl_lat   ecliptic longitude, latitude (size at most 1.57)
 *            oblq_eclip          obliquity of the ecliptic
 * Returned:  out                 right ascension, -PI to PI
 * Refusals:  1, 3, 4 */
uint8_t brundelak_asc_frm_ecl(double ecl_long, double ecl_lat, double oblq_eclip, double *out);

/* Declination from ecliptic coordinates.
 * Given:     ecl_long, ecl_lat   ecliptic longitude, latitude
 *            oblq_eclip          obliquity of the ecliptic
 * Returned:  out                 declination
 * Refusals:  1, 3, 7 */
uint8_t brundelak_dec_frm_ecl(double ecl_long, double ecl_lat, double oblq_eclip, double *out);

/* Azimuth from equatorial coordinates.
 * Given:     hour_angle     local hour angle
 *            dec            declination, size at most 1.57
 *            observer_lat   observer's latitude
 * Returned:  out            azimuth from south, west positive, -PI to PI, with the sign of the sine of the hour angle
 * Refusals:  1, 3, 4, 14
 * Note:      at the zenith there is no direction: about nine such sights in ten are refused by 14, in the others
 *            rounding alone gives 0, -PI or PI. */
uint8_t brundelak_az_frm_eq(double hour_angle, double dec, double observer_lat, double *out);

/* Altitude from equatorial coordinates.
 * Given:     hour_angle     local hour angle
 *            dec            declination
 *            observer_lat   observer's latitude
 * Returned:  out            altitude, without refraction
 * Refusals:  1, 3, 7
 * Note:      at an exact zenith the sum may round above 1: refused by 7, never clamped. */
uint8_t brundelak_alt_frm_eq(double hour_angle, double dec, double observer_lat, double *out);

/* Hour angle from horizontal coordinates.
 * Given:     az, alt        azimuth, altitude (size at most 1.57)
 *            observer_lat   observer's latitude
 * Returned:  out            hour angle, -PI to PI
 * Refusals:  1, 3, 4, 14 (at the pole) */
uint8_t brundelak_hr_angl_frm_hz(double az, double alt, double observer_lat, double *out);

/* Declination from horizontal coordinates, as the ported crate has it.
 * Given:     az, alt        azimuth, altitude
 *            observer_lat   observer's latitude
 * Returned:  out            arcsine of (sin lat sin alt - cos lat cos az cos az)
 * Refusals:  1, 3, 7
 * Note:      Meeus has cos alt cos az where the crate has cos az twice: docs/DIFFERENCES.md. */
uint8_t brundelak_dec_frm_hz(double az, double alt, double observer_lat, double *out);

/* The same in the published edition.
 * Given:     as brundelak_dec_frm_hz
 * Returned:  out            arcsine of (sin lat sin alt - cos lat cos alt cos az)
 * Refusals:  1, 3, 7 */
uint8_t brundelak_dec_frm_hz_published(double az, double alt, double observer_lat, double *out);

/* Galactic longitude from equatorial coordinates of B1950.0.
 * Given:     asc, dec   right ascension, declination (size at most 1.57)
 * Returned:  out        galactic longitude
 * Refusals:  1, 3, 4, 14 (at the galactic pole) */
uint8_t brundelak_gal_long_frm_eq(double asc, double dec, double *out);

/* Galactic latitude from equatorial coordinates of B1950.0.
 * Given:     asc, dec   right ascension, declination
 * Returned:  out        galactic latitude
 * Refusals:  1, 3, 7 */
uint8_t brundelak_gal_lat_frm_eq(double asc, double dec, double *out);

/* Right ascension of B1950.0 from galactic coordinates.
 * Given:     gal_long, gal_lat   galactic longitude, latitude (size at most 1.57)
 * Returned:  out                 right ascension
 * Refusals:  1, 3, 4, 14 (at the celestial pole) */
uint8_t brundelak_asc_frm_gal(double gal_long, double gal_lat, double *out);

/* ---- precession (Meeus, chapter 21) ------------------------------------------------------------------------------ */

/* Annual precession.
 * Given:     asc, dec         right ascension, declination (size at most 1.57)
 *            day              Julian day of the new epoch
 * Returned:  precess_in_asc   annual precession in right ascension
 *            precess_in_dec   annual precession in declination
 * Refusals:  1, 2, 3, 4 */
uint8_t brundelak_annual_precess(double asc, double dec, double day, double *precess_in_asc,
                                 double *precess_in_dec);

/* Equatorial coordinates (FK5) from one day to another.
 * Given:     old_asc, old_dec   right ascension, declination on day1
 *            day1, day2         Julian days
 * Returned:  asc, dec           right ascension (not folded), declination on day2
 * Refusals:  1, 2, 3, then 14 (the star comes to the pole), 7
 * Note:      two signs are the ported crate's and not Meeus's: docs/DIFFERENCES.md. */
uint8_t brundelak_precess_eq_coords(double old_asc, double old_dec, double day1, double day2,
                                    double *asc, double *dec);

/* The same in the published edition, with Meeus's signs.
 * Given, Returned, Refusals:  as brundelak_precess_eq_coords */
uint8_t brundelak_precess_eq_coords_published(double old_asc, double old_dec, double day1, double day2,
                                              double *asc, double *dec);

/* Coordinates of the FK4 system from one day to another, as the ported crate has it.
 * Given:     old_asc, old_dec   right ascension, declination on day1
 *            day1, day2         Julian days
 * Returned:  asc, dec           right ascension, declination on day2
 * Refusals:  1, 2, 3, then 14, 7
 * Note:      the crate takes counts of degrees as radians here: docs/DIFFERENCES.md. */
uint8_t brundelak_precess_eq_coords_fk5(double old_asc, double old_dec, double day1, double day2,
                                        double *asc, double *dec);

/* The same in the published edition: each angle is converted to radians.
 * Given, Returned, Refusals:  as brundelak_precess_eq_coords_fk5 */
uint8_t brundelak_precess_eq_coords_fk5_published(double old_asc, double old_dec, double day1, double day2,
                                                  double *asc, double *dec);

/* Ecliptic coordinates from one day to another.
 * Given:     old_long, old_lat   ecliptic longitude, latitude on day1
 *            day1, day2          Julian days
 * Returned:  ecl_long, ecl_lat   ecliptic longitude (not folded), latitude on day2
 * Refusals:  1, 2, 3, 7 */
uint8_t brundelak_precess_ecl_coords(double old_long, double old_lat, double day1, double day2,
                                     double *ecl_long, double *ecl_lat);

/* Orbital elements from one day to another (Meeus, chapter 24).
 * Given:     old_inc                inclination on day1
 *            old_arg_perih          argument of perihelion on day1
 *            old_long_ascend_node   longitude of the ascending node on day1
 *            day1, day2             Julian days
 * Returned:  inc, arg_perih, long_ascend_node
 *                                   the same three on day2
 * Refusals:  1, 2, 3, then 7 (new inclination), 6 (its sine is zero), 7 (the change of the perihelion) */
uint8_t brundelak_precess_orb_elements(double old_inc, double old_arg_perih, double old_long_ascend_node,
                                       double day1, double day2, double *inc, double *arg_perih,
                                       double *long_ascend_node);

/* ---- nutation (Meeus, chapters 22 and 23) ------------------------------------------------------------------------ */

/* Nutation.
 * Given:     day           Julian day
 * Returned:  nut_in_long   nutation in longitude
 *            nut_in_oblq   nutation in obliquity
 * Refusals:  1, 2 */
uint8_t brundelak_nutation(double day, double *nut_in_long, double *nut_in_oblq);

/* A ceiling on nutation: the most, in size, that brundelak_nutation can answer on the day, for an error budget. It does
 * not fall as the day's distance from 2451545.0 grows: the ceiling of the farthest day bounds every day. It bounds this
 * nutation, and says nothing of that nutation's distance from the sky's.
 * Given:     day            Julian day
 * Returned:  long_ceiling   ceiling on nutation in longitude
 *            oblq_ceiling   ceiling on nutation in obliquity
 * Refusals:  1, 2 */
uint8_t brundelak_nutation_ceiling(double day, double *long_ceiling, double *oblq_ceiling);

/* Nutation in equatorial coordinates.
 * Given:     asc, dec                   right ascension, declination (size at most 1.57)
 *            nut_in_long, nut_in_oblq   nutation in longitude, in obliquity
 *            tru_oblq                   obliquity of the ecliptic
 * Returned:  nut_in_asc, nut_in_dec     nutation in right ascension, in declination
 * Refusals:  1, 3, 4 */
uint8_t brundelak_nutation_in_eq_coords(double asc, double dec, double nut_in_long, double nut_in_oblq,
                                        double tru_oblq, double *nut_in_asc, double *nut_in_dec);

/* ---- aberration (Meeus, chapters 23 and 25) ---------------------------------------------------------------------- */

/* Solar aberration in longitude.
 * Given:     dist   distance of Sun and Earth (AU)
 * Returned:  out    aberration
 * Refusals:  1, 5 */
uint8_t brundelak_sol_aberr(double dist, double *out);

/* Stellar aberration in equatorial coordinates (Ron and Vondrak).
 * Given:     asc, dec                     right ascension, declination (size at most 1.57)
 *            day                          Julian day
 * Returned:  aberr_in_asc, aberr_in_dec   aberration in right ascension, in declination
 * Refusals:  1, 2, 3, 4 */
uint8_t brundelak_stell_aberr_in_eq_coords(double asc, double dec, double day, double *aberr_in_asc,
                                           double *aberr_in_dec);

/* ---- parallax (Meeus, chapter 40) -------------------------------------------------------------------------------- */

/* Equatorial horizontal parallax.
 * Given:     dist   distance from the Earth (AU)
 * Returned:  out    parallax
 * Refusals:  1, 5 */
uint8_t brundelak_eq_hz_parallax(double dist, double *out);

/* Topocentric equatorial coordinates.
 * Given:     asc, dec     geocentric right ascension, declination
 *            parallax     equatorial horizontal parallax
 *            long_, lat   observer's longitude, latitude (size at most 1.57)
 *            height       metres above sea level
 *            sidereal     sidereal time at Greenwich
 * Returned:  topocent_asc, topocent_dec
 *                         topocentric right ascension, declination
 * Refusals:  1, 3, 4, 5, 14 */
uint8_t brundelak_topocent_eq_coords(double asc, double dec, double parallax, double long_, double lat, double height,
                                     double sidereal, double *topocent_asc, double *topocent_dec);

/* Topocentric ecliptic coordinates and semidiameter.
 * Given:     ecl_long, ecl_lat   geocentric ecliptic longitude, latitude
 *            parallax            equatorial horizontal parallax
 *            long_, lat          observer's longitude (not used, refused all the same), latitude (size at most 1.57)
 *            height              metres above sea level
 *            sidereal            local sidereal time
 *            oblq                obliquity of the ecliptic
 *            semidiameter        geocentric semidiameter
 * Returned:  topocent_long, topocent_lat, topocent_semidiameter
 *                                topocentric longitude (0 to 2 PI), latitude, semidiameter
 * Refusals:  1, 3, 4, 5, then 6 (N is zero), 7
 * Note:      for N < 0 the latitude lies beyond the pole, as in the ported crate: docs/DIFFERENCES.md. */
uint8_t brundelak_topopcent_ecl_coords(double ecl_long, double ecl_lat, double parallax, double long_, double lat,
                                       double height, double sidereal, double oblq, double semidiameter,
                                       double *topocent_long, double *topocent_lat, double *topocent_semidiameter);

/* The same in the published edition: Meeus's latitude, which for N < 0 too lies on this side of the pole, and the
 * semidiameter by it.
 * Given, Returned:  as brundelak_topopcent_ecl_coords
 * Refusals:         1, 3, 4, 5, then 6 (N is zero), 6 (the cosine of the topocentric longitude is zero), 7 */
uint8_t brundelak_topopcent_ecl_coords_published(double ecl_long, double ecl_lat, double parallax, double long_, double lat,
                                                 double height, double sidereal, double oblq, double semidiameter,
                                                 double *topocent_long, double *topocent_lat,
                                                 double *topocent_semidiameter);

/* ---- rise, culmination and set (Meeus, chapter 15) --------------------------------------------------------------- */

/* Rise, culmination and set of a star, before interpolation.
 * Given:     asc, dec      right ascension, declination (size at most 1.57) on the day in question
 *            sidereal      sidereal time at Greenwich at 0h universal time of that day
 *            long_, lat    observer's longitude, latitude (size at most 1.57)
 *            alt           standard altitude, at which the star rises and sets (size at most a quarter turn)
 * Returned:  rise, culmination, set
 *                          fractions of the sidereal day since that 0h, 0 to 1; 1.0 itself just before it
 * Refusals:  1, 3, 4, then 15, 16
 * Note:      divided by 1.0027379 a fraction is that of the clock's day, up to 4 minutes earlier. A star that only
 *            touches the standard altitude is answered: all three fall together, or rise and set half a day from the
 *            culmination. */
uint8_t brundelak_rise_culm_set(double asc, double dec, double sidereal, double long_, double lat, double alt,
                                double *rise, double *culmination, double *set);

/* ---- refraction at the sight (Meeus, chapter 16) ----------------------------------------------------------------- */

/* Refraction from the apparent altitude: by how much a star that is seen there stands too high.
 * Given:     apprnt_alt  apparent altitude in degrees, 0.0 to 89.8
 * Returned:  *out        refraction in minutes of arc, above 0 and at most 35
 * Refusals:  1, 3 */
uint8_t brundelak_refrac_frm_apprnt_alt(double apprnt_alt, double *out);

/* Refraction from the true altitude: by how much a star that stands there will be seen too high.
 * Given:     true_alt    true altitude in degrees, 0.0 to 89.8
 * Returned:  *out        refraction in minutes of arc, above 0 and at most 30
 * Refusals:  1, 3 */
uint8_t brundelak_refrac_frm_true_alt(double true_alt, double *out);

/* The true altitude of a star, from the one at which it was measured.
 * Given:     apprnt_alt  measured altitude in degrees, 0.0 to 89.8
 * Returned:  *out        true altitude in degrees: never above the measured one; at the horizon it is below 0.0
 * Refusals:  1, 3 */
uint8_t brundelak_sight_alt(double apprnt_alt, double *out);

/* The altitude at which to look for a star, from the computed one.
 * Given:     true_alt    computed altitude in degrees, 0.0 to 89.8; brundelak_alt_frm_eq answers radians
 * Returned:  *out        altitude in degrees: never below the computed one
 * Refusals:  1, 3 */
uint8_t brundelak_plan_alt(double true_alt, double *out);

/* ---- the chain --------------------------------------------------------------------------------------------------- */

/* A star's place from one day to another: precession, then nutation and aberration at the precessed point.
 * Given:     old_asc, old_dec   right ascension, declination on day1
 *            day1, day2         Julian days
 * Returned:  asc, dec           right ascension (not folded), declination on day2
 * Refusals:  1, 2, 3, then 14 and 7 (precession), then 4 on the precessed declination
 * Note:      the obliquity is the true one on day2; files made by the mean one differ as docs/DIFFERENCES.md shows. */
uint8_t brundelak_chain(double old_asc, double old_dec, double day1, double day2, double *asc, double *dec);

/* The same in the published edition: precession has Meeus's signs.
 * Given, Returned, Refusals:  as brundelak_chain */
uint8_t brundelak_chain_published(double old_asc, double old_dec, double day1, double day2, double *asc,
                                  double *dec);

/* ---- the stored list ---------------------------------------------------------------------------------------------
 * A list is at most 3000 records of 20 bytes, little-endian: number (uint32), right ascension in milliarcseconds
 * (uint32, below 1296000000), declination in milliarcseconds (int32, size at most 324000000), and the yearly change of each,
 * in milliarcseconds a year (int32, size at most 20000). The rate of right ascension is of the coordinate itself: what
 * catalogues print is that times cos declination, and must be divided by it.
 *
 * A record whose number is 0 is an empty place, whatever stands behind the 0, and no star. brundelak_star passes over it and
 * brundelak_find never answers it; a batch gives it status 10, brundelak_strike leaves one, brundelak_add fills one.
 *
 * Records are counted, empty places among them, by a list's length, by the index of brundelak_find, and by a batch: its
 * slices have an element for each record, and its tally a count, an empty place under 10. Stars alone are counted by who walks
 * a list by brundelak_star. To give each star its own element of the slices: the star that it shows is record next / 20 - 1,
 * which is not how many were shown before it once a place is empty. */

/* The first star from a place of a list on, in range or not, and the place after it: walk a list from place 0. Empty places
 * are passed over.
 * Given:     bytes, len           the list
 *            place                a multiple of 20, at most len: where a record begins, an empty place too, or the end
 * Returned:  number, asc, dec, asc_rate, dec_rate
 *                                 the star's fields; number is never 0
 *            next                 the place after it: its record is the 20 bytes before next
 * Status:    0, or BRUNDELAK_END where no star is left, at the end and where only empty places follow (nothing is written)
 * Refusals:  8 */
uint8_t brundelak_star(const uint8_t *bytes, uint64_t len, uint64_t place, uint32_t *number, uint32_t *asc, int32_t *dec,
                       int32_t *asc_rate, int32_t *dec_rate, uint64_t *next);

/* A star written as a record: stars written one after the other from place 0 on are a list, which ends at the last next.
 * Given:     out, len             a slice of any length
 *            place                where in it the record begins: a multiple of 20, below 60000
 *            number, asc, dec, asc_rate, dec_rate
 *                                 the star's fields; both rates are 0 of a star that stands still; number 0 writes an empty
 *                                 place, which brundelak_star does not show
 * Returned:  out                  the record from place on; all else stays
 *            next                 the place after it
 * Refusals:  9 (out of range), then 8 (no record of a list begins there, or no room); the slice stays unchanged */
uint8_t brundelak_put_star(uint8_t *out, uint64_t len, uint64_t place, uint32_t number, uint32_t asc, int32_t dec,
                           int32_t asc_rate, int32_t dec_rate, uint64_t *next);

/* The first star with a number. An empty place is never found.
 * Given:     bytes, len   the list
 *            number       the number sought
 * Returned:  index        the index of its record, from 0: empty places before it count
 *            asc, dec, asc_rate, dec_rate
 *                         the record's other fields
 * Refusals:  8, then 10 (the number is 0, or no star has it), then 9 (its record is out of range) */
uint8_t brundelak_find(const uint8_t *bytes, uint64_t len, uint32_t number, uint64_t *index, uint32_t *asc, int32_t *dec,
                       int32_t *asc_rate, int32_t *dec_rate);

/* Every star of a list by the chain, from one day to another. Before it each coordinate is shifted: its rate times the
 * years between the days, (day2 - day1) / 365.25, is added to it. A star with both rates zero has the chain's answer at its
 * place, bit for bit. Records are counted, not stars: an empty place has its element of each slice, and is refused by 10.
 * Given:     bytes, len            the list
 *            day1, day2            Julian days
 *            status, status_len    a byte for each record, at least len / 20
 *            asc, asc_len          likewise, and
 *            dec, dec_len          likewise
 * Returned:  status[i]             of record i, from 0, and one of 0, 3, 4, 7, 9, 10, 14: 0, or the first refusal met: 10 for
 *                                  an empty place, whether its rest is in range or not, 9 for a record out of range, 3 for a
 *                                  declination shifted past a quarter turn, then the chain's 14, 7, 4
 *            asc[i], dec[i]        the place on day2 of record i's star; 0.0 and 0.0 where it is refused; elements past the
 *                                  records stay
 *            tally                 BRUNDELAK_COUNTS counts: how many records have status 0, 1, .. 19; the empty places are
 *                                  tally[BRUNDELAK_REFUSAL_NO_STAR]
 * Refusals:  1, 2, then 8; all that is lent stays unchanged */
uint8_t brundelak_batch(const uint8_t *bytes, uint64_t len, double day1, double day2, uint8_t *status, uint64_t status_len,
                        double *asc, uint64_t asc_len, double *dec, uint64_t dec_len, uint32_t *tally);

/* The same in the published edition: each star by brundelak_chain_published.
 * Given, Returned, Refusals:  as brundelak_batch */
uint8_t brundelak_batch_published(const uint8_t *bytes, uint64_t len, double day1, double day2, uint8_t *status,
                                  uint64_t status_len, double *asc, uint64_t asc_len, double *dec, uint64_t dec_len,
                                  uint32_t *tally);

/* Every star of a list under one rotation, from one day to another: precession alone, without nutation and aberration, each of
 * which moves a star by up to 20 seconds of arc. For those use brundelak_batch; this is for who wants mean places, or adds
 * both himself, and takes three quarters of the batch's instructions a star. Each coordinate is shifted as brundelak_batch shifts
 * it. The three angles of precession are made one matrix, Rz(-second) Ry(third) Rz(-first), each a turn of the axes, and that
 * is applied to the star's unit vector: right ascension is the arctangent of (y, x), not folded, -PI to PI, declination the
 * arcsine of z.
 * Given:     as brundelak_batch
 * Returned:  status[i]             of record i, from 0, and one of 0, 3, 7, 9, 10, 14: 0, or the first refusal met: 10, 9 and 3
 *                                  as in brundelak_batch, then 14 (the star comes to lie in the pole itself) and 7
 *            asc[i], dec[i], tally as brundelak_batch
 * Refusals:  1, 2, then 8; all that is lent stays unchanged
 * Note:      it stands beside brundelak_precess_eq_coords and is not claimed equal to it: the last digits differ. Negate a
 *            right ascension, and its place need not come out mirrored: the axes turn one way for both. */
uint8_t brundelak_rotate(const uint8_t *bytes, uint64_t len, double day1, double day2, uint8_t *status, uint64_t status_len,
                         double *asc, uint64_t asc_len, double *dec, uint64_t dec_len, uint32_t *tally);

/* The same by the published edition's angles.
 * Given, Returned, Refusals:  as brundelak_rotate */
uint8_t brundelak_rotate_published(const uint8_t *bytes, uint64_t len, double day1, double day2, uint8_t *status,
                                   uint64_t status_len, double *asc, uint64_t asc_len, double *dec, uint64_t dec_len,
                                   uint32_t *tally);

/* One status counted in a tally.
 * Given:     status   0, or a refusal number up to 19
 *            tally    BRUNDELAK_COUNTS counts
 * Returned:  tally    the count of that status raised by one
 * Refusals:  9 for a status that is not known, then 8 for a count that is full, 60000; the counts stay unchanged */
uint8_t brundelak_tally_raise(uint8_t status, uint32_t *tally);

/* ---- the heading of a star, and of a mark -----------------------------------------------------------------------
 * A heading is counted in degrees from true north, clockwise, from 0.0 to below 360.0. Azimuth is counted from south, west
 * positive: a heading is the azimuth in degrees plus 180, folded. */

/* A star's true heading, with its azimuth and altitude, from its record and the observer's place, without refraction. The star's
 * place on day2 is the one that brundelak_batch gives; sidereal time is the apparent one on day2.
 * Given:     asc, dec, asc_rate, dec_rate
 *                             the star's fields as a record has them, in milliarcseconds, and milliarcseconds a year
 *            day1             Julian day of the record's place
 *            day2             Julian day of the sight, in universal time
 *            long_, lat       observer's longitude, west positive, and latitude, in radians
 * Returned:  heading          degrees from north, clockwise, 0.0 to below 360.0
 *            azimuth          degrees from south, west positive, -180.0 to 180.0
 *            alt              altitude in degrees, without refraction; below 0.0 where the star is not up
 * Refusals:  1, 2, 3, then 9 (a record out of range), 3 (a declination shifted past a quarter turn), 14, 7 and 4 (the chain);
 *            then 3 (the hour angle), 4 (the declination), 14 (no azimuth: the star is overhead, or underfoot) and 7 */
uint8_t brundelak_heading(uint32_t asc, int32_t dec, int32_t asc_rate, int32_t dec_rate, double day1, double day2,
                          double long_, double lat, double *heading, double *azimuth, double *alt);

/* The same in the published edition: the star's place by brundelak_batch_published.
 * Given, Returned, Refusals:  as brundelak_heading */
uint8_t brundelak_heading_published(uint32_t asc, int32_t dec, int32_t asc_rate, int32_t dec_rate, double day1, double day2,
                                    double long_, double lat, double *heading, double *azimuth, double *alt);

/* A mark's true heading, from a star's and from what a horizontal circle reads at both, clockwise: the star's plus the
 * difference of the readings, folded.
 * Given:     heading        the star's heading in degrees, 0.0 to below 360.0
 *            star_reading   what the circle reads at the star, in degrees, likewise
 *            mark_reading   what it reads at the mark, likewise
 * Returned:  *out           the mark's heading in degrees, 0.0 to below 360.0
 * Refusals:  1, 3 (one of them is below 0.0, or not below 360.0) */
uint8_t brundelak_mark_heading(double heading, double star_reading, double mark_reading, double *out);

/* The mean of a night's headings of one mark, on either side of north: the reference is the first sight with which more than
 * half of all agree, itself among them; the mean is the reference plus the mean of the residuals from it, folded. A residual is
 * a heading less the reference across the turn, in whole milliarcseconds, halves away from zero. A sight agrees where its
 * residual is at most 1000000 in size; one that does not is set aside.
 * Given:     headings, headings_len   degrees, each 0.0 to below 360.0, from 1 to 3000 of them
 * Returned:  *mean                    degrees, 0.0 to below 360.0
 *            sheet                    BRUNDELAK_FIGURES numbers, of the residuals from the reference, as brundelak_residuals
 *                                     has them of a coordinate; a place is an index among the headings
 * Refusals:  8 (none, or more than 3000), then 1, then 3 (one is below 0.0, or not below 360.0), over all of them; then 20 (with
 *            no sight more than half of all agree); mean and sheet stay unchanged */
uint8_t brundelak_mean_heading(const double *headings, uint64_t headings_len, double *mean, int64_t *sheet);

/* ---- the residuals of a night ------------------------------------------------------------------------------------
 * A residual is a computed angle less the measured one, as a whole number of milliarcseconds. In right ascension the
 * difference is taken across the turn: folded as by brundelak_limit_to_two_pi, then less a turn where it exceeds half of one,
 * so that 359 degrees less 1 degree is -2 degrees; it is of the coordinate itself, not times cos declination. The difference
 * times the double 180/PI, then times 3600000, is rounded to the nearest whole number, halves away from zero. A residual that
 * exceeds 1000000 in size, once rounded, is set aside: counted as such, and in no other figure. Each coordinate stands by
 * itself: of an entry one residual may be set aside and the other not. */

/* The residual sheet of each coordinate, over all entries of status 0.
 * Given:     status, status_len               a byte for each entry: any byte, and those of status 0 alone are taken in
 *            asc, asc_len                     computed right ascensions, radians, and
 *            dec, dec_len                     declinations, as brundelak_batch leaves them
 *            measured_asc, measured_asc_len   the measured ones, radians
 *            measured_dec, measured_dec_len   likewise
 *            all five slices have one length, at most 3000: of longer ones that a batch was lent, give the list's records alone
 * Returned:  asc_sheet, dec_sheet             BRUNDELAK_FIGURES numbers each, of the residuals taken in: their count, sum,
 *                                             sum of squares, the largest size, the first place that has it; then how many
 *                                             were set aside. A place counts entries, of any status, from 0: it is the index
 *                                             in the slices. Largest size and place are 0 and 0 where none is taken in; where
 *                                             all are 0, the place is that of the first taken in
 * Refusals:  8 (unequal lengths, or more than 3000 entries), then 1 (a number is NaN or infinite), then 3 (one exceeds 64.0
 *            in size), over all four slices of angles, at entries of any status; both sheets stay unchanged
 * Note:      all numbers are exact: a sum is at most 3000000000 in size, a sum of squares at most 3000000000000000. The
 *            sheet of a night in two parts is the sum of count, sum, squares and set aside of its parts, with the larger
 *            largest; the second's place is moved on by the first's length, and of equal sizes the lower place stays. */
uint8_t brundelak_residuals(const uint8_t *status, uint64_t status_len, const double *asc, uint64_t asc_len,
                            const double *dec, uint64_t dec_len, const double *measured_asc, uint64_t measured_asc_len,
                            const double *measured_dec, uint64_t measured_dec_len, int64_t *asc_sheet,
                            int64_t *dec_sheet);

/* ---- a list edited where it stands -------------------------------------------------------------------------------
 * None of the three changes a list's length: places for stars to come are laid as zero bytes, and zero bytes alone are a list
 * of empty places. A list may be handed on with empty places in it. A refused call leaves every byte. */

/* The first star with a number struck off a list, in range or not.
 * Given:     bytes, len   the list
 *            number       the number of the star
 * Returned:  bytes        all 20 bytes of its record zero, an empty place; every other record stays
 * Refusals:  8, then 10 (the number is 0, or no star has it)
 * Note:      a list from elsewhere may have a number twice. Struck once it is there still, and brundelak_add refuses it by
 *            18: strike it until the answer is 10. */
uint8_t brundelak_strike(uint8_t *bytes, uint64_t len, uint32_t number);

/* A star added to a list, in its first empty place, whatever stood behind the 0 there.
 * Given:     bytes, len           the list
 *            number, asc, dec, asc_rate, dec_rate
 *                                 the star's fields; both rates are 0 of a star that stands still
 * Returned:  bytes                all 20 bytes of that place are the star's record; every other record stays
 * Refusals:  8, then 9 (the number is 0, or the record out of range), then 18 (a record has the number, in range or not),
 *            then 19 (no place is empty) */
uint8_t brundelak_add(uint8_t *bytes, uint64_t len, uint32_t number, uint32_t asc, int32_t dec, int32_t asc_rate,
                      int32_t dec_rate);

/* The stars of a list brought forward, so that its empty places stand behind them.
 * Given:     bytes, len   the list
 * Returned:  bytes        every record whose number is not 0, in range or not, byte for byte and in its order, then zero
 *                         bytes to the end: the stars are the same, and brundelak_star and brundelak_find say the same of
 *                         them, but for next and index
 * Refusals:  8 */
uint8_t brundelak_gather(uint8_t *bytes, uint64_t len);

/* ---- lists of before ---------------------------------------------------------------------------------------------
 * A narrow list is one of version 0.1: number, right ascension and declination as above, 12 bytes a record. A list
 * bears no mark of its width, so that who keeps lists of both must know which is which. Each move carries an empty place like
 * any record, so that it is refused by 9 where what stands behind its 0 is out of range, by 17 where a rate is not zero. A
 * slice that is written and the bytes that are read must not overlap. */

/* A narrow list, all its records in range, moved up: both rates are zero. Back by brundelak_list_20_to_12 it has the same
 * bytes.
 * Given:     bytes, len     the narrow list
 *            out, out_len   a slice (60000 do for every list)
 * Returned:  out            the list, from the slice's start on; the rest stays
 *            written        how many bytes it has
 * Refusals:  8 (no multiple of 12, or more than 36000), then 9 (a record out of range), then 8 (the slice is too short);
 *            the slice stays unchanged */
uint8_t brundelak_list_12_to_20(const uint8_t *bytes, uint64_t len, uint8_t *out, uint64_t out_len, uint64_t *written);

/* A list, all its records in range and all its rates zero, moved down to a narrow one. Back by brundelak_list_12_to_20 it
 * has the same bytes.
 * Given:     bytes, len     the list
 *            out, out_len   a slice (36000 do for every narrow list)
 * Returned:  out            the narrow list, from the slice's start on; the rest stays
 *            written        how many bytes it has
 * Refusals:  8 (not a list), then 9 (a record out of range), then 17 (a rate is not zero), each wherever in the list it is,
 *            then 8 (the slice is too short); the slice stays unchanged */
uint8_t brundelak_list_20_to_12(const uint8_t *bytes, uint64_t len, uint8_t *out, uint64_t out_len, uint64_t *written);

/* ---- lists over the radio link -----------------------------------------------------------------------------------
 * Byte 3, the star count (at most 3000), then for each star its number, right ascension, folded declination (0, -1, 1, -2
 * become 0, 1, 2, 3) and both rates folded, units and ranges as in the stored list. Every number stands in groups of seven
 * bits, low group first, high bit set on all groups but the last, in the shortest length and in 32 bits: 300 is AC 02.
 * Byte 2 begins a list of version 0.1, three numbers a star: it is read, with rates zero, and never written.
 * Of the refusals the first met is given: 12 at the byte that shows it, 9 after the star's last number. Only the stored list
 * has empty places: here number 0 is read, written, counted and moved as any other. A slice that is written and the bytes that
 * are read must not overlap. */

/* The head of a radio list; what follows it is not looked at.
 * Given:     bytes, len   the radio list
 * Returned:  count        how many stars it says it has
 *            place        the place of the first, for brundelak_radio_star
 * Refusals:  13 (empty), 11, then 12 or 13 (the count), then 8 (above 3000) */
uint8_t brundelak_radio_open(const uint8_t *bytes, uint64_t len, uint32_t *count, uint64_t *place);

/* The star at a place of a radio list, and the place after it: walk a list from brundelak_radio_open's place, so many
 * times as it has stars. Of the head only the first byte is looked at, which says whether a star has rates.
 * Given:     bytes, len           the radio list
 *            place                any place; at or past the end it is refused by 13
 * Returned:  number, asc, dec, asc_rate, dec_rate
 *                                 the star's fields, in range; number may be 0
 *            next                 the place after it
 * Refusals:  13 (empty), 11, then 12 or 13 number by number, then 9 */
uint8_t brundelak_radio_star(const uint8_t *bytes, uint64_t len, uint64_t place, uint32_t *number, uint32_t *asc,
                             int32_t *dec, int32_t *asc_rate, int32_t *dec_rate, uint64_t *next);

/* Whether a whole radio list is good.
 * Given:     bytes, len   the radio list
 * Returned:  count        how many stars it has
 * Refusals:  as brundelak_radio_open, then at each star as brundelak_radio_star, then 13 (bytes over) */
uint8_t brundelak_radio_accept(const uint8_t *bytes, uint64_t len, uint32_t *count);

/* The head of a radio list written: byte 3 and the star count.
 * Given:     out, len   a slice
 *            place      where in it the head begins
 *            count      how many stars will follow
 * Returned:  out        the head from place on; all else stays
 *            next       the place after it
 * Refusals:  8 (the count is above 3000), then 8 (no room); the slice stays unchanged */
uint8_t brundelak_radio_put_head(uint8_t *out, uint64_t len, uint64_t place, uint32_t count, uint64_t *next);

/* A star of a radio list written, with its rates.
 * Given:     out, len             a slice
 *            place                where in it the star begins
 *            number, asc, dec, asc_rate, dec_rate
 *                                 the star's fields
 * Returned:  out                  the star from place on; all else stays
 *            next                 the place after it
 * Refusals:  9 (out of range), then 8 (no room); the slice stays unchanged */
uint8_t brundelak_radio_put_star(uint8_t *out, uint64_t len, uint64_t place, uint32_t number, uint32_t asc, int32_t dec,
                                 int32_t asc_rate, int32_t dec_rate, uint64_t *next);

/* A radio list as a stored list. A star of number 0 is an empty place there.
 * Given:     bytes, len     the radio list
 *            out, out_len   a slice of at least 20 bytes a star (60000 do for every list)
 * Returned:  out            the stored list, from the slice's start on; the rest stays
 *            written        how many bytes it has
 * Refusals:  as brundelak_radio_accept, then 8 (the slice is too short); the slice stays unchanged */
uint8_t brundelak_radio_to_list(const uint8_t *bytes, uint64_t len, uint8_t *out, uint64_t out_len, uint64_t *written);

/* A stored list, all its records in range, as a radio list, in which an empty place is a star of number 0. Back by
 * brundelak_radio_to_list it has the same bytes.
 * Given:     bytes, len     the stored list
 *            out, out_len   a slice (63003 bytes do for every list)
 * Returned:  out            the radio list, from the slice's start on; the rest stays
 *            written        how many bytes it has
 * Refusals:  8 (not a list), then 9 (a record out of range), then 8 (the slice is too short); the slice stays unchanged */
uint8_t brundelak_list_to_radio(const uint8_t *bytes, uint64_t len, uint8_t *out, uint64_t out_len, uint64_t *written);

#ifdef __cplusplus
}
#endif

#endif
