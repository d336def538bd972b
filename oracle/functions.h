/* Every function of numbers, as one shape of call: its numbers, and its places. */
#include "brundelak.h"

typedef uint8_t call(const double *a, double *const *o);

#define A1 a[0]
#define A2 A1, a[1]
#define A3 A2, a[2]
#define A4 A3, a[3]
#define A5 A4, a[4]
#define A6 A5, a[5]
#define A7 A6, a[6]
#define A9 A7, a[7], a[8]
#define O1 o[0]
#define O2 O1, o[1]
#define O3 O2, o[2]

#define FUNCTIONS(F) \
    F(sine, A1, O1) F(cosine, A1, O1) F(tangent, A1, O1) F(arctangent, A2, O1) F(arcsine, A1, O1) F(root, A1, O1) \
    F(deg_frm_dms, A1, O1) F(deg_frm_hms, A1, O1) F(to_radians, A1, O1) F(limit_to_360, A1, O1) \
    F(limit_to_two_pi, A1, O1) F(julian_cent, A1, O1) F(mean_sidereal, A1, O1) \
    F(apparent_sidereal, A1, O1) F(rho_sin_cos_phi, A2, O2) \
    F(hr_angl_frm_observer_long, A3, O1) F(hr_angl_frm_loc_sidr, A2, O1) F(ecl_frm_eq, A3, O2) \
    F(asc_frm_ecl, A3, O1) F(dec_frm_ecl, A3, O1) F(az_frm_eq, A3, O1) \
    F(alt_frm_eq, A3, O1) F(hr_angl_frm_hz, A3, O1) F(dec_frm_hz, A3, O1) F(gal_long_frm_eq, A2, O1) \
    F(gal_lat_frm_eq, A2, O1) F(asc_frm_gal, A2, O1) F(annual_precess, A3, O2) F(precess_eq_coords, A4, O2) \
    F(precess_eq_coords_fk5, A4, O2) F(precess_ecl_coords, A4, O2) F(precess_orb_elements, A5, O3) \
    F(nutation, A1, O2) F(nutation_ceiling, A1, O2) F(nutation_in_eq_coords, A5, O2) F(sol_aberr, A1, O1) \
    F(stell_aberr_in_eq_coords, A3, O2) F(eq_hz_parallax, A1, O1) F(topocent_eq_coords, A7, O2) \
    F(topopcent_ecl_coords, A9, O3) F(chain, A4, O2) F(dec_frm_hz_published, A3, O1) \
    F(precess_eq_coords_published, A4, O2) F(precess_eq_coords_fk5_published, A4, O2) \
    F(topopcent_ecl_coords_published, A9, O3) F(chain_published, A4, O2) F(rise_culm_set, A6, O3) \
    F(refrac_frm_apprnt_alt, A1, O1) F(refrac_frm_true_alt, A1, O1) F(sight_alt, A1, O1) F(plan_alt, A1, O1) \
    F(mark_heading, A3, O1)

#define DEFINE(name, given, answered) \
    static uint8_t name(const double *a, double *const *o) { return brundelak_##name(given, answered); }
FUNCTIONS(DEFINE)

#define COUNT_A1 1
#define COUNT_A2 2
#define COUNT_A3 3
#define COUNT_A4 4
#define COUNT_A5 5
#define COUNT_A6 6
#define COUNT_A7 7
#define COUNT_A9 9
#define COUNT_O1 1
#define COUNT_O2 2
#define COUNT_O3 3
#define ENTRY(name, given, answered) {#name, name, COUNT_##given, COUNT_##answered},
static const struct function { const char *name; call *f; size_t given, answered; } functions[] = {FUNCTIONS(ENTRY)};
enum { FUNCTION_COUNT = sizeof functions / sizeof *functions };
