//! The C boundary as the header declares it. Made from include/brundelak.h by tools/declarations: not to be edited.
extern "C" {
    pub fn brundelak_version() -> u32;
    pub fn brundelak_sine(x: f64, out: *mut f64) -> u8;
    pub fn brundelak_cosine(x: f64, out: *mut f64) -> u8;
    pub fn brundelak_tangent(x: f64, out: *mut f64) -> u8;
    pub fn brundelak_arctangent(y: f64, x: f64, out: *mut f64) -> u8;
    pub fn brundelak_arcsine(s: f64, out: *mut f64) -> u8;
    pub fn brundelak_root(x: f64, out: *mut f64) -> u8;
    pub fn brundelak_deg_frm_dms(seconds: f64, out: *mut f64) -> u8;
    pub fn brundelak_deg_frm_hms(seconds: f64, out: *mut f64) -> u8;
    pub fn brundelak_to_radians(x: f64, out: *mut f64) -> u8;
    pub fn brundelak_limit_to_360(x: f64, out: *mut f64) -> u8;
    pub fn brundelak_limit_to_two_pi(x: f64, out: *mut f64) -> u8;
    pub fn brundelak_julian_cent(day: f64, out: *mut f64) -> u8;
    pub fn brundelak_mean_sidereal(day: f64, out: *mut f64) -> u8;
    pub fn brundelak_apparent_sidereal(day: f64, out: *mut f64) -> u8;
    pub fn brundelak_rho_sin_cos_phi(lat: f64, height: f64, rho_sin: *mut f64, rho_cos: *mut f64) -> u8;
    pub fn brundelak_hr_angl_frm_observer_long(green_sidreal: f64, observer_long: f64, asc: f64, out: *mut f64) -> u8;
    pub fn brundelak_hr_angl_frm_loc_sidr(local_sidreal: f64, asc: f64, out: *mut f64) -> u8;
    pub fn brundelak_ecl_frm_eq(asc: f64, dec: f64, oblq_eclip: f64, long_: *mut f64, lat: *mut f64) -> u8;
    pub fn brundelak_asc_frm_ecl(ecl_long: f64, ecl_lat: f64, oblq_eclip: f64, out: *mut f64) -> u8;
    pub fn brundelak_dec_frm_ecl(ecl_long: f64, ecl_lat: f64, oblq_eclip: f64, out: *mut f64) -> u8;
    pub fn brundelak_az_frm_eq(hour_angle: f64, dec: f64, observer_lat: f64, out: *mut f64) -> u8;
    pub fn brundelak_alt_frm_eq(hour_angle: f64, dec: f64, observer_lat: f64, out: *mut f64) -> u8;
    pub fn brundelak_hr_angl_frm_hz(az: f64, alt: f64, observer_lat: f64, out: *mut f64) -> u8;
    pub fn brundelak_dec_frm_hz(az: f64, alt: f64, observer_lat: f64, out: *mut f64) -> u8;
    pub fn brundelak_dec_frm_hz_published(az: f64, alt: f64, observer_lat: f64, out: *mut f64) -> u8;
    pub fn brundelak_gal_long_frm_eq(asc: f64, dec: f64, out: *mut f64) -> u8;
    pub fn brundelak_gal_lat_frm_eq(asc: f64, dec: f64, out: *mut f64) -> u8;
    pub fn brundelak_asc_frm_gal(gal_long: f64, gal_lat: f64, out: *mut f64) -> u8;
    pub fn brundelak_annual_precess(
        asc: f64,
        dec: f64,
        day: f64,
        precess_in_asc: *mut f64,
        precess_in_dec: *mut f64,
    ) -> u8;
    pub fn brundelak_precess_eq_coords(
        old_asc: f64,
        old_dec: f64,
        day1: f64,
        day2: f64,
        asc: *mut f64,
        dec: *mut f64,
    ) -> u8;
    pub fn brundelak_precess_eq_coords_published(
        old_asc: f64,
        old_dec: f64,
        day1: f64,
        day2: f64,
        asc: *mut f64,
        dec: *mut f64,
    ) -> u8;
    pub fn brundelak_precess_eq_coords_fk5(
        old_asc: f64,
        old_dec: f64,
        day1: f64,
        day2: f64,
        asc: *mut f64,
        dec: *mut f64,
    ) -> u8;
    pub fn brundelak_precess_eq_coords_fk5_published(
        old_asc: f64,
        old_dec: f64,
        day1: f64,
        day2: f64,
        asc: *mut f64,
        dec: *mut f64,
    ) -> u8;
    pub fn brundelak_precess_ecl_coords(
        old_long: f64,
        old_lat: f64,
        day1: f64,
        day2: f64,
        ecl_long: *mut f64,
        ecl_lat: *mut f64,
    ) -> u8;
    pub fn brundelak_precess_orb_elements(
        old_inc: f64,
        old_arg_perih: f64,
        old_long_ascend_node: f64,
        day1: f64,
        day2: f64,
        inc: *mut f64,
        arg_perih: *mut f64,
        long_ascend_node: *mut f64,
    ) -> u8;
    pub fn brundelak_nutation(day: f64, nut_in_long: *mut f64, nut_in_oblq: *mut f64) -> u8;
    pub fn brundelak_nutation_ceiling(day: f64, long_ceiling: *mut f64, oblq_ceiling: *mut f64) -> u8;
    pub fn brundelak_nutation_in_eq_coords(
        asc: f64,
        dec: f64,
        nut_in_long: f64,
        nut_in_oblq: f64,
        tru_oblq: f64,
        nut_in_asc: *mut f64,
        nut_in_dec: *mut f64,
    ) -> u8;
    pub fn brundelak_sol_aberr(dist: f64, out: *mut f64) -> u8;
    pub fn brundelak_stell_aberr_in_eq_coords(
        asc: f64,
        dec: f64,
        day: f64,
        aberr_in_asc: *mut f64,
        aberr_in_dec: *mut f64,
    ) -> u8;
    pub fn brundelak_eq_hz_parallax(dist: f64, out: *mut f64) -> u8;
    pub fn brundelak_topocent_eq_coords(
        asc: f64,
        dec: f64,
        parallax: f64,
        long_: f64,
        lat: f64,
        height: f64,
        sidereal: f64,
        topocent_asc: *mut f64,
        topocent_dec: *mut f64,
    ) -> u8;
    pub fn brundelak_topopcent_ecl_coords(
        ecl_long: f64,
        ecl_lat: f64,
        parallax: f64,
        long_: f64,
        lat: f64,
        height: f64,
        sidereal: f64,
        oblq: f64,
        semidiameter: f64,
        topocent_long: *mut f64,
        topocent_lat: *mut f64,
        topocent_semidiameter: *mut f64,
    ) -> u8;
    pub fn brundelak_topopcent_ecl_coords_published(
        ecl_long: f64,
        ecl_lat: f64,
        parallax: f64,
        long_: f64,
        lat: f64,
        height: f64,
        sidereal: f64,
        oblq: f64,
        semidiameter: f64,
        topocent_long: *mut f64,
        topocent_lat: *mut f64,
        topocent_semidiameter: *mut f64,
    ) -> u8;
    pub fn brundelak_rise_culm_set(
        asc: f64,
        dec: f64,
        sidereal: f64,
        long_: f64,
        lat: f64,
        alt: f64,
        rise: *mut f64,
        culmination: *mut f64,
        set: *mut f64,
    ) -> u8;
    pub fn brundelak_refrac_frm_apprnt_alt(apprnt_alt: f64, out: *mut f64) -> u8;
    pub fn brundelak_refrac_frm_true_alt(true_alt: f64, out: *mut f64) -> u8;
    pub fn brundelak_sight_alt(apprnt_alt: f64, out: *mut f64) -> u8;
    pub fn brundelak_plan_alt(true_alt: f64, out: *mut f64) -> u8;
    pub fn brundelak_chain(old_asc: f64, old_dec: f64, day1: f64, day2: f64, asc: *mut f64, dec: *mut f64) -> u8;
    pub fn brundelak_chain_published(
        old_asc: f64,
        old_dec: f64,
        day1: f64,
        day2: f64,
        asc: *mut f64,
        dec: *mut f64,
    ) -> u8;
    pub fn brundelak_star(
        bytes: *const u8,
        len: u64,
        place: u64,
        number: *mut u32,
        asc: *mut u32,
        dec: *mut i32,
        asc_rate: *mut i32,
        dec_rate: *mut i32,
        next: *mut u64,
    ) -> u8;
    pub fn brundelak_put_star(
        out: *mut u8,
        len: u64,
        place: u64,
        number: u32,
        asc: u32,
        dec: i32,
        asc_rate: i32,
        dec_rate: i32,
        next: *mut u64,
    ) -> u8;
    pub fn brundelak_find(
        bytes: *const u8,
        len: u64,
        number: u32,
        index: *mut u64,
        asc: *mut u32,
        dec: *mut i32,
        asc_rate: *mut i32,
        dec_rate: *mut i32,
    ) -> u8;
    pub fn brundelak_batch(
        bytes: *const u8,
        len: u64,
        day1: f64,
        day2: f64,
        status: *mut u8,
        status_len: u64,
        asc: *mut f64,
        asc_len: u64,
        dec: *mut f64,
        dec_len: u64,
        tally: *mut u32,
    ) -> u8;
    pub fn brundelak_batch_published(
        bytes: *const u8,
        len: u64,
        day1: f64,
        day2: f64,
        status: *mut u8,
        status_len: u64,
        asc: *mut f64,
        asc_len: u64,
        dec: *mut f64,
        dec_len: u64,
        tally: *mut u32,
    ) -> u8;
    pub fn brundelak_rotate(
        bytes: *const u8,
        len: u64,
        day1: f64,
        day2: f64,
        status: *mut u8,
        status_len: u64,
        asc: *mut f64,
        asc_len: u64,
        dec: *mut f64,
        dec_len: u64,
        tally: *mut u32,
    ) -> u8;
    pub fn brundelak_rotate_published(
        bytes: *const u8,
        len: u64,
        day1: f64,
        day2: f64,
        status: *mut u8,
        status_len: u64,
        asc: *mut f64,
        asc_len: u64,
        dec: *mut f64,
        dec_len: u64,
        tally: *mut u32,
    ) -> u8;
    pub fn brundelak_tally_raise(status: u8, tally: *mut u32) -> u8;
    pub fn brundelak_heading(
        asc: u32,
        dec: i32,
        asc_rate: i32,
        dec_rate: i32,
        day1: f64,
        day2: f64,
        long_: f64,
        lat: f64,
        heading: *mut f64,
        azimuth: *mut f64,
        alt: *mut f64,
    ) -> u8;
    pub fn brundelak_heading_published(
        asc: u32,
        dec: i32,
        asc_rate: i32,
        dec_rate: i32,
        day1: f64,
        day2: f64,
        long_: f64,
        lat: f64,
        heading: *mut f64,
        azimuth: *mut f64,
        alt: *mut f64,
    ) -> u8;
    pub fn brundelak_mark_heading(heading: f64, star_reading: f64, mark_reading: f64, out: *mut f64) -> u8;
    pub fn brundelak_mean_heading(headings: *const f64, headings_len: u64, mean: *mut f64, sheet: *mut i64) -> u8;
    pub fn brundelak_residuals(
        status: *const u8,
        status_len: u64,
        asc: *const f64,
        asc_len: u64,
        dec: *const f64,
        dec_len: u64,
        measured_asc: *const f64,
        measured_asc_len: u64,
        measured_dec: *const f64,
        measured_dec_len: u64,
        asc_sheet: *mut i64,
        dec_sheet: *mut i64,
    ) -> u8;
    pub fn brundelak_strike(bytes: *mut u8, len: u64, number: u32) -> u8;
    pub fn brundelak_add(bytes: *mut u8, len: u64, number: u32, asc: u32, dec: i32, asc_rate: i32, dec_rate: i32) -> u8;
    pub fn brundelak_gather(bytes: *mut u8, len: u64) -> u8;
    pub fn brundelak_list_12_to_20(bytes: *const u8, len: u64, out: *mut u8, out_len: u64, written: *mut u64) -> u8;
    pub fn brundelak_list_20_to_12(bytes: *const u8, len: u64, out: *mut u8, out_len: u64, written: *mut u64) -> u8;
    pub fn brundelak_radio_open(bytes: *const u8, len: u64, count: *mut u32, place: *mut u64) -> u8;
    pub fn brundelak_radio_star(
        bytes: *const u8,
        len: u64,
        place: u64,
        number: *mut u32,
        asc: *mut u32,
        dec: *mut i32,
        asc_rate: *mut i32,
        dec_rate: *mut i32,
        next: *mut u64,
    ) -> u8;
    pub fn brundelak_radio_accept(bytes: *const u8, len: u64, count: *mut u32) -> u8;
    pub fn brundelak_radio_put_head(out: *mut u8, len: u64, place: u64, count: u32, next: *mut u64) -> u8;
    pub fn brundelak_radio_put_star(
        out: *mut u8,
        len: u64,
        place: u64,
        number: u32,
        asc: u32,
        dec: i32,
        asc_rate: i32,
        dec_rate: i32,
        next: *mut u64,
    ) -> u8;
    pub fn brundelak_radio_to_list(bytes: *const u8, len: u64, out: *mut u8, out_len: u64, written: *mut u64) -> u8;
    pub fn brundelak_list_to_radio(bytes: *const u8, len: u64, out: *mut u8, out_len: u64, written: *mut u64) -> u8;
}

/// Hands each function of numbers to a macro: its symbol, its name, what it takes, what it answers.
macro_rules! of_numbers {
    ($to:ident) => {
        $to! {
            brundelak_sine sine(x) -> (out);
            brundelak_cosine cosine(x) -> (out);
            brundelak_tangent tangent(x) -> (out);
            brundelak_arctangent arctangent(y, x) -> (out);
            brundelak_arcsine arcsine(s) -> (out);
            brundelak_root root(x) -> (out);
            brundelak_deg_frm_dms deg_frm_dms(seconds) -> (out);
            brundelak_deg_frm_hms deg_frm_hms(seconds) -> (out);
            brundelak_to_radians to_radians(x) -> (out);
            brundelak_limit_to_360 limit_to_360(x) -> (out);
            brundelak_limit_to_two_pi limit_to_two_pi(x) -> (out);
            brundelak_julian_cent julian_cent(day) -> (out);
            brundelak_mean_sidereal mean_sidereal(day) -> (out);
            brundelak_apparent_sidereal apparent_sidereal(day) -> (out);
            brundelak_rho_sin_cos_phi rho_sin_cos_phi(lat, height) -> (rho_sin, rho_cos);
            brundelak_hr_angl_frm_observer_long hr_angl_frm_observer_long(green_sidreal, observer_long, asc) -> (out);
            brundelak_hr_angl_frm_loc_sidr hr_angl_frm_loc_sidr(local_sidreal, asc) -> (out);
            brundelak_ecl_frm_eq ecl_frm_eq(asc, dec, oblq_eclip) -> (long_, lat);
            brundelak_asc_frm_ecl asc_frm_ecl(ecl_long, ecl_lat, oblq_eclip) -> (out);
            brundelak_dec_frm_ecl dec_frm_ecl(ecl_long, ecl_lat, oblq_eclip) -> (out);
            brundelak_az_frm_eq az_frm_eq(hour_angle, dec, observer_lat) -> (out);
            brundelak_alt_frm_eq alt_frm_eq(hour_angle, dec, observer_lat) -> (out);
            brundelak_hr_angl_frm_hz hr_angl_frm_hz(az, alt, observer_lat) -> (out);
            brundelak_dec_frm_hz dec_frm_hz(az, alt, observer_lat) -> (out);
            brundelak_dec_frm_hz_published dec_frm_hz_published(az, alt, observer_lat) -> (out);
            brundelak_gal_long_frm_eq gal_long_frm_eq(asc, dec) -> (out);
            brundelak_gal_lat_frm_eq gal_lat_frm_eq(asc, dec) -> (out);
            brundelak_asc_frm_gal asc_frm_gal(gal_long, gal_lat) -> (out);
            brundelak_annual_precess annual_precess(asc, dec, day) -> (precess_in_asc, precess_in_dec);
            brundelak_precess_eq_coords precess_eq_coords(old_asc, old_dec, day1, day2) -> (asc, dec);
            brundelak_precess_eq_coords_published precess_eq_coords_published(
                old_asc, old_dec, day1, day2
            ) -> (asc, dec);
            brundelak_precess_eq_coords_fk5 precess_eq_coords_fk5(old_asc, old_dec, day1, day2) -> (asc, dec);
            brundelak_precess_eq_coords_fk5_published precess_eq_coords_fk5_published(
                old_asc, old_dec, day1, day2
            ) -> (asc, dec);
            brundelak_precess_ecl_coords precess_ecl_coords(old_long, old_lat, day1, day2) -> (ecl_long, ecl_lat);
            brundelak_precess_orb_elements precess_orb_elements(
                old_inc, old_arg_perih, old_long_ascend_node, day1, day2
            ) -> (inc, arg_perih, long_ascend_node);
            brundelak_nutation nutation(day) -> (nut_in_long, nut_in_oblq);
            brundelak_nutation_ceiling nutation_ceiling(day) -> (long_ceiling, oblq_ceiling);
            brundelak_nutation_in_eq_coords nutation_in_eq_coords(
                asc, dec, nut_in_long, nut_in_oblq, tru_oblq
            ) -> (nut_in_asc, nut_in_dec);
            brundelak_sol_aberr sol_aberr(dist) -> (out);
            brundelak_stell_aberr_in_eq_coords stell_aberr_in_eq_coords(asc, dec, day) -> (aberr_in_asc, aberr_in_dec);
            brundelak_eq_hz_parallax eq_hz_parallax(dist) -> (out);
            brundelak_topocent_eq_coords topocent_eq_coords(
                asc, dec, parallax, long_, lat, height, sidereal
            ) -> (topocent_asc, topocent_dec);
            brundelak_topopcent_ecl_coords topopcent_ecl_coords(
                ecl_long, ecl_lat, parallax, long_, lat, height, sidereal, oblq, semidiameter
            ) -> (topocent_long, topocent_lat, topocent_semidiameter);
            brundelak_topopcent_ecl_coords_published topopcent_ecl_coords_published(
                ecl_long, ecl_lat, parallax, long_, lat, height, sidereal, oblq, semidiameter
            ) -> (topocent_long, topocent_lat, topocent_semidiameter);
            brundelak_rise_culm_set rise_culm_set(asc, dec, sidereal, long_, lat, alt) -> (rise, culmination, set);
            brundelak_refrac_frm_apprnt_alt refrac_frm_apprnt_alt(apprnt_alt) -> (out);
            brundelak_refrac_frm_true_alt refrac_frm_true_alt(true_alt) -> (out);
            brundelak_sight_alt sight_alt(apprnt_alt) -> (out);
            brundelak_plan_alt plan_alt(true_alt) -> (out);
            brundelak_chain chain(old_asc, old_dec, day1, day2) -> (asc, dec);
            brundelak_chain_published chain_published(old_asc, old_dec, day1, day2) -> (asc, dec);
            brundelak_mark_heading mark_heading(heading, star_reading, mark_reading) -> (out);
        }
    };
}
