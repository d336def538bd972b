//! The port through its C boundary. Each call lends floats of one array, every other one; those between are canaries.

/// Floats lent: places 1, 3 and 5. The others belong to nobody.
pub type Lent = [f64; 7];

macro_rules! exported {
    ($($name:ident ($($arg:ident),*) ($($out:ident),*);)*) => {
        mod boundary {
            extern "C" { $( pub fn $name($($arg: f64,)* $($out: *mut f64),*) -> u8; )* }
        }
        $(
            pub fn $name(args: &[f64], lent: &mut Lent) -> u8 {
                let mut given = args.iter().cloned();
                let mut places = lent.iter_mut().skip(1).step_by(2);
                $( let $arg = given.next().unwrap(); )*
                $( let $out: *mut f64 = places.next().unwrap(); )*
                unsafe { boundary::$name($($arg,)* $($out),*) }
            }
        )*
    };
}

exported! {
    brundelak_sine(x)(a);
    brundelak_cosine(x)(a);
    brundelak_tangent(x)(a);
    brundelak_arctangent(y, x)(a);
    brundelak_arcsine(x)(a);
    brundelak_root(x)(a);
    brundelak_deg_frm_dms(x)(a);
    brundelak_deg_frm_hms(x)(a);
    brundelak_to_radians(x)(a);
    brundelak_limit_to_360(x)(a);
    brundelak_limit_to_two_pi(x)(a);
    brundelak_julian_cent(x)(a);
    brundelak_mean_sidereal(x)(a);
    brundelak_apparent_sidereal(x)(a);
    brundelak_rho_sin_cos_phi(x, y)(a, b);
    brundelak_hr_angl_frm_observer_long(x, y, z)(a);
    brundelak_hr_angl_frm_loc_sidr(x, y)(a);
    brundelak_ecl_frm_eq(x, y, z)(a, b);
    brundelak_asc_frm_ecl(x, y, z)(a);
    brundelak_dec_frm_ecl(x, y, z)(a);
    brundelak_az_frm_eq(x, y, z)(a);
    brundelak_alt_frm_eq(x, y, z)(a);
    brundelak_hr_angl_frm_hz(x, y, z)(a);
    brundelak_dec_frm_hz(x, y, z)(a);
    brundelak_gal_long_frm_eq(x, y)(a);
    brundelak_gal_lat_frm_eq(x, y)(a);
    brundelak_asc_frm_gal(x, y)(a);
    brundelak_annual_precess(x, y, z)(a, b);
    brundelak_precess_eq_coords(x, y, z, u)(a, b);
    brundelak_precess_eq_coords_fk5(x, y, z, u)(a, b);
    brundelak_precess_ecl_coords(x, y, z, u)(a, b);
    brundelak_precess_orb_elements(x, y, z, u, v)(a, b, c);
    brundelak_nutation(x)(a, b);
    brundelak_nutation_ceiling(x)(a, b);
    brundelak_nutation_in_eq_coords(x, y, z, u, v)(a, b);
    brundelak_sol_aberr(x)(a);
    brundelak_stell_aberr_in_eq_coords(x, y, z)(a, b);
    brundelak_eq_hz_parallax(x)(a);
    brundelak_topocent_eq_coords(x, y, z, u, v, w, t)(a, b);
    brundelak_topopcent_ecl_coords(x, y, z, u, v, w, t, s, r)(a, b, c);
    brundelak_chain(x, y, z, u)(a, b);
    brundelak_dec_frm_hz_published(x, y, z)(a);
    brundelak_precess_eq_coords_published(x, y, z, u)(a, b);
    brundelak_precess_eq_coords_fk5_published(x, y, z, u)(a, b);
    brundelak_topopcent_ecl_coords_published(x, y, z, u, v, w, t, s, r)(a, b, c);
    brundelak_chain_published(x, y, z, u)(a, b);
    brundelak_rise_culm_set(x, y, z, u, v, w)(a, b, c);
    brundelak_refrac_frm_apprnt_alt(h)(a);
    brundelak_refrac_frm_true_alt(h)(a);
    brundelak_sight_alt(h)(a);
    brundelak_plan_alt(h)(a);
    brundelak_mark_heading(x, y, z)(a);
}
