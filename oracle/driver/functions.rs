//! Every function compared: the sorts of its arguments, the port's call, and what it must answer.
//! The Rust's modules go by the routed text; what no Rust is supplied for goes by `written`.
use atmos::{self, by_library, by_rules};
use ceiling;
use heading;
use own;
use port::{self, Lent};
use published::{self, OWN, WRITTEN};
use routed::library::{first_refusal, forget, last_sine};
use routed::{aberr, coords, nutation, parallax, precess};
use sidereal;
use table::Sort::{self, *};
use table::first_of;
use transit;
use written;

/// What a function must answer to arguments that 1 to 5 do not refuse.
#[derive(Debug)]
pub enum Outcome {
    Answer(Vec<f64>),
    Refused(u8),
}

use self::Outcome::*;

pub struct Function {
    pub name: &'static str,
    pub sorts: &'static [Sort],
    /// The refusals that can come out of it.
    pub meets: &'static [u8],
    pub port: fn(&[f64], &mut Lent) -> u8,
    pub expected: fn(&[f64]) -> Outcome,
    /// The supplied text, or section 2's or 3's rule, with Rust's own library functions.
    pub own: fn(&[f64]) -> Vec<f64>,
}

/// What the routed Rust answers, or 7 where an arcsine in it was refused by 7, 14 where an arctangent was by 14.
pub fn met(work: &dyn Fn() -> Vec<f64>) -> Outcome {
    met_with(work, || false)
}

/// The same where a division by zero is refused by 6: `zero` says whether the divisor was, which is tested before the arctangents.
fn met_with<F: Fn() -> bool>(work: &dyn Fn() -> Vec<f64>, zero: F) -> Outcome {
    forget();
    let answer = work();
    match first_refusal() {
        0 => Answer(answer),
        1 | 14 if zero() => Refused(6),
        1 => Refused(7), // an arcsine of an infinity
        n => Refused(n),
    }
}

fn pair((a, b): (f64, f64)) -> Vec<f64> {
    vec![a, b]
}

fn triple((a, b, c): (f64, f64, f64)) -> Vec<f64> {
    vec![a, b, c]
}

/// N of `topopcent_ecl_coords`, worked out by section 2's rules as written here.
fn n_of(a: &[f64]) -> f64 {
    let (_, rho_cos) = written::earth(a[4], a[5]);
    written::cosine(a[0]) * written::cosine(a[1]) - rho_cos * written::sine(a[2]) * written::cosine(a[6])
}

/// The chain, composed of the routed Rust's steps; each step's refusal is the chain's.
pub fn chain_in(a: &[f64]) -> Outcome {
    from_precessed(met(&|| pair(precess::precess_eq_coords(a[0], a[1], a[2], a[3]))), a)
}

/// The same, from Meeus's precession.
pub fn published_chain_in(a: &[f64]) -> Outcome {
    from_precessed(WRITTEN.precess_eq_coords(a), a)
}

/// Nutation and aberration at the precessed point.
fn from_precessed(precessed: Outcome, a: &[f64]) -> Outcome {
    let moved = match precessed {
        Refused(n) => return Refused(n),
        Answer(p) => p,
    };
    let (long, oblq) = nutation::nutation(a[3]);
    let tru = written::obliquity(written::century(a[3])) + oblq;
    let point = coords::EqPoint { asc: moved[0], dec: moved[1] };
    let refusal = first_of(&[Angle, Steep, Angle, Angle, Angle], &[point.asc, point.dec, long, oblq, tru]);
    if refusal != 0 {
        return Refused(refusal);
    }
    let n = nutation::nutation_in_eq_coords(&point, long, oblq, tru);
    let s = aberr::stell_aberr_in_eq_coords(&point, a[3]);
    Answer(vec![(moved[0] + n.0) + s.0, (moved[1] + n.1) + s.1])
}

const CHAIN: [Sort; 4] = [Angle, Latitude, Day, Day];

/// The chain over Rust's own library functions.
pub fn own_chain(a: &[f64]) -> Vec<f64> {
    own_from(own::precess::precess_eq_coords(a[0], a[1], a[2], a[3]), a)
}

fn own_published_chain(a: &[f64]) -> Vec<f64> {
    let p = published::numbers(OWN.precess_eq_coords(a));
    own_from((p[0], p[1]), a)
}

fn own_from(moved: (f64, f64), a: &[f64]) -> Vec<f64> {
    let (long, oblq) = own::nutation::nutation(a[3]);
    let tru = written::obliquity(written::century(a[3])) + oblq;
    let point = own::coords::EqPoint { asc: moved.0, dec: moved.1 };
    let n = own::nutation::nutation_in_eq_coords(&point, long, oblq, tru);
    let s = own::aberr::stell_aberr_in_eq_coords(&point, a[3]);
    vec![(moved.0 + n.0) + s.0, (moved.1 + n.1) + s.1]
}

macro_rules! function {
    // Not in the supplied text: section 2's or 3's rule.
    (rule $name:ident [$($sort:ident),*] ($($number:expr),*) |$a:ident| $expected:expr, $own:expr) => {
        Function { name: stringify!($name), sorts: &[$($sort),*], meets: &[$($number),*], port: port::$name, expected: |$a| $expected, own: |$a| $own }
    };
    // In the supplied text: the same expression over `routed` and over `own`.
    (rust $name:ident [$($sort:ident),*] ($($number:expr),*) |$a:ident| $work:expr) => {
        Function {
            name: stringify!($name),
            sorts: &[$($sort),*],
            meets: &[$($number),*],
            port: port::$name,
            expected: |$a| met(&|| $work),
            own: |$a| {
                use own::*;
                $work
            },
        }
    };
}

pub fn all() -> Vec<Function> {
    vec![
        function!(rule brundelak_sine [Alone] (1, 3) |a| Answer(vec![written::sine(a[0])]), vec![a[0].sin()]),
        function!(rule brundelak_cosine [Alone] (1, 3) |a| Answer(vec![written::cosine(a[0])]), vec![a[0].cos()]),
        function!(rule brundelak_tangent [AloneSteep] (1, 3, 4) |a| Answer(vec![written::tangent(a[0])]), vec![a[0].tan()]),
        function!(rule brundelak_arctangent [Number, Number] (1, 14) |a| if written::no_direction(a[0], a[1]) {
            Refused(14)
        } else {
            Answer(vec![written::arctangent(a[0], a[1])])
        }, vec![a[0].atan2(a[1])]),
        function!(rule brundelak_arcsine [Unit] (1, 7) |a| if a[0].abs() > 1.0 {
            Refused(7)
        } else {
            Answer(vec![written::arcsine(a[0])])
        }, vec![a[0].asin()]),
        function!(rule brundelak_root [NotNegative] (1, 5) |a| Answer(vec![a[0].sqrt()]), vec![a[0].sqrt()]),
        function!(rule brundelak_deg_frm_dms [Number] (1) |a| Answer(vec![a[0] / 3600.0]), vec![own::angle::deg_frm_dms(0, 0, a[0])]),
        function!(rule brundelak_deg_frm_hms [Number] (1) |a| Answer(vec![15.0 * (a[0] / 3600.0)]), vec![own::angle::deg_frm_hms(0, 0, a[0])]),
        function!(rule brundelak_to_radians [Number] (1) |a| Answer(vec![written::radians(a[0])]), vec![a[0].to_radians()]),
        function!(rule brundelak_limit_to_360 [Number] (1) |a| Answer(vec![written::folded(a[0], 360.0)]), vec![own::angle::limit_to_360(a[0])]),
        function!(rule brundelak_limit_to_two_pi [Number] (1)
            |a| Answer(vec![written::folded(a[0], 2.0 * ::std::f64::consts::PI)]), vec![own::angle::limit_to_two_PI(a[0])]),
        function!(rule brundelak_julian_cent [Day] (1, 2) |a| Answer(vec![written::century(a[0])]), vec![own::time::julian_cent(a[0])]),
        function!(rule brundelak_mean_sidereal [Day] (1, 2) |a| Answer(vec![sidereal::mean(a[0])]), vec![sidereal::mean(a[0])]),
        function!(rule brundelak_apparent_sidereal [Day] (1, 2) |a| Answer(vec![sidereal::apparent(a[0], nutation::nutation(a[0]), written::cosine)]),
            vec![sidereal::apparent(a[0], own::nutation::nutation(a[0]), f64::cos)]),
        function!(rule brundelak_rho_sin_cos_phi [Steep, Height] (1, 3, 4, 5) |a| Answer(pair(written::earth(a[0], a[1]))), pair(own::planet::earth::rho_sin_cos_phi(a[0], a[1]))),

        function!(rust brundelak_hr_angl_frm_observer_long [Angle, Angle, Angle] (1, 3)
            |a| vec![coords::hr_angl_frm_observer_long(a[0], a[1], a[2])]),
        function!(rust brundelak_hr_angl_frm_loc_sidr [Angle, Angle] (1, 3)
            |a| vec![coords::hr_angl_frm_loc_sidr(a[0], a[1])]),
        // The Rust has two functions, the longitude's and then the latitude's.
        function!(rust brundelak_ecl_frm_eq [Angle, Steep, Angle] (1, 3, 4, 7)
            |a| vec![coords::ecl_long_frm_eq(a[0], a[1], a[2]), coords::ecl_lat_frm_eq(a[0], a[1], a[2])]),
        function!(rust brundelak_asc_frm_ecl [Angle, Steep, Angle] (1, 3, 4)
            |a| vec![coords::asc_frm_ecl(a[0], a[1], a[2])]),
        function!(rust brundelak_dec_frm_ecl [Angle, Latitude, Angle] (1, 3, 7)
            |a| vec![coords::dec_frm_ecl(a[0], a[1], a[2])]),
        function!(rust brundelak_az_frm_eq [Angle, Steep, Latitude] (1, 3, 4, 14)
            |a| vec![coords::az_frm_eq(a[0], a[1], a[2])]),
        function!(rust brundelak_alt_frm_eq [Angle, Latitude, Latitude] (1, 3, 7)
            |a| vec![coords::alt_frm_eq(a[0], a[1], a[2])]),
        function!(rust brundelak_hr_angl_frm_hz [Angle, Steep, Latitude] (1, 3, 4, 14)
            |a| vec![coords::hr_angl_frm_hz(a[0], a[1], a[2])]),
        function!(rust brundelak_dec_frm_hz [Angle, Latitude, Latitude] (1, 3, 7)
            |a| vec![coords::dec_frm_hz(a[0], a[1], a[2])]),
        function!(rust brundelak_gal_long_frm_eq [Angle, Steep] (1, 3, 4, 14)
            |a| vec![coords::gal_long_frm_eq(a[0], a[1])]),
        function!(rust brundelak_gal_lat_frm_eq [Angle, Latitude] (1, 3, 7)
            |a| vec![coords::gal_lat_frm_eq(a[0], a[1])]),
        function!(rust brundelak_asc_frm_gal [Angle, Steep] (1, 3, 4, 14)
            |a| vec![coords::asc_frm_gal(a[0], a[1])]),

        function!(rust brundelak_annual_precess [Angle, Steep, Day] (1, 2, 3, 4)
            |a| pair(precess::annual_precess(a[0], a[1], a[2]))),
        function!(rust brundelak_precess_eq_coords [Angle, Latitude, Day, Day] (1, 2, 3, 7, 14)
            |a| pair(precess::precess_eq_coords(a[0], a[1], a[2], a[3]))),
        function!(rust brundelak_precess_eq_coords_fk5 [Angle, Latitude, Day, Day] (1, 2, 3, 7, 14)
            |a| pair(precess::precess_eq_coords_FK5(a[0], a[1], a[2], a[3]))),
        function!(rust brundelak_precess_ecl_coords [Angle, Latitude, Day, Day] (1, 2, 3, 7)
            |a| pair(precess::precess_ecl_coords(a[0], a[1], a[2], a[3]))),
        Function {
            name: "brundelak_precess_orb_elements",
            sorts: &[Angle, Angle, Angle, Day, Day],
            meets: &[1, 2, 3, 6, 7],
            port: port::brundelak_precess_orb_elements,
            // The sine taken last is that of the new inclination.
            expected: |a| met_with(
                &|| triple(precess::precess_orb_elements(a[0], a[1], a[2], a[3], a[4])),
                || last_sine() == 0.0,
            ),
            own: |a| triple(own::precess::precess_orb_elements(a[0], a[1], a[2], a[3], a[4])),
        },

        function!(rust brundelak_nutation [Day] (1, 2) |a| pair(nutation::nutation(a[0]))),
        function!(rule brundelak_nutation_ceiling [Day] (1, 2) |a| Answer(ceiling::ceiling(a[0])), ceiling::ceiling(a[0])),
        function!(rust brundelak_nutation_in_eq_coords [Angle, Steep, Angle, Angle, Angle] (1, 3, 4)
            |a| pair(nutation::nutation_in_eq_coords(&coords::EqPoint { asc: a[0], dec: a[1] }, a[2], a[3], a[4]))),

        function!(rust brundelak_sol_aberr [Distance] (1, 5) |a| vec![aberr::sol_aberr(a[0])]),
        function!(rust brundelak_stell_aberr_in_eq_coords [Angle, Steep, Day] (1, 2, 3, 4)
            |a| pair(aberr::stell_aberr_in_eq_coords(&coords::EqPoint { asc: a[0], dec: a[1] }, a[2]))),

        function!(rust brundelak_eq_hz_parallax [Distance] (1, 5) |a| vec![parallax::eq_hz_parallax(a[0])]),
        function!(rust brundelak_topocent_eq_coords [Angle, Latitude, Angle, Angle, Steep, Height, Angle] (1, 3, 4, 5, 14) |a| {
            let p = parallax::topocent_eq_coords(
                &coords::EqPoint { asc: a[0], dec: a[1] },
                a[2],
                &coords::GeographPoint { long: a[3], lat: a[4] },
                a[5],
                a[6],
            );
            vec![p.asc, p.dec]
        }),
        Function {
            name: "brundelak_topopcent_ecl_coords",
            sorts: &[Angle, Latitude, Angle, Angle, Steep, Height, Angle, Angle, Angle],
            meets: &[1, 3, 4, 5, 6, 7],
            port: port::brundelak_topopcent_ecl_coords,
            expected: |a| met_with(
                &|| {
                    let (p, semidiameter) = parallax::topopcent_ecl_coords(
                        &coords::EclPoint { long: a[0], lat: a[1] },
                        a[2],
                        &coords::GeographPoint { long: a[3], lat: a[4] },
                        a[5],
                        a[6],
                        a[7],
                        a[8],
                    );
                    vec![p.long, p.lat, semidiameter]
                },
                || n_of(a) == 0.0,
            ),
            own: |a| {
                let (p, semidiameter) = own::parallax::topopcent_ecl_coords(
                    &own::coords::EclPoint { long: a[0], lat: a[1] },
                    a[2],
                    &own::coords::GeographPoint { long: a[3], lat: a[4] },
                    a[5],
                    a[6],
                    a[7],
                    a[8],
                );
                vec![p.long, p.lat, semidiameter]
            },
        },

        Function {
            name: "brundelak_chain",
            sorts: &CHAIN,
            meets: &[1, 2, 3, 4, 7, 14],
            port: port::brundelak_chain,
            expected: chain_in,
            own: own_chain,
        },
        function!(rule brundelak_dec_frm_hz_published [Angle, Latitude, Latitude] (1, 3, 7)
            |a| WRITTEN.dec_frm_hz(a), published::numbers(OWN.dec_frm_hz(a))),
        function!(rule brundelak_precess_eq_coords_published [Angle, Latitude, Day, Day] (1, 2, 3, 7, 14)
            |a| WRITTEN.precess_eq_coords(a), published::numbers(OWN.precess_eq_coords(a))),
        function!(rule brundelak_precess_eq_coords_fk5_published [Angle, Latitude, Day, Day] (1, 2, 3, 7, 14)
            |a| WRITTEN.precess_eq_coords_fk5(a), published::numbers(OWN.precess_eq_coords_fk5(a))),
        function!(rule brundelak_topopcent_ecl_coords_published [Angle, Latitude, Angle, Angle, Steep, Height, Angle, Angle, Angle] (1, 3, 4, 5, 6, 7)
            |a| WRITTEN.topopcent_ecl_coords(a), published::numbers(OWN.topopcent_ecl_coords(a))),
        Function {
            name: "brundelak_chain_published",
            sorts: &CHAIN,
            meets: &[1, 2, 3, 4, 7, 14],
            port: port::brundelak_chain_published,
            expected: published_chain_in,
            own: own_published_chain,
        },
        function!(rule brundelak_rise_culm_set [Angle, Steep, Angle, Angle, Steep, Latitude] (1, 3, 4, 15, 16)
            |a| transit::by_rules(a), transit::by_library(a)),
        function!(rule brundelak_refrac_frm_apprnt_alt [Sight] (1, 3)
            |a| Answer(vec![atmos::apparent(a[0], by_rules)]), vec![atmos::apparent(a[0], by_library)]),
        function!(rule brundelak_refrac_frm_true_alt [Sight] (1, 3)
            |a| Answer(vec![atmos::real(a[0], by_rules)]), vec![atmos::real(a[0], by_library)]),
        function!(rule brundelak_sight_alt [Sight] (1, 3)
            |a| Answer(vec![atmos::sight(a[0], by_rules)]), vec![atmos::sight(a[0], by_library)]),
        function!(rule brundelak_plan_alt [Sight] (1, 3)
            |a| Answer(vec![atmos::plan(a[0], by_rules)]), vec![atmos::plan(a[0], by_library)]),
        function!(rule brundelak_mark_heading [Circle, Circle, Circle] (1, 3) |a| Answer(vec![heading::mark(a)]), vec![heading::mark(a)]),
    ]
}
