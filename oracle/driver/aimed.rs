//! Inputs aimed at refusals 6, 7 and 14 and at the limits of 15 and 16, which random ones miss: arguments of an arcsine beside 1,
//! divisors that are zero, no direction.
use inputs::Random;
use port::{self, Lent};
use std::f64::consts::{FRAC_PI_2, PI};
use written;

fn two(f: fn(&[f64], &mut Lent) -> u8, args: &[f64]) -> (f64, f64) {
    let mut lent = [0.0; 7];
    f(args, &mut lent);
    (lent[1], lent[3])
}

/// A point that precession brings to the pole, from what it does to the pole and to the origin.
pub fn to_the_pole(f: fn(&[f64], &mut Lent) -> u8, day1: f64, day2: f64) -> Vec<f64> {
    let (asc_of_pole, dec_of_pole) = two(f, &[0.0, FRAC_PI_2, day1, day2]);
    let (asc_of_origin, _) = two(f, &[0.0, 0.0, day1, day2]);
    let forward = if day2 > day1 { 1.0 } else { -1.0 };
    let theta = forward * (FRAC_PI_2 - dec_of_pole);
    let zeta = if forward > 0.0 { asc_of_pole - PI } else { asc_of_pole };
    let u = asc_of_origin - zeta;
    let xi = (u.sin() * theta.cos()).atan2(u.cos());
    if forward > 0.0 {
        vec![-xi, FRAC_PI_2 - theta, day1, day2]
    } else {
        vec![PI - xi, FRAC_PI_2 + theta, day1, day2]
    }
}

/// The turn of the ecliptic and the longitude of its node, from what precession does to the pole and to the origin.
fn ecliptic_turn(day1: f64, day2: f64) -> (f64, f64) {
    let f = port::brundelak_precess_ecl_coords;
    let (long_of_pole, lat_of_pole) = two(f, &[0.0, FRAC_PI_2, day1, day2]);
    let (long_of_origin, _) = two(f, &[0.0, 0.0, day1, day2]);
    let forward = if day2 > day1 { 1.0 } else { -1.0 };
    let nu = forward * (FRAC_PI_2 - lat_of_pole);
    let w = (long_of_pole - forward * FRAC_PI_2) - long_of_origin;
    (nu, w.sin().atan2(w.cos() * nu.cos()))
}

/// Where both arguments of an arctangent come out zero: the points that theorems name, in their bits.
fn pole(asc: u64, dec: u64, day1: f64, day2: u64) -> Vec<f64> {
    vec![f64::from_bits(asc), f64::from_bits(dec), day1, f64::from_bits(day2)]
}

/// An input aimed at 6, 7 or 14, or at a limit of 15 and 16, for the functions that can meet them.
pub fn input(r: &mut Random, name: &str) -> Option<Vec<f64>> {
    let angle = r.between(0.0, FRAC_PI_2);
    let day1 = r.between(1721045.0, 3182045.0);
    let day2 = r.between(1721045.0, 3182045.0);
    Some(match name {
        "brundelak_arctangent" => vec![[0.0, -0.0][r.below(2)], [0.0, -0.0][r.below(2)]],
        // The zenith, and the pole by its altitude.
        "brundelak_az_frm_eq" => vec![0.0, angle, angle],
        "brundelak_hr_angl_frm_hz" => vec![0.0, -angle, angle],
        "brundelak_gal_long_frm_eq" => vec![written::radians(192.25), written::radians(27.4)],
        "brundelak_asc_frm_gal" => vec![written::radians(123.0), written::radians(27.4)],
        "brundelak_topocent_eq_coords" => vec![0.0, 0.0, FRAC_PI_2, 0.0, 0.0, 0.0, 0.0],
        "brundelak_precess_eq_coords" | "brundelak_chain" | "brundelak_precess_eq_coords_published" | "brundelak_chain_published"
            if r.below(8) == 0 =>
        {
            pole(0xbfa0b92c872917e9, 0x3ff8addaab05aec1, 2451545.0, 0x4143847b00000000)
        }
        "brundelak_precess_eq_coords_fk5" if r.below(8) == 0 => {
            pole(0x3fe47e1764b16bca, 0xbff0399583afd1f3, 2451545.0, 0x41426cd600000000)
        }
        "brundelak_precess_eq_coords_fk5_published" if r.below(8) == 0 => {
            pole(0xbf752d92049a74c8, 0x3ff90f943d214bc0, 2451545.0, 0x4142d52b18000000)
        }
        // Past 1.57 too, where the longitude's 4 comes first.
        "brundelak_ecl_frm_eq" => {
            let oblq = if r.below(4) == 0 { angle / 2048.0 } else { angle };
            vec![-FRAC_PI_2, FRAC_PI_2 - oblq, oblq]
        }
        "brundelak_dec_frm_ecl" => vec![FRAC_PI_2, FRAC_PI_2 - angle, angle],
        "brundelak_alt_frm_eq" => vec![0.0, angle, angle],
        "brundelak_gal_lat_frm_eq" => vec![3.355395487179189, 0.47822021504644535],
        "brundelak_precess_eq_coords" => to_the_pole(port::brundelak_precess_eq_coords, day1, day2),
        "brundelak_precess_eq_coords_fk5" => to_the_pole(port::brundelak_precess_eq_coords_fk5, day1, day2),
        "brundelak_chain" => to_the_pole(port::brundelak_precess_eq_coords, day1, day2),
        "brundelak_precess_eq_coords_published" | "brundelak_chain_published" => {
            to_the_pole(port::brundelak_precess_eq_coords_published, day1, day2)
        }
        "brundelak_precess_eq_coords_fk5_published" => to_the_pole(port::brundelak_precess_eq_coords_fk5_published, day1, day2),
        // The pole stands where the azimuth is half a turn and the altitude the observer's latitude.
        "brundelak_dec_frm_hz_published" => vec![PI, angle, angle],
        "brundelak_precess_ecl_coords" => {
            let (nu, node) = ecliptic_turn(day1, day2);
            vec![node - FRAC_PI_2, FRAC_PI_2 - nu.abs(), day1, day2]
        }
        "brundelak_precess_orb_elements" => {
            let (nu, node) = ecliptic_turn(day1, day2);
            let from_node = r.between(-PI, PI);
            let inc = match r.below(4) {
                // The node moves by a quarter turn.
                0 | 1 => (nu.tan() * from_node.cos()).atan(),
                // The new inclination is a quarter turn.
                2 => (-1.0 / (nu.tan() * from_node.cos())).atan(),
                // Squares vanish: with equal days the new inclination is zero.
                _ => return Some(vec![1e-170, 0.5, node + from_node, day1, day1]),
            };
            vec![inc, 0.5, node + from_node, day1, day2]
        }
        // N is zero: parallax a quarter turn, observer on the equator at sea level.
        "brundelak_topopcent_ecl_coords" | "brundelak_topopcent_ecl_coords_published" => vec![angle, 0.0, FRAC_PI_2, 0.3, 0.0, 0.0, angle, 0.4, 0.005],
        // The star culminates at 0h and touches the altitude: at the zenith or opposite to it, at its upper or lower culmination.
        "brundelak_rise_culm_set" => {
            let (dec, lat, alt) = match r.below(4) {
                0 => (angle, angle, FRAC_PI_2),
                1 => (angle, -angle, -FRAC_PI_2),
                2 => (0.3, angle, FRAC_PI_2 - (angle - 0.3).abs()),
                _ => (0.3, angle, (angle + 0.3) - FRAC_PI_2),
            };
            vec![0.5, dec, 1.25, 0.75, lat, alt]
        }
        _ => return None,
    })
}
