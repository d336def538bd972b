//! Condition 3, sentence by sentence, on the compiled library: a sky and its mirror never trade places. Sights are random, at the limits
//! and beyond them, at both zeros and at whole quarters; the seed is fixed. Every comparison is of bits.
use brundelak::coords::{alt_frm_eq, az_frm_eq, ecl_frm_eq};
use brundelak::elementary::{cos, sin, tan};
use brundelak::Refusal;
use std::f64::consts::{FRAC_PI_2, FRAC_PI_4, PI, TAU};

const SIGHTS: usize = 40000;
const AT: [f64; 16] = [
    0.0, 1e-310, 1e-300, 1e-17, 1e-8, 0.5, FRAC_PI_4, 1.57, FRAC_PI_2, PI, 4.71238898038469, TAU, 64.0, 1e9,
    f64::INFINITY, f64::NAN,
];

struct Random(u64);

impl Random {
    fn bits(&mut self) -> u64 {
        self.0 = self.0.wrapping_add(0x9E3779B97F4A7C15);
        let z = (self.0 ^ self.0 >> 30).wrapping_mul(0xBF58476D1CE4E5B9);
        let z = (z ^ z >> 27).wrapping_mul(0x94D049BB133111EB);
        z ^ z >> 31
    }

    /// Of either sign: one of `AT` or the next double in size, or any within `most`.
    fn angle(&mut self, most: f64) -> f64 {
        let size = match self.bits() % 6 {
            0 => {
                let x = AT[(self.bits() % 16) as usize];
                if x.is_finite() { f64::from_bits(x.to_bits() + self.bits() % 2) } else { x }
            }
            _ => (self.bits() >> 11) as f64 / 9007199254740992.0 * most,
        };
        if self.bits() & 1 == 0 { size } else { -size }
    }
}

/// Every sight of three angles, the latter two of size at most a quarter turn but for one in six.
fn sights(seed: u64, mut check: impl FnMut(f64, f64, f64)) {
    let mut random = Random(seed);
    for _ in 0..SIGHTS {
        let (a, b, c) = (random.angle(7.0), random.angle(1.57), random.angle(FRAC_PI_2));
        check(a, b, c);
    }
}

/// The arctangent's second argument in the azimuth, as the rule works it out.
fn southward(h: f64, dec: f64, lat: f64) -> f64 {
    cos(h).unwrap() * sin(lat).unwrap() - tan(dec).unwrap() * cos(lat).unwrap()
}

fn negated(r: Result<f64, Refusal>) -> Result<u64, Refusal> {
    r.map(|x| (-x).to_bits())
}

fn same(r: Result<f64, Refusal>) -> Result<u64, Refusal> {
    r.map(f64::to_bits)
}

/// A test that met none of its cases would say nothing.
fn met(cases: &[usize]) {
    assert!(cases.iter().all(|&n| n > 50), "cases met: {:?}", cases);
}

#[test]
fn azimuth_keeps_the_sign_of_the_sine_and_its_side() {
    let mut n = [0; 2];
    sights(1, |h, dec, lat| {
        if let Ok(az) = az_frm_eq(h, dec, lat) {
            assert_eq!(az.is_sign_negative(), sin(h).unwrap().is_sign_negative(), "{} {} {}", h, dec, lat);
            if southward(h, dec, lat).is_sign_negative() {
                assert!(az.abs() >= FRAC_PI_2, "{} {} {}", h, dec, lat);
                n[0] += 1;
            } else {
                assert!(az.abs() <= FRAC_PI_2, "{} {} {}", h, dec, lat);
                n[1] += 1;
            }
        }
    });
    met(&n);
}

#[test]
fn the_hour_angle_negated() {
    let mut n = [0; 2];
    sights(2, |h, dec, lat| {
        let (az, alt) = (az_frm_eq(h, dec, lat), alt_frm_eq(h, dec, lat));
        assert_eq!(same(az_frm_eq(-h, dec, lat)), negated(az), "{} {} {}", h, dec, lat);
        assert_eq!(same(alt_frm_eq(-h, dec, lat)), same(alt), "{} {} {}", h, dec, lat);
        n[az.is_ok() as usize] += 1;
    });
    met(&n);
}

#[test]
fn declination_negated_with_latitude() {
    let mut n = [0; 3];
    sights(3, |h, dec, lat| {
        assert_eq!(same(alt_frm_eq(h, -dec, -lat)), same(alt_frm_eq(h, dec, lat)), "{} {} {}", h, dec, lat);
        match (az_frm_eq(h, dec, lat), az_frm_eq(h, -dec, -lat)) {
            (Ok(here), Ok(there)) => {
                let x = southward(h, dec, lat);
                if x == 0.0 {
                    return;
                }
                assert_eq!(here.is_sign_negative(), there.is_sign_negative(), "{} {} {}", h, dec, lat);
                let (north, south) = if x < 0.0 { (here, there) } else { (there, here) };
                assert_eq!(north.abs().to_bits(), (PI - south.abs()).to_bits(), "{} {} {}", h, dec, lat);
                n[(x < 0.0) as usize] += 1;
            }
            (here, there) => {
                assert_eq!(here, there, "{} {} {}", h, dec, lat);
                n[2] += 1;
            }
        }
    });
    met(&n);
}

/// The sums behind the ecliptic longitude and latitude, as the rules work them out.
fn behind_longitude(asc: f64, dec: f64, oblq: f64) -> Result<f64, Refusal> {
    Ok(sin(asc)? * cos(oblq)? + tan(dec)? * sin(oblq)?)
}

fn behind_latitude(asc: f64, dec: f64, oblq: f64) -> Result<f64, Refusal> {
    Ok(sin(dec)? * cos(oblq)? - cos(dec)? * sin(oblq)? * sin(asc)?)
}

#[test]
fn right_ascension_negated_with_declination() {
    let mut n = [0; 2];
    sights(4, |asc, dec, oblq| {
        match (ecl_frm_eq(asc, dec, oblq), ecl_frm_eq(-asc, -dec, oblq)) {
            (Ok(here), Ok(there)) => {
                if behind_longitude(asc, dec, oblq) == Ok(0.0) || behind_latitude(asc, dec, oblq) == Ok(0.0) {
                    return;
                }
                assert_eq!(there.long.to_bits(), (-here.long).to_bits(), "{} {} {}", asc, dec, oblq);
                assert_eq!(there.lat.to_bits(), (-here.lat).to_bits(), "{} {} {}", asc, dec, oblq);
                n[0] += 1;
            }
            (here, there) => {
                assert_eq!(here, there, "{} {} {}", asc, dec, oblq);
                n[1] += 1;
            }
        }
    });
    met(&n);
}
