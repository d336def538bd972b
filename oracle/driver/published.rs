//! The published edition, document 02's request (iii), written a second time: Meeus's formulas, grouped as the crate groups its own.
use functions::Outcome::{self, Answer, Refused};
use std::f64::consts::PI;
use written;

/// What the formulas are worked out with: section 2's rules as written here, or Rust's own library functions.
pub struct Library {
    sine: fn(f64) -> f64,
    cosine: fn(f64) -> f64,
    /// None where it is refused, by 14.
    arctangent: fn(f64, f64) -> Option<f64>,
    /// None where it is refused, by 7.
    arcsine: fn(f64) -> Option<f64>,
    earth: fn(f64, f64) -> (f64, f64),
}

pub const WRITTEN: Library = Library {
    sine: written::sine,
    cosine: written::cosine,
    arctangent: |y, x| if written::no_direction(y, x) { None } else { Some(written::arctangent(y, x)) },
    arcsine: |s| if s.abs() <= 1.0 { Some(written::arcsine(s)) } else { None },
    earth: written::earth,
};

pub const OWN: Library = Library {
    sine: f64::sin,
    cosine: f64::cos,
    arctangent: |y, x| Some(y.atan2(x)),
    arcsine: |s| Some(s.asin()),
    earth: ::own::planet::earth::rho_sin_cos_phi,
};

impl Library {
    /// A place after the turns by three angles (Meeus 21.4).
    fn turned(&self, asc: f64, dec: f64, xi: f64, zeta: f64, theta: f64) -> Outcome {
        let (sin_asc, cos_asc) = ((self.sine)(asc + xi), (self.cosine)(asc + xi));
        let (sin_dec, cos_dec) = ((self.sine)(dec), (self.cosine)(dec));
        let (sin_theta, cos_theta) = ((self.sine)(theta), (self.cosine)(theta));
        let x = cos_theta * cos_dec * cos_asc - sin_theta * sin_dec;
        let new_asc = match (self.arctangent)(cos_dec * sin_asc, x) {
            Some(angle) => angle + zeta,
            None => return Refused(14),
        };
        match (self.arcsine)(sin_theta * cos_dec * cos_asc + cos_theta * sin_dec) {
            Some(new_dec) => Answer(vec![new_asc, new_dec]),
            None => Refused(7),
        }
    }

    /// Meeus 21.2.
    pub fn precess_eq_coords(&self, a: &[f64]) -> Outcome {
        let (c, t) = (written::century(a[2]), (a[3] - a[2]) / 36525.0);
        let arc = |seconds: f64| seconds / 3600.0;
        let shared = t * (arc(2306.2181) + c * (arc(1.39656) - c * arc(0.000139)));
        let xi = shared + t * t * ((arc(0.30188) - c * arc(0.000344)) + t * arc(0.017998));
        let zeta = shared + t * t * ((arc(1.09468) + c * arc(0.000066)) + t * arc(0.018203));
        let theta = t * (arc(2004.3109) - c * (arc(0.85330) + c * arc(0.000217))
            - t * ((arc(0.42665) + c * arc(0.000217)) + t * arc(0.041833)));
        self.turned(a[0], a[1], written::radians(xi), written::radians(zeta), written::radians(theta))
    }

    /// The FK4 system's angles in degrees, then converted.
    pub fn precess_eq_coords_fk5(&self, a: &[f64]) -> Outcome {
        let (c, t) = ((a[2] - 2415020.3135) / 36524.2199, (a[3] - a[2]) / 36524.2199);
        let arc = |seconds: f64| seconds / 3600.0;
        let xi = t * (arc(2304.25) + c * arc(1.396) + t * (arc(0.302) + t * arc(0.018)));
        let zeta = xi + t * t * (arc(0.791) + t * arc(0.001));
        let theta = t * (arc(2004.682) - c * arc(0.853) - t * (arc(0.426) + t * arc(0.042)));
        self.turned(a[0], a[1], written::radians(xi), written::radians(zeta), written::radians(theta))
    }

    /// sin δ = sin φ·sin h − cos φ·cos h·cos A.
    pub fn dec_frm_hz(&self, a: &[f64]) -> Outcome {
        let sine = (self.sine)(a[2]) * (self.sine)(a[1]) - (self.cosine)(a[2]) * (self.cosine)(a[1]) * (self.cosine)(a[0]);
        match (self.arcsine)(sine) {
            Some(dec) => Answer(vec![dec]),
            None => Refused(7),
        }
    }

    /// Chapter 40: 6 where N is zero, then where the longitude's cosine is.
    pub fn topopcent_ecl_coords(&self, a: &[f64]) -> Outcome {
        let (rho_sin, rho_cos) = (self.earth)(a[4], a[5]);
        let (sin_long, cos_long) = ((self.sine)(a[0]), (self.cosine)(a[0]));
        let (sin_lat, cos_lat) = ((self.sine)(a[1]), (self.cosine)(a[1]));
        let (sin_time, cos_time) = ((self.sine)(a[6]), (self.cosine)(a[6]));
        let (sin_oblq, cos_oblq) = ((self.sine)(a[7]), (self.cosine)(a[7]));
        let parallax = (self.sine)(a[2]);
        let n = cos_long * cos_lat - rho_cos * parallax * cos_time;
        if n == 0.0 {
            return Refused(6);
        }
        let long = match (self.arctangent)(sin_long * cos_lat - parallax * (rho_sin * sin_oblq + rho_cos * cos_oblq * sin_time), n) {
            Some(angle) => angle,
            None => return Refused(14),
        };
        let cosine = (self.cosine)(long);
        if cosine == 0.0 {
            return Refused(6);
        }
        let lat = match (self.arctangent)(sin_lat - parallax * (rho_sin * cos_oblq - rho_cos * sin_oblq * sin_time), n / cosine) {
            Some(angle) => angle,
            None => return Refused(14),
        };
        match (self.arcsine)(cosine * (self.cosine)(lat) * (self.sine)(a[8]) / n) {
            Some(semidiameter) => Answer(vec![written::folded(long, 2.0 * PI), lat, semidiameter]),
            None => Refused(7),
        }
    }
}

/// The numbers of an answer by Rust's own library functions, which refuse nothing but a division by zero.
pub fn numbers(outcome: Outcome) -> Vec<f64> {
    match outcome {
        Answer(xs) => xs,
        Refused(_) => vec![::std::f64::NAN; 3],
    }
}
