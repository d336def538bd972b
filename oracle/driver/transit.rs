//! Rise, culmination and set, document 02's request (v), written a second time, over a sine, a cosine and an arcsine.
use functions::Outcome::{self, Answer, Refused};
use published::numbers;
use std::f64::consts::{FRAC_PI_2, PI};
use written;

/// Right ascension, declination, sidereal time, longitude, latitude, standard altitude: rise, culmination, set.
fn rise_culm_set(a: &[f64], sine: fn(f64) -> f64, cosine: fn(f64) -> f64, arcsine: fn(f64) -> f64) -> Outcome {
    let (dec, lat, alt) = (a[1], a[4], a[5]);
    let quotient = (sine(alt) - sine(lat) * sine(dec)) / (cosine(lat) * cosine(dec));
    if quotient > 1.0 {
        return Refused(15);
    }
    if quotient < -1.0 {
        return Refused(16);
    }
    let culmination = (a[0] + a[3] - a[2]) / (2.0 * PI);
    let arc = (FRAC_PI_2 - arcsine(quotient)) / (2.0 * PI);
    Answer([culmination - arc, culmination, culmination + arc].iter().map(|&m| written::folded(m, 1.0)).collect())
}

/// By section 2's rules as written here.
pub fn by_rules(a: &[f64]) -> Outcome {
    rise_culm_set(a, written::sine, written::cosine, written::arcsine)
}

/// By Rust's own library functions.
pub fn by_library(a: &[f64]) -> Vec<f64> {
    numbers(rise_culm_set(a, f64::sin, f64::cos, f64::asin))
}
