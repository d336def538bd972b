//! Sidereal time at Greenwich (Meeus, chapter 12), written a second time.
use std::f64::consts::PI;
use written;

/// The mean one, in radians.
pub fn mean(day: f64) -> f64 {
    let (d, t) = (day - 2451545.0, written::century(day));
    let degrees = ((280.46061837 + 360.98564736629 * d) + (0.000387933 * t) * t) - ((t * t) * t) / 38710000.0;
    written::radians(written::folded(degrees, 360.0))
}

/// The apparent one, from a day's nutation in longitude and obliquity, by a cosine.
pub fn apparent(day: f64, (long, oblq): (f64, f64), cosine: fn(f64) -> f64) -> f64 {
    let tru = written::obliquity(written::century(day)) + oblq;
    written::folded(mean(day) + long * cosine(tru), 2.0 * PI)
}
