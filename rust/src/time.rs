//! Time.
use crate::{ffi, Refusal};

/// Julian centuries from 2451545.0. Refusals: 1, 2.
pub fn julian_cent(day: f64) -> Result<f64, Refusal> {
    ffi::julian_cent(day)
}

/// Mean sidereal time at Greenwich on a day of universal time, in radians from 0 to a turn. Refusals: 1, 2.
pub fn mean_sidereal(day: f64) -> Result<f64, Refusal> {
    ffi::mean_sidereal(day)
}

/// Apparent sidereal time at Greenwich on a day of universal time: the mean one with nutation's share. Refusals: 1, 2.
pub fn apparent_sidereal(day: f64) -> Result<f64, Refusal> {
    ffi::apparent_sidereal(day)
}
