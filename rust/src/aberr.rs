//! Aberration.
use crate::coords::EqPoint;
use crate::{ffi, Refusal};

/// Solar aberration in longitude at a distance in AU. Refusals: 1, 5.
pub fn sol_aberr(dist: f64) -> Result<f64, Refusal> {
    ffi::sol_aberr(dist)
}

/// Stellar aberration in right ascension and declination. Refusals: 1, 2, 3, 4.
pub fn stell_aberr_in_eq_coords(stell_eq_point: &EqPoint, day: f64) -> Result<(f64, f64), Refusal> {
    ffi::stell_aberr_in_eq_coords(stell_eq_point.asc, stell_eq_point.dec, day)
}
