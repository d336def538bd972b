//! Degrees, seconds and turns.
use crate::{ffi, Refusal};

/// Degrees from seconds of arc; astro's function at 0 degrees and 0 minutes. Refusals: 1.
pub fn deg_frm_dms(seconds: f64) -> Result<f64, Refusal> {
    ffi::deg_frm_dms(seconds)
}

/// Degrees from seconds of time; astro's function at 0 hours and 0 minutes. Refusals: 1.
pub fn deg_frm_hms(seconds: f64) -> Result<f64, Refusal> {
    ffi::deg_frm_hms(seconds)
}

/// Radians from degrees. Refusals: 1.
pub fn to_radians(degrees: f64) -> Result<f64, Refusal> {
    ffi::to_radians(degrees)
}

/// Degrees folded into one turn; 360.0 for some tiny negative numbers. Refusals: 1.
pub fn limit_to_360(degrees: f64) -> Result<f64, Refusal> {
    ffi::limit_to_360(degrees)
}

/// Radians folded into one turn; 2·PI for some tiny negative numbers. Refusals: 1.
#[allow(non_snake_case)]
pub fn limit_to_two_PI(radians: f64) -> Result<f64, Refusal> {
    ffi::limit_to_two_pi(radians)
}
