//! Refraction at the sight (Meeus, chapter 16). Altitudes are in degrees, from 0.0 to 89.8; refraction is in minutes of arc.
//! Azimuth and altitude of `coords` know nothing of it.
use crate::{ffi, Refusal};

/// Refraction in minutes of arc, by which a star that is seen at an altitude stands too high: above 0, at most 35. Refusals: 1, 3.
pub fn refrac_frm_apprnt_alt(apprnt_alt: f64) -> Result<f64, Refusal> {
    ffi::refrac_frm_apprnt_alt(apprnt_alt)
}

/// Refraction in minutes of arc, by which a star of a true altitude will be seen too high: above 0, at most 30. Refusals: 1, 3.
pub fn refrac_frm_true_alt(true_alt: f64) -> Result<f64, Refusal> {
    ffi::refrac_frm_true_alt(true_alt)
}

/// The true altitude, in degrees, of a star that was measured at an altitude; below 0.0 for a star at the horizon. Refusals: 1, 3.
pub fn sight_alt(apprnt_alt: f64) -> Result<f64, Refusal> {
    ffi::sight_alt(apprnt_alt)
}

/// The altitude, in degrees, at which to look for a star of a computed altitude. Refusals: 1, 3.
pub fn plan_alt(true_alt: f64) -> Result<f64, Refusal> {
    ffi::plan_alt(true_alt)
}
