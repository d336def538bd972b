//! The Earth's figure (astro's `planet::earth`).
use crate::{ffi, Refusal};

/// `(rho sin phi', rho cos phi')`: the observer's place from the Earth's centre, in equatorial radii.
/// Latitude of size at most 1.57, height in metres. Refusals: 1, 3, 4, 5.
pub fn rho_sin_cos_phi(lat: f64, height: f64) -> Result<(f64, f64), Refusal> {
    ffi::rho_sin_cos_phi(lat, height)
}
