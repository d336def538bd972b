//! Nutation.
use crate::coords::EqPoint;
use crate::{ffi, Refusal};

/// Nutation in longitude and in obliquity. Refusals: 1, 2.
pub fn nutation(day: f64) -> Result<(f64, f64), Refusal> {
    ffi::nutation(day)
}

/// A ceiling on nutation: the most, in size, that [`nutation`] can answer on a day, in longitude and in obliquity, for an error budget.
/// It does not fall as the day's distance from 2451545.0 grows, and bounds this nutation, not its distance from the sky's.
/// Refusals: 1, 2.
///
/// ```
/// # fn main() -> Result<(), brundelak::Refusal> {
/// use brundelak::nutation::{nutation, nutation_ceiling};
/// let (long, oblq) = nutation(2462088.69)?;
/// let (most_long, most_oblq) = nutation_ceiling(2462088.69)?;
/// assert!(long.abs() <= most_long && oblq.abs() <= most_oblq);
/// # Ok(())
/// # }
/// ```
pub fn nutation_ceiling(day: f64) -> Result<(f64, f64), Refusal> {
    ffi::nutation_ceiling(day)
}

/// Nutation in right ascension and declination. Refusals: 1, 3, 4.
pub fn nutation_in_eq_coords(
    eq_point: &EqPoint,
    nut_in_long: f64,
    nut_in_oblq: f64,
    tru_oblq: f64,
) -> Result<(f64, f64), Refusal> {
    ffi::nutation_in_eq_coords(eq_point.asc, eq_point.dec, nut_in_long, nut_in_oblq, tru_oblq)
}
