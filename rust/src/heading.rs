//! The true heading of a star, and of a mark beside it, and the mean of a mark's headings. A heading is in degrees from north, clockwise, from 0.0 to below 360.0.
use crate::coords::GeographPoint;
use crate::list::Star;
use crate::residuals::Sheet;
use crate::{ffi, Edition, Refusal};

/// Where a star stands in the sky, in degrees, without refraction.
#[derive(Clone, Copy, Debug, PartialEq)]
pub struct Sight {
    /// From north, clockwise, 0.0 to below 360.0.
    pub heading: f64,
    /// From south, west positive, -180.0 to 180.0.
    pub azimuth: f64,
    /// Below 0.0 where the star is not up.
    pub alt: f64,
}

/// A star's heading, azimuth and altitude. Given: its record, the day of the record's place, the day of the sight in universal time, and the
/// observer's place. The star's number counts for nothing. Its place is the one that a batch gives it, sidereal time the apparent one.
/// Refusals: 1, 2, 3; then 9 for the record, 3 for a declination shifted past a quarter turn, 14, 7 and 4 of the place; then 3, 4, 14 and 7.
///
/// ```
/// # fn main() -> Result<(), brundelak::Refusal> {
/// use brundelak::{coords::GeographPoint, heading, list::Star};
/// let site = GeographPoint { long: -0.3, lat: 0.9 };
/// let sight = heading::heading(&Star::still(7, 147794400, 177203520), 2451545.0, 2462088.69, &site)?;
/// let mark = heading::mark_heading(sight.heading, 10.0, 55.5)?;
/// assert!(0.0 <= mark && mark < 360.0);
/// # Ok(())
/// # }
/// ```
pub fn heading(star: &Star, day1: f64, day2: f64, geograph_point: &GeographPoint) -> Result<Sight, Refusal> {
    heading_by(Edition::Crate, star, day1, day2, geograph_point)
}

/// The same in an edition, which is that of precession.
pub fn heading_by(
    edition: Edition,
    star: &Star,
    day1: f64,
    day2: f64,
    geograph_point: &GeographPoint,
) -> Result<Sight, Refusal> {
    let (heading, azimuth, alt) = ffi::heading(edition, star, day1, day2, geograph_point.long, geograph_point.lat)?;
    Ok(Sight { heading, azimuth, alt })
}

/// A mark's heading, from the star's and from what a horizontal circle reads at the star and at the mark, clockwise, all in degrees from 0.0
/// to below 360.0. Refusals: 1, 3.
pub fn mark_heading(heading: f64, star_reading: f64, mark_reading: f64) -> Result<f64, Refusal> {
    ffi::mark_heading(heading, star_reading, mark_reading)
}

/// The mean of a mark's headings, and the sheet of their residuals from the reference, where a place is an index among them.
#[derive(Clone, Copy, Debug, PartialEq)]
pub struct Mean {
    /// In degrees, 0.0 to below 360.0.
    pub mean: f64,
    /// Of the residuals in milliarcseconds; sights that do not agree with the reference are set aside.
    pub sheet: Sheet,
}

/// The mean of a night's headings of one mark, each in degrees from 0.0 to below 360.0, on either side of north. The reference is the first
/// sight with which more than half of all agree, by a million milliarcseconds at most; the mean is the reference plus the mean residual of
/// those that agree with it. Refusals: 8 for none, or for more than [`crate::list::MOST_STARS`]; then 1; then 3; then 20 where there is no
/// reference.
///
/// ```
/// # fn main() -> Result<(), brundelak::Refusal> {
/// let night = brundelak::heading::mean_heading(&[359.9, 0.1, 180.0])?;
/// assert_eq!((night.mean, night.sheet.count, night.sheet.aside), (0.0, 2, 1));
/// # Ok(())
/// # }
/// ```
pub fn mean_heading(headings: &[f64]) -> Result<Mean, Refusal> {
    let (mean, sheet) = ffi::mean_heading(headings)?;
    Ok(Mean { mean, sheet: Sheet::of(sheet) })
}
