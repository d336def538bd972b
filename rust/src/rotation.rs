//! One rotation for the whole list: every star of a stored list precessed from one day to another by one matrix, and the tally of the
//! statuses.
//!
//! It is precession alone, without nutation and aberration, each of which moves a star by up to 20 seconds of arc: for those use
//! [`batch`](crate::batch). Each coordinate is shifted as there. Right ascensions come as the arctangent gives them, from -PI to PI. It
//! stands beside [`precess`](crate::precess) and is not claimed equal to it: the last digits differ. Negate a right ascension, and its
//! place need not come out mirrored.
//!
//! A star's refusal is the first met: 9 for its record, 3 for a declination shifted past a quarter turn, then 14 and 7. An empty place has
//! status 10. [`rotated`] answers stars; [`rotate`], the tally and [`batch::places`](crate::batch::places), which reads what is left in the
//! slices, go by records, empty places among them.
use crate::batch::{by_star, Reduced, COUNTS};
use crate::{ffi, Edition, Refusal};

/// Every star of a list under the rotation from one day to another, in their order, each with its place or why it has none. Empty places
/// are left out. Refusals: 1, 2, 8.
///
/// ```
/// # fn main() -> Result<(), brundelak::Refusal> {
/// use brundelak::{list, rotation};
/// let mut bytes = [0; 3 * list::RECORD_BYTES]; // three empty places
/// list::add(&mut bytes, list::Star::still(7, 0, 0))?;
/// let (star, place) = rotation::rotated(&bytes, 2451545.0, 2462088.69)?[0];
/// assert_eq!(star.number, 7);
/// assert!(place?.asc > 0.0);
/// # Ok(())
/// # }
/// ```
pub fn rotated(bytes: &[u8], day1: f64, day2: f64) -> Result<Vec<Reduced>, Refusal> {
    rotated_by(Edition::Crate, bytes, day1, day2)
}

/// The same by an edition's angles.
pub fn rotated_by(edition: Edition, bytes: &[u8], day1: f64, day2: f64) -> Result<Vec<Reduced>, Refusal> {
    by_star(bytes, |status, asc, dec| rotate_by(edition, bytes, day1, day2, status, asc, dec))
}

/// Every star of a list under the rotation from one day to another: the lent slices get the status of each record (0, or its refusal's
/// number, 10 for an empty place) and two angles, 0.0 and 0.0 where it is refused. Answers how many records have each status. Refusals,
/// which leave the slices unchanged: 1, 2, 8.
pub fn rotate(
    bytes: &[u8],
    day1: f64,
    day2: f64,
    status: &mut [u8],
    asc: &mut [f64],
    dec: &mut [f64],
) -> Result<[u32; COUNTS], Refusal> {
    rotate_by(Edition::Crate, bytes, day1, day2, status, asc, dec)
}

/// The same by an edition's angles.
pub fn rotate_by(
    edition: Edition,
    bytes: &[u8],
    day1: f64,
    day2: f64,
    status: &mut [u8],
    asc: &mut [f64],
    dec: &mut [f64],
) -> Result<[u32; COUNTS], Refusal> {
    ffi::rotate(edition, bytes, day1, day2, status, asc, dec)
}
