//! The whole reduction of a star.
use crate::coords::EqPoint;
use crate::{ffi, Edition, Refusal};

/// A star's place from one day to another: precession, then nutation, by the true obliquity, and aberration at the precessed point.
/// Refusals: 1, 2, 3, 14, 7, 4.
pub fn chain(asc: f64, dec: f64, day1: f64, day2: f64) -> Result<EqPoint, Refusal> {
    chain_by(Edition::Crate, asc, dec, day1, day2)
}

/// The same in an edition, which is that of precession.
pub fn chain_by(edition: Edition, asc: f64, dec: f64, day1: f64, day2: f64) -> Result<EqPoint, Refusal> {
    let (asc, dec) = match edition {
        Edition::Crate => ffi::chain(asc, dec, day1, day2)?,
        Edition::Published => ffi::chain_published(asc, dec, day1, day2)?,
    };
    Ok(EqPoint { asc, dec })
}
