//! Star places, proved against written rules: the star modules of the crate astro 2.0.0, with its names.
//!
//! Every function takes any numbers and answers `Result`: what the rules give, bit for bit, or a [`Refusal`].
//! No answer is NaN or infinite. Angles are in radians unless degrees are named, days are Julian (Ephemeris) days,
//! distances in astronomical units, heights in metres. Azimuth is counted from south, west positive; geographical
//! longitude is positive west.
//!
//! ```
//! # fn main() -> Result<(), brundelak::Refusal> {
//! use brundelak::{chain, coords};
//! let star = chain::chain(0.7165, 0.8592, 2451545.0, 2462088.69)?;
//! let hour_angle = coords::hr_angl_frm_observer_long(2.1157, 0.785398, star.asc)?;
//! let az = coords::az_frm_eq(hour_angle, star.dec, 0.912807)?;
//! let alt = coords::alt_frm_eq(hour_angle, star.dec, 0.912807)?;
//! # let _ = (az, alt);
//! # Ok(())
//! # }
//! ```
#![deny(missing_docs, unsafe_code)]

#[macro_use]
#[allow(unsafe_code)]
mod raw;
mod edition;
#[allow(unsafe_code)]
mod ffi;
mod refusal;

pub mod aberr;
pub mod angle;
pub mod atmos;
pub mod batch;
pub mod chain;
pub mod coords;
pub mod earth;
pub mod elementary;
pub mod heading;
pub mod list;
pub mod nutation;
pub mod parallax;
pub mod precess;
pub mod radio;
pub mod residuals;
pub mod rotation;
pub mod time;
pub mod transit;

pub use edition::Edition;
pub use refusal::Refusal;

/// The version of the archive that is linked: its three parts, which are this crate's where both are of one version.
pub fn version() -> (u32, u32, u32) {
    let number = ffi::version();
    (number >> 16, number >> 8 & 255, number & 255)
}
