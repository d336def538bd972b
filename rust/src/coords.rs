//! Changes of frame.
use crate::{ffi, Edition, Refusal};

/// A point on the Earth.
#[derive(Clone, Copy, Debug, PartialEq)]
pub struct GeographPoint {
    /// Longitude, west positive.
    pub long: f64,
    /// Latitude.
    pub lat: f64,
}

/// A point in the equatorial frame.
#[derive(Clone, Copy, Debug, PartialEq)]
pub struct EqPoint {
    /// Right ascension.
    pub asc: f64,
    /// Declination.
    pub dec: f64,
}

/// A point in the ecliptic frame.
#[derive(Clone, Copy, Debug, PartialEq)]
pub struct EclPoint {
    /// Longitude.
    pub long: f64,
    /// Latitude.
    pub lat: f64,
}

/// The hour angle from the sidereal time at Greenwich. Refusals: 1, 3.
pub fn hr_angl_frm_observer_long(green_sidreal: f64, observer_long: f64, asc: f64) -> Result<f64, Refusal> {
    ffi::hr_angl_frm_observer_long(green_sidreal, observer_long, asc)
}

/// The hour angle from the local sidereal time. Refusals: 1, 3.
pub fn hr_angl_frm_loc_sidr(local_sidreal: f64, asc: f64) -> Result<f64, Refusal> {
    ffi::hr_angl_frm_loc_sidr(local_sidreal, asc)
}

/// The ecliptic longitude and latitude, in one point. Refusals: 1, 3, 4, 7.
pub fn ecl_frm_eq(asc: f64, dec: f64, oblq_eclip: f64) -> Result<EclPoint, Refusal> {
    let (long, lat) = ffi::ecl_frm_eq(asc, dec, oblq_eclip)?;
    Ok(EclPoint { long, lat })
}

/// The right ascension from ecliptic coordinates. Refusals: 1, 3, 4.
pub fn asc_frm_ecl(ecl_long: f64, ecl_lat: f64, oblq_eclip: f64) -> Result<f64, Refusal> {
    ffi::asc_frm_ecl(ecl_long, ecl_lat, oblq_eclip)
}

/// The declination from ecliptic coordinates. Refusals: 1, 3, 7.
pub fn dec_frm_ecl(ecl_long: f64, ecl_lat: f64, oblq_eclip: f64) -> Result<f64, Refusal> {
    ffi::dec_frm_ecl(ecl_long, ecl_lat, oblq_eclip)
}

/// The azimuth, from south, west positive, with the sign of the sine of the hour angle. Refusals: 1, 3, 4, 14 at the zenith.
pub fn az_frm_eq(hour_angle: f64, dec: f64, observer_lat: f64) -> Result<f64, Refusal> {
    ffi::az_frm_eq(hour_angle, dec, observer_lat)
}

/// The altitude, without refraction. At an exact zenith it may be refused by 7. Refusals: 1, 3, 7.
pub fn alt_frm_eq(hour_angle: f64, dec: f64, observer_lat: f64) -> Result<f64, Refusal> {
    ffi::alt_frm_eq(hour_angle, dec, observer_lat)
}

/// The hour angle from horizontal coordinates. Refusals: 1, 3, 4, 14 at the pole.
pub fn hr_angl_frm_hz(az: f64, alt: f64, observer_lat: f64) -> Result<f64, Refusal> {
    ffi::hr_angl_frm_hz(az, alt, observer_lat)
}

/// The declination from horizontal coordinates, as astro has it: not Meeus's formula. Refusals: 1, 3, 7.
pub fn dec_frm_hz(az: f64, alt: f64, observer_lat: f64) -> Result<f64, Refusal> {
    dec_frm_hz_by(Edition::Crate, az, alt, observer_lat)
}

/// The same in an edition. Refusals: 1, 3, 7.
pub fn dec_frm_hz_by(edition: Edition, az: f64, alt: f64, observer_lat: f64) -> Result<f64, Refusal> {
    match edition {
        Edition::Crate => ffi::dec_frm_hz(az, alt, observer_lat),
        Edition::Published => ffi::dec_frm_hz_published(az, alt, observer_lat),
    }
}

/// The galactic longitude from coordinates of B1950.0. Refusals: 1, 3, 4, 14 at the galactic pole.
pub fn gal_long_frm_eq(asc: f64, dec: f64) -> Result<f64, Refusal> {
    ffi::gal_long_frm_eq(asc, dec)
}

/// The galactic latitude from coordinates of B1950.0. Refusals: 1, 3, 7.
pub fn gal_lat_frm_eq(asc: f64, dec: f64) -> Result<f64, Refusal> {
    ffi::gal_lat_frm_eq(asc, dec)
}

/// The right ascension of B1950.0 from galactic coordinates. Refusals: 1, 3, 4, 14 at the celestial pole.
pub fn asc_frm_gal(gal_long: f64, gal_lat: f64) -> Result<f64, Refusal> {
    ffi::asc_frm_gal(gal_long, gal_lat)
}
