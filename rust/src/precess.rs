//! Precession.
use crate::{ffi, Edition, Refusal};

/// Annual precession in right ascension and declination. Refusals: 1, 2, 3, 4.
pub fn annual_precess(asc: f64, dec: f64, day: f64) -> Result<(f64, f64), Refusal> {
    ffi::annual_precess(asc, dec, day)
}

/// Right ascension and declination (FK5) from one day to another. Refusals: 1, 2, 3, 14, 7.
pub fn precess_eq_coords(old_asc: f64, old_dec: f64, day1: f64, day2: f64) -> Result<(f64, f64), Refusal> {
    precess_eq_coords_by(Edition::Crate, old_asc, old_dec, day1, day2)
}

/// The same in an edition.
pub fn precess_eq_coords_by(edition: Edition, old_asc: f64, old_dec: f64, day1: f64, day2: f64) -> Result<(f64, f64), Refusal> {
    match edition {
        Edition::Crate => ffi::precess_eq_coords(old_asc, old_dec, day1, day2),
        Edition::Published => ffi::precess_eq_coords_published(old_asc, old_dec, day1, day2),
    }
}

/// Coordinates of the FK4 system from one day to another, as astro has it. Refusals: 1, 2, 3, 14, 7.
#[allow(non_snake_case)]
pub fn precess_eq_coords_FK5(old_asc: f64, old_dec: f64, day1: f64, day2: f64) -> Result<(f64, f64), Refusal> {
    precess_eq_coords_FK5_by(Edition::Crate, old_asc, old_dec, day1, day2)
}

/// The same in an edition: the published one converts each angle to radians.
#[allow(non_snake_case)]
pub fn precess_eq_coords_FK5_by(edition: Edition, old_asc: f64, old_dec: f64, day1: f64, day2: f64) -> Result<(f64, f64), Refusal> {
    match edition {
        Edition::Crate => ffi::precess_eq_coords_fk5(old_asc, old_dec, day1, day2),
        Edition::Published => ffi::precess_eq_coords_fk5_published(old_asc, old_dec, day1, day2),
    }
}

/// Ecliptic longitude and latitude from one day to another. Refusals: 1, 2, 3, 7.
pub fn precess_ecl_coords(old_long: f64, old_lat: f64, day1: f64, day2: f64) -> Result<(f64, f64), Refusal> {
    ffi::precess_ecl_coords(old_long, old_lat, day1, day2)
}

/// Inclination, argument of perihelion and longitude of the node from one day to another. Refusals: 1, 2, 3, 7, 6, 7.
pub fn precess_orb_elements(
    old_inc: f64,
    old_arg_perih: f64,
    old_long_ascend_node: f64,
    day1: f64,
    day2: f64,
) -> Result<(f64, f64, f64), Refusal> {
    ffi::precess_orb_elements(old_inc, old_arg_perih, old_long_ascend_node, day1, day2)
}
