//! Topocentric places.
use crate::coords::{EclPoint, EqPoint, GeographPoint};
use crate::{ffi, Edition, Refusal};

/// The equatorial horizontal parallax at a distance in AU. Refusals: 1, 5.
pub fn eq_hz_parallax(dist_to_earth: f64) -> Result<f64, Refusal> {
    ffi::eq_hz_parallax(dist_to_earth)
}

/// The topocentric equatorial point. Refusals: 1, 3, 4, 5, 14.
pub fn topocent_eq_coords(
    eq_point: &EqPoint,
    eq_hz_parllx: f64,
    geograph_point: &GeographPoint,
    observer_ht: f64,
    greenw_sidr: f64,
) -> Result<EqPoint, Refusal> {
    let (p, place) = (eq_point, geograph_point);
    let (asc, dec) = ffi::topocent_eq_coords(p.asc, p.dec, eq_hz_parllx, place.long, place.lat, observer_ht, greenw_sidr)?;
    Ok(EqPoint { asc, dec })
}

/// The topocentric ecliptic point and semidiameter. Refusals: 1, 3, 4, 5, 6, 7.
pub fn topopcent_ecl_coords(
    ecl_point: &EclPoint,
    eq_hz_parllx: f64,
    geograph_point: &GeographPoint,
    observer_ht: f64,
    loc_sidr: f64,
    eclip_oblq: f64,
    geocent_semdia: f64,
) -> Result<(EclPoint, f64), Refusal> {
    topopcent_ecl_coords_by(
        Edition::Crate, ecl_point, eq_hz_parllx, geograph_point, observer_ht, loc_sidr, eclip_oblq, geocent_semdia,
    )
}

/// The same in an edition: the published one has Meeus's latitude, and the semidiameter by it. It is refused by 6 also where the
/// cosine of the topocentric longitude is zero.
#[allow(clippy::too_many_arguments)]
pub fn topopcent_ecl_coords_by(
    edition: Edition,
    ecl_point: &EclPoint,
    eq_hz_parllx: f64,
    geograph_point: &GeographPoint,
    observer_ht: f64,
    loc_sidr: f64,
    eclip_oblq: f64,
    geocent_semdia: f64,
) -> Result<(EclPoint, f64), Refusal> {
    let (p, place) = (ecl_point, geograph_point);
    let call = match edition {
        Edition::Crate => ffi::topopcent_ecl_coords,
        Edition::Published => ffi::topopcent_ecl_coords_published,
    };
    let (long, lat, semidiameter) = call(
        p.long, p.lat, eq_hz_parllx, place.long, place.lat, observer_ht, loc_sidr, eclip_oblq, geocent_semdia,
    )?;
    Ok((EclPoint { long, lat }, semidiameter))
}
