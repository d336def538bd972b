//! Rise, culmination and set (Meeus, chapter 15, before interpolation).
use crate::coords::{EqPoint, GeographPoint};
use crate::{ffi, Refusal};

/// Three times as fractions of the sidereal day since 0h: 0 to 1, and 1.0 itself just before it.
#[derive(Clone, Copy, Debug, PartialEq)]
pub struct DayFractions {
    /// When the star comes up through the standard altitude.
    pub rise: f64,
    /// When it stands in the meridian.
    pub culmination: f64,
    /// When it goes down through the standard altitude.
    pub set: f64,
}

/// Rise, culmination and set of a star. Given: its point on the day, the sidereal time at Greenwich at 0h universal time of the day, the
/// observer's place and the standard altitude. Before interpolation a fraction is a part of the sidereal day since that 0h: divided by
/// 1.0027379 it is that of the clock's day, up to four minutes earlier. Refusals: 1, 3, 4, 15, 16.
pub fn rise_culm_set(
    eq_point: &EqPoint,
    greenw_sidr: f64,
    geograph_point: &GeographPoint,
    alt: f64,
) -> Result<DayFractions, Refusal> {
    let (p, place) = (eq_point, geograph_point);
    let (rise, culmination, set) = ffi::rise_culm_set(p.asc, p.dec, greenw_sidr, place.long, place.lat, alt)?;
    Ok(DayFractions { rise, culmination, set })
}
