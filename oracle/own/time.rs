//! Section 3's century.
pub fn julian_cent(day: f64) -> f64 {
    (day - 2451545.0) / 36525.0
}
