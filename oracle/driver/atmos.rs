//! Refraction at the sight, document 02's request (vii), written a second time, over a conversion to radians and a tangent.
use written;

/// How an angle in degrees goes into a tangent.
type Tangent = fn(f64) -> f64;

/// By section 2's rules as written here.
pub fn by_rules(degrees: f64) -> f64 {
    written::tangent(written::radians(degrees))
}

/// By Rust's own library functions.
pub fn by_library(degrees: f64) -> f64 {
    degrees.to_radians().tan()
}

/// Minutes of arc by which a star that is seen at h degrees stands too high.
pub fn apparent(h: f64, tangent: Tangent) -> f64 {
    1.0 / tangent(h + 7.31 / (h + 4.4))
}

/// The same of a star that stands at h degrees.
pub fn real(h: f64, tangent: Tangent) -> f64 {
    1.02 / tangent(h + 10.3 / (h + 5.11))
}

/// Where a star stands that is measured at h degrees.
pub fn sight(h: f64, tangent: Tangent) -> f64 {
    h - apparent(h, tangent) / 60.0
}

/// Where to look for a star that is computed to stand at h degrees.
pub fn plan(h: f64, tangent: Tangent) -> f64 {
    h + real(h, tangent) / 60.0
}
