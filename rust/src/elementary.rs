//! The elementary functions on which everything rests: written rules over IEEE 754 doubles, the same on every machine.
use crate::{ffi, Refusal};

/// The sine of an angle of size at most 400000.0. Refusals: 1, 3.
pub fn sin(x: f64) -> Result<f64, Refusal> {
    ffi::sine(x)
}

/// The cosine of an angle of size at most 400000.0. Refusals: 1, 3.
pub fn cos(x: f64) -> Result<f64, Refusal> {
    ffi::cosine(x)
}

/// The tangent of an angle of size at most 1.57. Refusals: 1, 3, 4.
pub fn tan(x: f64) -> Result<f64, Refusal> {
    ffi::tangent(x)
}

/// The arctangent of (y, x): the sign of y, and at least a quarter turn where x bears a minus sign. Refusals: 1, 14 where both are zero.
pub fn atan2(y: f64, x: f64) -> Result<f64, Refusal> {
    ffi::arctangent(y, x)
}

/// The arcsine of a number of size at most 1. Refusals: 1, 7.
pub fn asin(s: f64) -> Result<f64, Refusal> {
    ffi::arcsine(s)
}

/// The square root, rounded to nearest. Refusals: 1, 5.
pub fn sqrt(x: f64) -> Result<f64, Refusal> {
    ffi::root(x)
}
