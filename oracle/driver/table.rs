//! Document 01's section 5, and what later requests add to it, written a second time: which number refuses an argument of each sort.
use std::f64::consts::FRAC_PI_2;

/// What an argument is.
#[derive(Clone, Copy, PartialEq, Debug)]
pub enum Sort {
    /// An angle.
    Angle,
    /// A declination, altitude, observer or frame latitude.
    Latitude,
    /// The same where it goes into a tangent or its cosine divides.
    Steep,
    Day,
    Distance,
    Height,
    /// A number with no bound.
    Number,
    /// The argument of an arcsine called alone.
    Unit,
    /// The argument of sine and cosine called alone.
    Alone,
    /// The argument of the tangent called alone.
    AloneSteep,
    /// The argument of the root.
    NotNegative,
    /// An altitude in degrees, of which refraction is asked.
    Sight,
    /// Degrees on a circle.
    Circle,
}

use self::Sort::*;

/// Whether the table's row `number` speaks of the argument.
pub fn refuses(number: u8, sort: Sort, x: f64) -> bool {
    match (number, sort) {
        (1, _) => x.is_nan() || x.is_infinite(),
        (2, Day) => (x - 2451545.0).abs() > 730500.0,
        (3, Angle) => x.abs() > 64.0,
        (3, Latitude) | (3, Steep) => x.abs() > FRAC_PI_2,
        (3, Alone) | (3, AloneSteep) => x.abs() > 400000.0,
        (3, Sight) => x < 0.0 || x > 89.8,
        (3, Circle) => x < 0.0 || x >= 360.0,
        (4, Steep) | (4, AloneSteep) => x.abs() > 1.57,
        (5, Distance) => x < 0.0001 || x > 1000000.0,
        (5, Height) => x < -1000.0 || x > 100000.0,
        (5, NotNegative) => x < 0.0,
        _ => false,
    }
}

/// The lowest of 1 to 5 over all arguments, 0 where none refuses.
pub fn first_of(sorts: &[Sort], args: &[f64]) -> u8 {
    (1..6)
        .find(|&n| sorts.iter().zip(args).any(|(&s, &x)| refuses(n, s, x)))
        .unwrap_or(0)
}

/// The doubles at which something changes for a sort.
pub fn limits(sort: Sort) -> &'static [f64] {
    match sort {
        Angle => &[64.0],
        Latitude => &[FRAC_PI_2, 1.57],
        Steep => &[1.57, FRAC_PI_2],
        Day => &[1721045.0, 3182045.0, 2451545.0],
        Distance => &[0.0001, 1000000.0],
        Height => &[-1000.0, 100000.0],
        Number => &[1.0, 360.0, 6.283185307179586],
        Unit => &[1.0],
        Alone => &[400000.0],
        AloneSteep => &[400000.0, 1.57],
        NotNegative => &[0.0, 1.0, 4.0],
        Sight => &[0.0, 89.8],
        Circle => &[0.0, 360.0],
    }
}
