//! Section 3's century, answered by the port.
use library::of_one;

extern "C" {
    fn brundelak_julian_cent(day: f64, out: *mut f64) -> u8;
}

pub fn julian_cent(day: f64) -> f64 {
    of_one(brundelak_julian_cent, day)
}
