//! Section 3's helpers of angles, answered by the port.
use library::of_one;

extern "C" {
    fn brundelak_deg_frm_dms(seconds: f64, out: *mut f64) -> u8;
    fn brundelak_deg_frm_hms(seconds: f64, out: *mut f64) -> u8;
    fn brundelak_limit_to_360(x: f64, out: *mut f64) -> u8;
    fn brundelak_limit_to_two_pi(x: f64, out: *mut f64) -> u8;
}

/// The supplied text calls it at 0 degrees and 0 minutes only.
pub fn deg_frm_dms(d: i64, m: i64, s: f64) -> f64 {
    assert!(d == 0 && m == 0);
    of_one(brundelak_deg_frm_dms, s)
}

/// The supplied text calls it at 0 hours and 0 minutes only.
pub fn deg_frm_hms(h: i64, m: i64, s: f64) -> f64 {
    assert!(h == 0 && m == 0);
    of_one(brundelak_deg_frm_hms, s)
}

pub fn limit_to_360(x: f64) -> f64 {
    of_one(brundelak_limit_to_360, x)
}

pub fn limit_to_two_PI(x: f64) -> f64 {
    of_one(brundelak_limit_to_two_pi, x)
}

/// Not ported and never called: named by methods of the points.
pub fn anglr_sepr(_: f64, _: f64, _: f64, _: f64) -> f64 {
    unimplemented!()
}
