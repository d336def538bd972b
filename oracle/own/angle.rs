//! Section 3's helpers of angles.
use std::f64::consts::PI;

pub fn deg_frm_dms(_: i64, _: i64, s: f64) -> f64 {
    s / 3600.0
}

pub fn deg_frm_hms(_: i64, _: i64, s: f64) -> f64 {
    15.0 * (s / 3600.0)
}

fn limit_to(x: f64, turn: f64) -> f64 {
    let r = x % turn;
    if r < 0.0 {
        r + turn
    } else {
        r
    }
}

pub fn limit_to_360(x: f64) -> f64 {
    limit_to(x, 360.0)
}

pub fn limit_to_two_PI(x: f64) -> f64 {
    limit_to(x, 2.0 * PI)
}

/// Not ported and never called: named by methods of the points.
pub fn anglr_sepr(_: f64, _: f64, _: f64, _: f64) -> f64 {
    unimplemented!()
}
