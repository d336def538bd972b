//! Document 01's sections 2 and 3, written a second time: what the port's elementary functions and helpers must answer.
use std::f64::consts::{FRAC_PI_2, FRAC_PI_4, PI};

/// Starts with the entry for `n`, then multiplies by z and adds the next entry, down to the entry for `last`.
fn series(n: u32, last: u32, z: f64, entry: fn(u32) -> f64) -> f64 {
    let mut p = entry(n);
    let mut n = n;
    while n > last {
        n -= 2;
        p = p * z + entry(n);
    }
    p
}

/// 1/n! with the sign that the sine's or cosine's series gives it. The products are exact below 2^53.
fn factorial_entry(n: u32) -> f64 {
    let f = (1..n as u64 + 1).product::<u64>() as f64;
    if n % 4 == 3 || n % 4 == 2 {
        -(1.0 / f)
    } else {
        1.0 / f
    }
}

fn odd_entry(n: u32) -> f64 {
    if n % 4 == 3 {
        -(1.0 / n as f64)
    } else {
        1.0 / n as f64
    }
}

/// k mod 4 and r.
fn fold(x: f64) -> (u64, f64) {
    let a = x.abs();
    let s = a * f64::from_bits(0x3FE45F306DC9C883) + 0.5;
    let k = s.trunc();
    let r = a - k * f64::from_bits(0x3FF921FB54400000);
    let r = r - k * f64::from_bits(0x3DD0B4611A600000);
    let r = r - k * f64::from_bits(0x3BA3198A2E037073);
    (k as u64 % 4, r)
}

fn s(r: f64) -> f64 {
    let z = r * r;
    r + (r * z) * series(17, 3, z, factorial_entry)
}

fn c(r: f64) -> f64 {
    let z = r * r;
    (1.0 - z / 2.0) + (z * z) * series(16, 4, z, factorial_entry)
}

pub fn sine(x: f64) -> f64 {
    let (k, r) = fold(x);
    let y = match k {
        0 => s(r),
        1 => c(r),
        2 => -s(r),
        _ => -c(r),
    };
    if x.is_sign_negative() {
        -y
    } else {
        y
    }
}

pub fn cosine(x: f64) -> f64 {
    let (k, r) = fold(x);
    match k {
        0 => c(r),
        1 => -s(r),
        2 => -c(r),
        _ => s(r),
    }
}

pub fn tangent(x: f64) -> f64 {
    sine(x) / cosine(x)
}

fn a(u: f64) -> f64 {
    let w = u * u;
    u + (u * w) * series(41, 3, w, odd_entry)
}

fn atn(v: f64) -> f64 {
    if v <= 0.4142 {
        a(v)
    } else {
        FRAC_PI_4 + a((v - 1.0) / (v + 1.0))
    }
}

/// Whether the arctangent is refused by 14.
pub fn no_direction(y: f64, x: f64) -> bool {
    y == 0.0 && x == 0.0
}

/// Where it is not.
pub fn arctangent(y: f64, x: f64) -> f64 {
    let mut base = if y.abs() <= x.abs() {
        atn(y.abs() / x.abs())
    } else {
        FRAC_PI_2 - atn(x.abs() / y.abs())
    };
    if x.is_sign_negative() {
        base = PI - base;
    }
    if y.is_sign_negative() {
        -base
    } else {
        base
    }
}

pub fn arcsine(s: f64) -> f64 {
    arctangent(s, ((1.0 - s) * (1.0 + s)).sqrt())
}

pub fn century(day: f64) -> f64 {
    (day - 2451545.0) / 36525.0
}

pub fn radians(x: f64) -> f64 {
    x * (PI / 180.0)
}

pub fn folded(x: f64, turn: f64) -> f64 {
    let r = x % turn;
    if r < 0.0 {
        r + turn
    } else {
        r
    }
}

pub fn earth(lat: f64, height: f64) -> (f64, f64) {
    let u = arctangent(0.99664719 * tangent(lat), 1.0);
    (
        0.99664719 * sine(u) + (height / 6378140.0) * sine(lat),
        cosine(u) + (height / 6378140.0) * cosine(lat),
    )
}

/// The mean obliquity (Meeus 22.2), in radians, at a century.
pub fn obliquity(t: f64) -> f64 {
    radians(84381.448 / 3600.0 - t * (46.8150 / 3600.0 + t * (0.00059 / 3600.0 - t * (0.001813 / 3600.0))))
}
