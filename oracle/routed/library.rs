//! The library functions that the supplied text calls, answered by the port; a refused call answers NaN and is noted.
use std::sync::atomic::{AtomicU64, AtomicU8, Ordering};

extern "C" {
    fn brundelak_sine(x: f64, out: *mut f64) -> u8;
    fn brundelak_cosine(x: f64, out: *mut f64) -> u8;
    fn brundelak_tangent(x: f64, out: *mut f64) -> u8;
    fn brundelak_arctangent(y: f64, x: f64, out: *mut f64) -> u8;
    fn brundelak_arcsine(s: f64, out: *mut f64) -> u8;
    fn brundelak_root(x: f64, out: *mut f64) -> u8;
    fn brundelak_to_radians(x: f64, out: *mut f64) -> u8;
}

static FIRST: AtomicU8 = AtomicU8::new(0);
static SINE: AtomicU64 = AtomicU64::new(0);

/// The number of the first refusal since `forget`, 0 where there was none.
pub fn first_refusal() -> u8 {
    FIRST.load(Ordering::Relaxed)
}

/// The last sine that was answered.
pub fn last_sine() -> f64 {
    f64::from_bits(SINE.load(Ordering::Relaxed))
}

pub fn forget() {
    FIRST.store(0, Ordering::Relaxed);
}

/// The number answered, or NaN and a note where the call was refused.
pub fn noted(status: u8, value: f64) -> f64 {
    if status == 0 {
        return value;
    }
    if first_refusal() == 0 {
        FIRST.store(status, Ordering::Relaxed);
    }
    std::f64::NAN
}

pub fn of_one(f: unsafe extern "C" fn(f64, *mut f64) -> u8, x: f64) -> f64 {
    let mut out = 0.0;
    let status = unsafe { f(x, &mut out) };
    noted(status, out)
}

pub trait Library {
    fn routed_sin(self) -> f64;
    fn routed_cos(self) -> f64;
    fn routed_tan(self) -> f64;
    fn routed_asin(self) -> f64;
    fn routed_atan2(self, x: f64) -> f64;
    fn routed_sqrt(self) -> f64;
    fn routed_to_radians(self) -> f64;
}

impl Library for f64 {
    fn routed_sin(self) -> f64 {
        let s = of_one(brundelak_sine, self);
        SINE.store(s.to_bits(), Ordering::Relaxed);
        s
    }
    fn routed_cos(self) -> f64 {
        of_one(brundelak_cosine, self)
    }
    fn routed_tan(self) -> f64 {
        of_one(brundelak_tangent, self)
    }
    fn routed_asin(self) -> f64 {
        of_one(brundelak_arcsine, self)
    }
    fn routed_atan2(self, x: f64) -> f64 {
        let mut out = 0.0;
        let status = unsafe { brundelak_arctangent(self, x, &mut out) };
        noted(status, out)
    }
    fn routed_sqrt(self) -> f64 {
        of_one(brundelak_root, self)
    }
    fn routed_to_radians(self) -> f64 {
        of_one(brundelak_to_radians, self)
    }
}
