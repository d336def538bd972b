//! Refraction at the sight through the crate.
use brundelak::atmos::{plan_alt, refrac_frm_apprnt_alt, refrac_frm_true_alt, sight_alt};
use brundelak::*;

fn near(x: f64, y: f64, within: f64) {
    assert!((x - y).abs() <= within, "{} is not within {} of {}", x, within, y);
}

/// Meeus, example 16.a: the Sun at the horizon.
#[test]
fn meeus_16_a() {
    near(refrac_frm_apprnt_alt(0.5).unwrap(), 28.754, 0.0005);
    near(60.0 * sight_alt(0.5).unwrap(), 1.246, 0.0005);
    near(refrac_frm_true_alt(33.246 / 60.0).unwrap(), 24.618, 0.0005);
    near(60.0 * plan_alt(33.246 / 60.0).unwrap(), 57.864, 0.0005);
}

#[test]
fn limits_are_accepted() {
    for f in [refrac_frm_apprnt_alt, refrac_frm_true_alt, sight_alt, plan_alt].iter() {
        assert!(f(0.0).is_ok());
        assert_eq!(f(-0.0), f(0.0));
        assert!(f(89.8).is_ok());
        for x in [-f64::from_bits(1), f64::from_bits(89.8f64.to_bits() + 1), -1.0, 90.0, 1e300].iter() {
            assert_eq!(f(*x), Err(Refusal::Angle), "{}", x);
        }
        for x in [f64::NAN, f64::INFINITY, f64::NEG_INFINITY].iter() {
            assert_eq!(f(*x), Err(Refusal::NotFinite), "{}", x);
        }
    }
}

/// Refraction is above zero and grows towards the horizon; a star is never raised at the sight nor lowered for planning, and both are
/// refraction's sixtieth.
#[test]
fn low_stars_stand_too_high() {
    let mut last = (35.0, 30.0);
    for i in 0..8981 {
        let h = i as f64 / 100.0;
        let (seen, stands) = (refrac_frm_apprnt_alt(h).unwrap(), refrac_frm_true_alt(h).unwrap());
        assert!(0.0 < seen && seen < last.0 && 0.0 < stands && stands < last.1, "at {}", h);
        assert_eq!(sight_alt(h), Ok(h - seen / 60.0));
        assert_eq!(plan_alt(h), Ok(h + stands / 60.0));
        last = (seen, stands);
    }
}

/// The two rules undo each other to within four seconds of arc, as Meeus says.
#[test]
fn there_and_back() {
    for i in 60..8900 {
        let h = i as f64 / 100.0;
        near(plan_alt(sight_alt(h).unwrap()).unwrap(), h, 4.0 / 3600.0);
    }
}
