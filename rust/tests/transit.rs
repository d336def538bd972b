//! Rise, culmination and set through the crate.
use brundelak::coords::{EqPoint, GeographPoint};
use brundelak::transit::{rise_culm_set, DayFractions};
use brundelak::*;
use std::f64::consts::{FRAC_PI_2, PI};

fn near(x: f64, y: f64, within: f64) {
    assert!((x - y).abs() <= within, "{} is not within {} of {}", x, within, y);
}

fn deg(x: f64) -> f64 {
    angle::to_radians(x).unwrap()
}

/// Boston, and the altitude of the horizon.
fn at_boston(dec: f64) -> Result<DayFractions, Refusal> {
    let boston = GeographPoint { long: deg(71.0833), lat: deg(42.3333) };
    rise_culm_set(&EqPoint { asc: deg(41.73129), dec: deg(dec) }, deg(177.74208), &boston, deg(-0.5667))
}

/// At longitude 0, where the star culminates at 0h: declination, latitude, altitude.
fn at_midnight(dec: f64, lat: f64, alt: f64) -> Result<DayFractions, Refusal> {
    rise_culm_set(&EqPoint { asc: 0.0, dec }, 0.0, &GeographPoint { long: 0.0, lat }, alt)
}

/// Meeus, example 15.a: Venus on 1988 March 20. The book rounds m1 before it folds.
#[test]
fn meeus_15_a() {
    let m = at_boston(18.44092).unwrap();
    near(m.rise, 0.51817, 0.00001);
    near(m.culmination, 0.81965, 0.000005);
    near(m.set, 0.12113, 0.000005);
}

#[test]
fn never_rises_never_sets() {
    assert_eq!(at_boston(-60.0), Err(Refusal::NeverRises));
    assert_eq!(at_boston(60.0), Err(Refusal::NeverSets));
    assert_eq!((Refusal::NeverRises.number(), Refusal::NeverSets.number()), (15, 16));
    assert_eq!(Refusal::NeverRises.to_string(), "refused by 15: the star never rises: it stays below the standard altitude");
    assert_eq!(Refusal::NeverSets.to_string(), "refused by 16: the star never sets: it stays above the standard altitude");
    // What is tested first.
    assert_eq!(at_midnight(-1.5, 1.5, f64::NAN), Err(Refusal::NotFinite));
    assert_eq!(at_midnight(-1.5, 1.5, 1.6), Err(Refusal::Angle));
    assert_eq!(at_midnight(-1.5705, 1.5, 0.0), Err(Refusal::Steep));
    assert_eq!(at_midnight(-1.5, 1.5705, 0.0), Err(Refusal::Steep));
}

/// A star that only touches the standard altitude: at its culmination, or half a day from it.
#[test]
fn touching_is_answered() {
    assert_eq!(at_midnight(0.0, 0.0, FRAC_PI_2), Ok(DayFractions { rise: 0.0, culmination: 0.0, set: 0.0 }));
    assert_eq!(at_midnight(0.0, 0.0, -FRAC_PI_2), Ok(DayFractions { rise: 0.5, culmination: 0.0, set: 0.5 }));
}

/// A star of the equator seen from it is up for half the day, and rises later the farther west one is.
#[test]
fn west_is_later() {
    let m = |long| rise_culm_set(&EqPoint { asc: 0.0, dec: 0.0 }, 0.0, &GeographPoint { long, lat: 0.0 }, 0.0).unwrap();
    assert_eq!(m(0.0), DayFractions { rise: 0.75, culmination: 0.0, set: 0.25 });
    assert_eq!(m(FRAC_PI_2), DayFractions { rise: 0.0, culmination: 0.25, set: 0.5 });
    assert_eq!(m(PI), DayFractions { rise: 0.25, culmination: 0.5, set: 0.75 });
    // Before 0h by less than the doubles beside 1 tell apart.
    assert_eq!(m(-1e-20).culmination, 1.0);
}

/// Declination negated with latitude changes no bit and no refusal. Each fraction is from 0 to 1, and the altitude at rise and set is the
/// standard one.
#[test]
fn across_the_equator() {
    let mut state = 1u64;
    let mut within = |size: f64| {
        state = state.wrapping_mul(6364136223846793005).wrapping_add(1442695040888963407);
        ((state >> 11) as f64 / 4503599627370496.0 - 1.0) * size
    };
    let mut met = [0; 17];
    for _ in 0..40000 {
        let (star, sidereal) = (EqPoint { asc: within(7.0), dec: within(1.58) }, within(7.0));
        let (place, alt) = (GeographPoint { long: within(4.0), lat: within(1.58) }, within(0.8));
        let here = rise_culm_set(&star, sidereal, &place, alt);
        let there = rise_culm_set(&EqPoint { dec: -star.dec, ..star }, sidereal, &GeographPoint { lat: -place.lat, ..place }, alt);
        match (here, there) {
            (Ok(m), Ok(n)) => {
                let pairs = [(m.rise, n.rise), (m.culmination, n.culmination), (m.set, n.set)];
                assert!(pairs.iter().all(|(x, y)| x.to_bits() == y.to_bits() && 0.0 <= *x && *x <= 1.0));
                for time in [m.rise, m.set].iter() {
                    let hour_angle = coords::hr_angl_frm_observer_long(sidereal + 2.0 * PI * time, place.long, star.asc).unwrap();
                    near(coords::alt_frm_eq(hour_angle, star.dec, place.lat).unwrap(), alt, 1e-12);
                }
            }
            (here, there) => assert_eq!(here, there),
        }
        met[here.map_or_else(Refusal::number, |_| 0) as usize] += 1;
    }
    assert!([0, 3, 4, 15, 16].iter().all(|&n| met[n] > 20), "statuses met: {:?}", met);
}
