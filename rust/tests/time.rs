//! Sidereal time at Greenwich: Meeus's examples 12.a and 12.b, the turn, and refusals.
use brundelak::{time, Refusal};
use std::f64::consts::PI;

/// Radians from hours, minutes and seconds.
fn hours(h: f64, m: f64, s: f64) -> f64 {
    (h + m / 60.0 + s / 3600.0) / 12.0 * PI
}

#[test]
fn examples_of_chapter_12() {
    let second = PI / 43200.0;
    assert!((time::mean_sidereal(2446895.5).unwrap() - hours(13.0, 10.0, 46.3668)).abs() < 0.00005 * second);
    assert!((time::apparent_sidereal(2446895.5).unwrap() - hours(13.0, 10.0, 46.1351)).abs() < 0.00005 * second);
    assert!((time::mean_sidereal(2446896.30625).unwrap() - hours(8.0, 34.0, 57.0896)).abs() < 0.00005 * second);
}

#[test]
fn every_day_lies_within_a_turn() {
    for k in 0..2000 {
        let day = 1721045.0 + 730.5 * f64::from(k) + 0.3;
        for answer in [time::mean_sidereal(day).unwrap(), time::apparent_sidereal(day).unwrap()] {
            assert!((0.0..=2.0 * PI).contains(&answer), "{} on {}", answer, day);
        }
    }
}

#[test]
fn no_day_no_time() {
    for (day, refusal) in [(f64::NAN, Refusal::NotFinite), (f64::INFINITY, Refusal::NotFinite), (3182045.5, Refusal::Day), (0.0, Refusal::Day)] {
        assert_eq!(time::mean_sidereal(day), Err(refusal));
        assert_eq!(time::apparent_sidereal(day), Err(refusal));
    }
}
