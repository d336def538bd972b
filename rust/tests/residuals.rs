//! The residual sheet: what is taken in, rounded, set aside and refused, and parts of a night merged.
use brundelak::residuals::{residuals, Sheet};
use brundelak::{batch, list, Refusal};
use std::f64::consts::PI;

/// An angle of so many milliarcseconds, as nearly as doubles have it.
fn angle(milliarcseconds: f64) -> f64 {
    milliarcseconds / 3600000.0 / 180.0 * PI
}

/// What an angle is before it is rounded.
fn unrounded(x: f64) -> f64 {
    x * (180.0 / PI) * 3600000.0
}

/// An angle that is so many milliarcseconds and a half, bit for bit.
fn half_above(whole: u64) -> Option<f64> {
    let wanted = whole as f64 + 0.5;
    let first = angle(wanted).to_bits() - 8;
    (first..first + 16).map(f64::from_bits).find(|&x| unrounded(x) == wanted)
}

/// The sheets of angles that are measured at 0.
fn from_zero(status: &[u8], asc: &[f64], dec: &[f64]) -> Result<(Sheet, Sheet), Refusal> {
    let zeros = vec![0.0; status.len()];
    residuals(status, asc, dec, &zeros, &zeros)
}

/// The sheet of declinations of so many milliarcseconds, all of status 0.
fn of_counts(counts: &[f64]) -> Sheet {
    let dec: Vec<f64> = counts.iter().map(|&n| angle(n)).collect();
    from_zero(&vec![0; dec.len()], &dec, &dec).unwrap().1
}

#[test]
fn figures_are_those_of_the_residuals_taken_in() {
    let sheet = of_counts(&[3.0, -5.0, 0.0, 5.0, 2000000.0, -1.0]);
    assert_eq!(sheet, Sheet { count: 5, sum: 2, squares: 60, largest: 5, place: 1, aside: 1 });
    assert_eq!(sheet.mean(), Some(0.4));
    assert_eq!(sheet.root_mean_square(), Some(12.0f64.sqrt()));
}

#[test]
fn computed_is_less_measured() {
    let (asc, dec) = residuals(&[0], &[1.0], &[0.5], &[1.0 + angle(7.0)], &[0.5 - angle(9.0)]).unwrap();
    assert_eq!((asc.sum, dec.sum), (-7, 9));
}

#[test]
fn a_night_without_entries_has_an_empty_sheet() {
    let none = (Sheet::default(), Sheet::default());
    assert_eq!(from_zero(&[], &[], &[]), Ok(none));
    // nor has one whose stars were all refused
    assert_eq!(from_zero(&[7, 255], &[1.0, 2.0], &[1.0, 2.0]), Ok(none));
    assert_eq!((none.0.mean(), none.0.root_mean_square()), (None, None));
}

#[test]
fn a_place_counts_entries_of_every_status() {
    let dec = [4.0, -9.0, 3.0, -9.0].map(angle);
    let place = |status: &[u8]| from_zero(status, &dec, &dec).unwrap().1.place;
    assert_eq!(place(&[0, 0, 0, 0]), 1);
    assert_eq!(place(&[0, 1, 0, 0]), 3);
    assert_eq!(place(&[3, 4, 0, 9]), 2);
}

#[test]
fn where_all_are_zero_the_place_is_that_of_the_first_taken_in() {
    let sheet = from_zero(&[9, 0, 0], &[0.0; 3], &[2.0, 0.0, 0.0]).unwrap().1;
    assert_eq!(sheet, Sheet { count: 2, place: 1, ..Sheet::default() });
    // what is set aside before it is not taken in
    let sheet = from_zero(&[0, 0, 0], &[0.0; 3], &[2.0, 0.0, 0.0]).unwrap().1;
    assert_eq!(sheet, Sheet { count: 2, place: 1, aside: 1, ..Sheet::default() });
}

#[test]
fn halves_go_away_from_zero() {
    let mut met = 0;
    for whole in 0..400 {
        if let Some(x) = half_above(whole) {
            let sum = |x: f64| from_zero(&[0], &[0.0], &[x]).unwrap().1.sum;
            assert_eq!((sum(x), sum(-x)), (whole as i64 + 1, -(whole as i64) - 1));
            met += 1;
        }
    }
    assert!(met > 100, "{} halves", met);
}

#[test]
fn a_million_is_taken_in_and_one_more_is_not() {
    for sign in [1.0, -1.0] {
        assert_eq!(of_counts(&[sign * 1000000.4]).largest, 1000000);
        assert_eq!(of_counts(&[sign * 1000000.6]), Sheet { aside: 1, ..Sheet::default() });
    }
    // one coordinate is set aside, the other is not
    let (asc, dec) = from_zero(&[0], &[1.0], &[angle(8.0)]).unwrap();
    assert_eq!((asc.count, asc.aside, dec.count, dec.aside), (0, 1, 1, 0));
}

#[test]
fn right_ascension_is_taken_across_the_turn_and_declination_is_not() {
    let near = angle(50.0);
    for (computed, measured, sum) in [(near, 2.0 * PI - near, 100), (2.0 * PI - near, near, -100), (10.0 * PI + near, 4.0 * PI, 50)] {
        let (asc, dec) = residuals(&[0], &[computed], &[computed], &[measured], &[measured]).unwrap();
        assert_eq!((asc.sum, asc.aside, dec.count, dec.aside), (sum, 0, 0, 1));
    }
}

#[test]
fn slices_must_have_one_length_and_no_more_entries_than_a_list_has_stars() {
    let (status, angles) = ([0; list::MOST_STARS + 1], [0.0; list::MOST_STARS + 1]);
    for n in [0, 1, list::MOST_STARS - 1, list::MOST_STARS] {
        let count = |a: usize, b: usize, c: usize, d: usize, e: usize| {
            residuals(&status[..a], &angles[..b], &angles[..c], &angles[..d], &angles[..e]).map(|sheets| sheets.0.count)
        };
        assert_eq!(count(n, n, n, n, n), Ok(n as i64));
        let k = n + 1;
        for one in [count(k, n, n, n, n), count(n, k, n, n, n), count(n, n, k, n, n), count(n, n, n, k, n), count(n, n, n, n, k)] {
            assert_eq!(one, Err(Refusal::from_number(8).unwrap()));
        }
    }
    assert_eq!(residuals(&status, &angles, &angles, &angles, &angles), Err(Refusal::from_number(8).unwrap()));
}

#[test]
fn every_float_is_tested_whatever_the_status() {
    let beyond = f64::from_bits(64.0f64.to_bits() + 1);
    for status in [0, 3, 255] {
        for slice in 0..4 {
            let refusal = |x: f64, other: f64| {
                let mut all = [[1.0, 1.0, other]; 4];
                all[slice][1] = x;
                residuals(&[0, status, 0], &all[0], &all[1], &all[2], &all[3]).map_err(|refusal| refusal.number()).err()
            };
            assert_eq!((refusal(64.0, -64.0), refusal(-64.0, 64.0)), (None, None));
            assert_eq!((refusal(beyond, 1.0), refusal(-beyond, 1.0)), (Some(3), Some(3)));
            for x in [f64::NAN, f64::INFINITY, f64::NEG_INFINITY] {
                assert_eq!((refusal(x, 1.0), refusal(x, 65.0), refusal(beyond, x)), (Some(1), Some(1), Some(1)));
            }
        }
    }
    // lengths come first
    assert_eq!(residuals(&[0], &[f64::NAN], &[65.0], &[0.0], &[]), Err(Refusal::from_number(8).unwrap()));
}

/// So many entries, of sizes from few, so that the largest is met more than once; some refused, some set aside.
fn night(entries: u64, seed: u64) -> (Vec<u8>, Vec<f64>) {
    let drawn = |i: u64, n: u64| {
        let bits = (i + seed).wrapping_mul(0x9E3779B97F4A7C15).rotate_left(23).wrapping_mul(0xBF58476D1CE4E5B9);
        (bits >> 40) % n
    };
    (0..entries)
        .map(|i| {
            let size = [0.0, 3.0, 8.0, 8.0, 1500000.0][drawn(i, 5) as usize];
            ((drawn(i + 7000, 4) == 3) as u8 * 7, angle(if drawn(i + 9000, 2) == 1 { -size } else { size }))
        })
        .unzip()
}

/// Its part from one entry up to another.
fn part(night: &(Vec<u8>, Vec<f64>), from: usize, to: usize) -> Sheet {
    from_zero(&night.0[from..to], &night.1[from..to], &night.1[from..to]).unwrap().1
}

#[test]
fn parts_merged_are_the_whole_in_every_order_and_grouping() {
    for seed in 0..200 {
        let all = night(9, 100 * seed);
        let whole = part(&all, 0, 9);
        for i in 0..10 {
            let (first, rest) = (part(&all, 0, i), part(&all, i, 9));
            assert_eq!(first.merge(rest, i), whole);
            // the second part first: it is moved on by itself, the first by nothing
            assert_eq!(Sheet::default().merge(rest, i).merge(first, 0), whole);
            for j in i..10 {
                let (middle, last) = (part(&all, i, j), part(&all, j, 9));
                assert_eq!(first.merge(middle, i).merge(last, j), whole);
                assert_eq!(first.merge(middle.merge(last, j - i), i), whole);
            }
        }
        assert_eq!((whole.merge(Sheet::default(), 9), Sheet::default().merge(whole, 0)), (whole, whole));
    }
}

#[test]
fn a_sheet_of_what_was_set_aside_alone_has_no_place_to_move() {
    let aside = of_counts(&[2000000.0]);
    assert_eq!(aside.merge(aside, 1), Sheet { aside: 2, ..Sheet::default() });
    assert_eq!(aside.merge(of_counts(&[0.0, 1.0]), 1).place, 2);
    assert_eq!(of_counts(&[0.0]).merge(aside, 1).place, 0);
}

#[test]
fn the_widest_night_fits() {
    let n = list::MOST_STARS;
    let sheet = of_counts(&vec![-1000000.0; n]);
    assert_eq!((sheet.count, sheet.sum, sheet.squares, sheet.largest), (n as i64, -3000000000, 3000000000000000, 1000000));
    assert_eq!((sheet.mean(), sheet.root_mean_square()), (Some(-1000000.0), Some(1000000.0)));
    let all = (0..n).fold(Sheet::default(), |all, i| all.merge(sheet, n * i));
    assert_eq!(all.squares, 9000000000000000000);
}

#[test]
fn a_batch_measured_as_it_was_computed_leaves_nothing() {
    let mut bytes = vec![0; 3 * list::RECORD_BYTES];
    list::add(&mut bytes, list::Star::still(7, 3600000, -7200000)).unwrap();
    list::add(&mut bytes, list::Star::still(8, 1295999999, 7200000)).unwrap();
    let (mut status, mut asc, mut dec) = ([9; 3], [9.0; 3], [9.0; 3]);
    batch::batch(&bytes, 2451545.0, 2462088.69, &mut status, &mut asc, &mut dec).unwrap();
    let sheet = Sheet { count: 2, ..Sheet::default() };
    assert_eq!(residuals(&status, &asc, &dec, &asc, &dec), Ok((sheet, sheet)));
}
