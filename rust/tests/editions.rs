//! The editions through the crate: the crate's is what the function without an edition gives, the published one is Meeus's.
use brundelak::coords::{EclPoint, GeographPoint};
use brundelak::Edition::{Crate, Published};
use brundelak::*;
use std::f64::consts::FRAC_PI_2;

const J2000: f64 = 2451545.0;

fn near(x: f64, y: f64, within: f64) {
    assert!((x - y).abs() <= within, "{} is not within {} of {}", x, within, y);
}

fn deg(x: f64) -> f64 {
    angle::to_radians(x).unwrap()
}

/// Numbers that look random, from 0 to 1, always the same.
fn parts(seed: u64) -> impl Iterator<Item = f64> {
    let mut state = seed;
    std::iter::repeat_with(move || {
        state = state.wrapping_mul(6364136223846793005).wrapping_add(1442695040888963407);
        (state >> 11) as f64 / 9007199254740992.0
    })
}

/// Meeus, example 13.b back, from the azimuth and altitude that it gives.
#[test]
fn meeus_13_b_back() {
    let (h, dec, lat) = (deg(64.352133), deg(-6.719892), deg(38.921389));
    let (az, alt) = (coords::az_frm_eq(h, dec, lat).unwrap(), coords::alt_frm_eq(h, dec, lat).unwrap());
    near(coords::dec_frm_hz_by(Published, az, alt, lat).unwrap(), dec, deg(0.0000005));
    assert_eq!(coords::dec_frm_hz_by(Crate, az, alt, lat), coords::dec_frm_hz(az, alt, lat));
    assert!((coords::dec_frm_hz(az, alt, lat).unwrap() - dec).abs() > deg(1.0));
}

/// Meeus, example 21.b back: its second day is not J2000.
#[test]
fn meeus_21_b_back() {
    let (asc, dec) = precess::precess_eq_coords_by(Published, deg(41.547214), deg(49.348483), 2462088.69, J2000).unwrap();
    near(asc, deg(41.054063), deg(0.0000005));
    near(dec, deg(49.227750), deg(0.0000005));
    let (asc, _) = precess::precess_eq_coords_by(Crate, deg(41.547214), deg(49.348483), 2462088.69, J2000).unwrap();
    assert!((asc - deg(41.054063)).abs() > deg(0.00002));
}

/// Meeus, the exercise of chapter 40.
#[test]
fn meeus_40_exercise() {
    let place = GeographPoint { long: 0.0, lat: deg(50.0855) };
    let body = EclPoint { long: deg(181.77291666666667), lat: deg(2.290611111111111) };
    let (p, semidiameter) = parallax::topopcent_ecl_coords_by(
        Published, &body, deg(0.9910277777777778), &place, 0.0, deg(209.7688611111111), deg(23.46688888888889), deg(0.2709722222222222),
    )
    .unwrap();
    near(p.long, deg(181.0 + 48.0 / 60.0 + 5.0 / 3600.0), deg(0.05 / 3600.0));
    near(p.lat, deg(1.0 + 29.0 / 60.0 + 7.1 / 3600.0), deg(0.05 / 3600.0));
    near(semidiameter, deg(16.0 / 60.0 + 25.5 / 3600.0), deg(0.05 / 3600.0));
}

/// Of J2000 the editions of FK5 precession agree, since T is zero; of FK4 they do not.
#[test]
fn editions_from_j2000() {
    let by = |edition| precess::precess_eq_coords_by(edition, 0.7, 0.3, J2000, 2462088.69);
    assert_eq!(by(Crate), by(Published));
    let by = |edition| precess::precess_eq_coords_FK5_by(edition, 0.7, 0.3, 2433282.4235, J2000);
    assert_eq!(by(Crate), precess::precess_eq_coords_FK5(0.7, 0.3, 2433282.4235, J2000));
    // FK4's precession and FK5's differ by less than a tenth of a second of arc over half a century.
    let (asc, dec) = by(Published).unwrap();
    let (fk5_asc, fk5_dec) = precess::precess_eq_coords_by(Published, 0.7, 0.3, 2433282.4235, J2000).unwrap();
    near(asc, fk5_asc, deg(1.0 / 3600.0));
    near(dec, fk5_dec, deg(1.0 / 3600.0));
}

/// The published latitude stays on this side of the pole, and the editions agree in longitude.
#[test]
fn published_latitude() {
    let mut next = parts(1);
    let mut beyond = 0;
    for _ in 0..20000 {
        let mut within = |size: f64| (2.0 * next.next().unwrap() - 1.0) * size;
        let body = EclPoint { long: within(6.0), lat: within(1.5) };
        let place = GeographPoint { long: within(3.0), lat: within(1.5) };
        let (parallax, height, sidereal, oblq) = (within(0.02), within(900.0), within(6.0), within(0.5));
        let by = |edition| parallax::topopcent_ecl_coords_by(edition, &body, parallax, &place, height, sidereal, oblq, 0.005);
        let ((ours, _), (theirs, _)) = (by(Published).unwrap(), by(Crate).unwrap());
        assert!(ours.lat.abs() <= FRAC_PI_2);
        assert_eq!(ours.long.to_bits(), theirs.long.to_bits());
        beyond += (theirs.lat.abs() > FRAC_PI_2) as u32;
    }
    assert!(beyond > 5000);
}

/// The chain and the batch go by the edition that they are given.
#[test]
fn chain_and_batch() {
    let (day1, day2) = (2415020.5, 2462088.69);
    let record: [u32; 5] = [7, 149615907, 177667376, 0, 0];
    let bytes: Vec<u8> = record.iter().flat_map(|w| w.to_le_bytes()).collect();
    let place = |count: u32| deg(count as f64 / 3600000.0);
    let (old, new) = (chain::chain(place(record[1]), place(record[2]), day1, day2), chain::chain_by(Published, place(record[1]), place(record[2]), day1, day2));
    assert_eq!(old, chain::chain_by(Crate, place(record[1]), place(record[2]), day1, day2));
    assert_ne!(old, new);
    for (edition, star) in [(Crate, old.unwrap()), (Published, new.unwrap())] {
        let (mut status, mut asc, mut dec) = ([9], [0.0], [0.0]);
        let tally = batch::batch_by(edition, &bytes, day1, day2, &mut status, &mut asc, &mut dec).unwrap();
        assert_eq!((status[0], asc[0], dec[0], tally[0]), (0, star.asc, star.dec, 1));
    }
}
