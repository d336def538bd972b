//! One rotation for the whole list through the crate: beside precession and beside the batch, its refusals, and what it leaves alone.
use brundelak::list::{Star, MOST_BYTES, RECORD_BYTES};
use brundelak::{batch, list, precess, rotation, Edition, Refusal};
use std::f64::consts::{FRAC_PI_2, PI};

const DAY1: f64 = 2415020.5;
const DAY2: f64 = 2462088.69;
const EDITIONS: [Edition; 2] = [Edition::Crate, Edition::Published];

fn list_of(stars: &[Star]) -> Vec<u8> {
    let mut bytes = vec![0; RECORD_BYTES * stars.len()];
    for (i, &star) in stars.iter().enumerate() {
        list::put_star(&mut bytes, RECORD_BYTES * i, star).unwrap();
    }
    bytes
}

/// Stars all over the sky, none within a degree of a pole.
fn sky() -> Vec<Star> {
    (0..500u32)
        .map(|k| Star {
            number: 1 + k,
            asc: k.wrapping_mul(2654435761) % 1296000000,
            dec: (k as i32 * 7919 % 179 - 89) * 3600000,
            asc_rate: k as i32 - 250,
            dec_rate: 250 - k as i32,
        })
        .collect()
}

/// An angle taken back into half a turn either way.
fn within_half_a_turn(x: f64) -> f64 {
    x - 2.0 * PI * (x / (2.0 * PI)).round()
}

#[test]
fn a_star_stands_where_precession_brings_it() {
    let (stars, years) = (sky(), (DAY2 - DAY1) / 365.25);
    for edition in EDITIONS {
        let rotated = rotation::rotated_by(edition, &list_of(&stars), DAY1, DAY2).unwrap();
        assert_eq!(rotated.len(), stars.len());
        for (star, place) in rotated {
            let radians = |count: f64| (count / 3600000.0).to_radians();
            let asc = radians(star.asc as f64) + radians(star.asc_rate as f64) * years;
            let dec = radians(star.dec as f64) + radians(star.dec_rate as f64) * years;
            let (place, precessed) = (place.unwrap(), precess::precess_eq_coords_by(edition, asc, dec, DAY1, DAY2).unwrap());
            assert!(place.asc.abs() <= PI && place.dec.abs() <= FRAC_PI_2, "{:?}", place);
            assert!(within_half_a_turn(place.asc - precessed.0).abs() < 1e-12, "{:?} {:?}", star, place);
            assert!((place.dec - precessed.1).abs() < 1e-12, "{:?} {:?}", star, place);
        }
    }
}

#[test]
fn between_equal_days_nothing_turns_and_nothing_moves() {
    let star = Star { number: 7, asc: 216000000, dec: -108000000, asc_rate: 20000, dec_rate: -20000 };
    for edition in EDITIONS {
        let place = rotation::rotated_by(edition, &list_of(&[star]), DAY2, DAY2).unwrap()[0].1.unwrap();
        assert!((place.asc - PI / 3.0).abs() < 1e-15 && (place.dec + PI / 6.0).abs() < 1e-15, "{:?}", place);
    }
}

#[test]
fn it_is_not_the_batch_and_the_editions_differ() {
    let bytes = list_of(&sky());
    let crates = rotation::rotated(&bytes, DAY1, DAY2).unwrap();
    assert_eq!(crates, rotation::rotated_by(Edition::Crate, &bytes, DAY1, DAY2).unwrap());
    assert_ne!(crates, rotation::rotated_by(Edition::Published, &bytes, DAY1, DAY2).unwrap());
    assert_ne!(crates, batch::reduced(&bytes, DAY1, DAY2).unwrap());
}

/// From 2002827.5 to 2914752.5 the first comes too near to the pole; the second is past it by then.
const REFUSED: [Star; 2] = [
    Star::still(1, 1238378275, 275135987),
    Star { number: 2, asc: 0, dec: 323000000, asc_rate: 0, dec_rate: 20000 },
];

#[test]
fn stars_are_refused_by_7_3_9_and_10_beside_any_other() {
    let day = (2002827.5, 2914752.5);
    let mut bytes = list_of(&[REFUSED[0], REFUSED[1], Star::still(5, 0, 0), Star::still(5, 0, 0), Star::still(4, 0, 0)]);
    // What no writer writes: a record out of range, and an empty place with the same rest.
    for (i, number) in [(2, 3u8), (3, 0)].iter() {
        bytes[RECORD_BYTES * i..RECORD_BYTES * i + 8].copy_from_slice(&[*number, 0, 0, 0, 0x00, 0x64, 0x3F, 0x4D]);
    }
    let (mut status, mut asc, mut dec) = ([77; 5], [1.0; 5], [1.0; 5]);
    let tally = rotation::rotate(&bytes, day.0, day.1, &mut status, &mut asc, &mut dec).unwrap();
    assert_eq!(status, [7, 3, 9, 10, 0]);
    assert_eq!((asc[..4].to_vec(), dec[..4].to_vec()), (vec![0.0; 4], vec![0.0; 4]));
    assert_eq!((tally[0], tally[3], tally[7], tally[9], tally[10], tally.iter().sum::<u32>()), (1, 1, 1, 1, 1, 5));
    let alone = rotation::rotated(&list_of(&[Star::still(4, 0, 0)]), day.0, day.1).unwrap()[0].1.unwrap();
    assert_eq!((alone.asc.to_bits(), alone.dec.to_bits()), (asc[4].to_bits(), dec[4].to_bits()));
    let shown: Vec<_> = batch::places(&status, &asc, &dec).map(|place| place.err()).collect();
    assert_eq!(shown[..2], [Some(Refusal::Arcsine), Some(Refusal::Angle)]);
}

#[test]
fn a_refused_call_leaves_every_bit() {
    let bytes = list_of(&sky()[..3]);
    let nan = f64::from_bits(0x7FF4A5A5A5A50003);
    for edition in EDITIONS {
        let (mut status, mut asc, mut dec) = ([77; 5], [nan; 5], [nan; 5]);
        for (list, day2, places, refusal) in [
            (&bytes[..], f64::NAN, 5, Refusal::NotFinite),
            (&bytes[..], 0.0, 5, Refusal::Day),
            (&bytes[1..], DAY2, 5, Refusal::List),
            (&bytes[..], DAY2, 2, Refusal::List),
        ] {
            let answer = rotation::rotate_by(edition, list, DAY1, day2, &mut status, &mut asc[..places], &mut dec);
            assert_eq!((answer, status), (Err(refusal), [77; 5]));
            assert!(asc.iter().chain(&dec).all(|x| x.to_bits() == nan.to_bits()));
        }
        rotation::rotate_by(edition, &bytes, DAY1, DAY2, &mut status, &mut asc, &mut dec).unwrap();
        assert_eq!(status, [0, 0, 0, 77, 77]);
        assert!(asc[3..].iter().chain(&dec[3..]).all(|x| x.to_bits() == nan.to_bits()));
    }
    assert_eq!(rotation::rotated(&vec![0; MOST_BYTES + RECORD_BYTES], DAY1, DAY2), Err(Refusal::List));
    assert_eq!(rotation::rotated(&[0; MOST_BYTES], DAY1, DAY2), Ok(vec![]));
}

/// Negate a right ascension, and the rotated place is not the mirrored one: the axes turn one way for both.
#[test]
fn the_mirror_in_right_ascension_is_not_kept() {
    let at = |asc| rotation::rotated(&list_of(&[Star::still(1, asc, 108000000)]), DAY1, DAY2).unwrap()[0].1.unwrap();
    let (place, mirrored) = (at(412529612), at(1296000000 - 412529612));
    assert!((place.dec - mirrored.dec).abs() > 1e-5);
}
