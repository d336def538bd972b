//! The stored list through the crate: read by an iterator, written star by star, reduced to results, and moved between widths; with empty
//! places in it.
use brundelak::coords::EqPoint;
use brundelak::list::{self, Star, MOST_BYTES, MOST_NARROW_BYTES, MOST_STARS, NARROW_RECORD_BYTES, RECORD_BYTES};
use brundelak::{angle, batch, chain, radio, Edition, Refusal};

/// Star 9's right ascension is a whole turn, so that its record is out of range; the third star moves.
const STARS: [Star; 3] = [
    Star::still(7, 0, 0),
    Star::still(9, 1296000000, 0),
    Star { number: 7, asc: 3600000, dec: -3600000, asc_rate: 300, dec_rate: -20000 },
];
const LIST: [u8; 3 * RECORD_BYTES] = [
    7, 0, 0, 0, 0, 0, 0, 0, 0, 0, 0, 0, 0, 0, 0, 0, 0, 0, 0, 0, //
    9, 0, 0, 0, 0x00, 0x64, 0x3F, 0x4D, 0, 0, 0, 0, 0, 0, 0, 0, 0, 0, 0, 0, //
    7, 0, 0, 0, 0x80, 0xEE, 0x36, 0x00, 0x80, 0x11, 0xC9, 0xFF, 0x2C, 0x01, 0, 0, 0xE0, 0xB1, 0xFF, 0xFF,
];

#[test]
fn every_star_is_shown_in_order() {
    let mut stars = list::stars(&LIST).unwrap();
    for (i, &star) in STARS.iter().enumerate() {
        assert_eq!(stars.size_hint(), (0, Some(3 - i)));
        assert_eq!(stars.next(), Some(star));
    }
    assert_eq!((stars.size_hint(), stars.next(), stars.next()), ((0, Some(0)), None, None));
    assert_eq!(list::stars(&[]).unwrap().count(), 0);
    assert_eq!(list::stars(&[1; MOST_BYTES]).unwrap().count(), MOST_STARS);
}

#[test]
fn bytes_that_are_no_list_have_no_stars() {
    for len in [1, RECORD_BYTES - 1, RECORD_BYTES + 1, LIST.len() - 1, MOST_BYTES + RECORD_BYTES] {
        assert_eq!(list::stars(&vec![0; len]).err(), Some(Refusal::List), "{} bytes", len);
    }
}

#[test]
fn stars_that_are_written_are_read_back() {
    const ONE: usize = RECORD_BYTES;
    const TWO: usize = 2 * RECORD_BYTES;
    let (mut out, mut end) = ([0xA5; TWO + 6], 0);
    for &star in &[STARS[0], STARS[2]] {
        end = list::put_star(&mut out, end, star).unwrap();
    }
    assert_eq!((end, &out[TWO..]), (TWO, &[0xA5; 6][..]));
    assert_eq!(out[..TWO], [&LIST[..ONE], &LIST[TWO..]].concat()[..]);
    assert!(list::stars(&out[..end]).unwrap().eq([STARS[0], STARS[2]]));
    // One is written over, and no other byte.
    assert_eq!(list::put_star(&mut out, 0, STARS[2]), Ok(ONE));
    assert_eq!((&out[..ONE], &out[ONE..TWO], &out[TWO..]), (&LIST[TWO..], &LIST[TWO..], &[0xA5; 6][..]));
}

#[test]
fn a_star_that_is_not_written_leaves_every_byte() {
    const ROOM: usize = MOST_BYTES + 2 * RECORD_BYTES;
    let mut out = vec![0xA5; ROOM];
    let refused = [
        (ROOM, 0, STARS[1], Refusal::Record),
        (ROOM, 1, STARS[1], Refusal::Record),
        (ROOM, 0, Star { dec: 324000001, ..STARS[0] }, Refusal::Record),
        (ROOM, 0, Star { dec: i32::MIN, ..STARS[0] }, Refusal::Record),
        (ROOM, 0, Star { asc_rate: 20001, ..STARS[0] }, Refusal::Record),
        (ROOM, 0, Star { asc_rate: i32::MIN, ..STARS[0] }, Refusal::Record),
        (ROOM, 1, Star { dec_rate: -20001, ..STARS[0] }, Refusal::Record),
        (ROOM, 0, Star { dec_rate: i32::MIN, ..STARS[0] }, Refusal::Record),
        (ROOM, 1, STARS[0], Refusal::List),
        (ROOM, MOST_BYTES, STARS[0], Refusal::List),
        (ROOM, usize::MAX - 3, STARS[0], Refusal::List),
        (RECORD_BYTES - 1, 0, STARS[0], Refusal::List),
        (3 * RECORD_BYTES - 1, 2 * RECORD_BYTES, STARS[0], Refusal::List),
        (0, 0, STARS[0], Refusal::List),
    ];
    for (len, place, star, refusal) in refused {
        assert_eq!(list::put_star(&mut out[..len], place, star), Err(refusal), "{} of {}", place, len);
    }
    assert!(out.iter().all(|&b| b == 0xA5));
    // The last place of the longest list.
    assert_eq!(list::put_star(&mut out, MOST_BYTES - RECORD_BYTES, STARS[0]), Ok(MOST_BYTES));
}

/// A star's coordinates in radians, each with its rate in radians times the years between the days.
fn shifted(star: Star, day1: f64, day2: f64) -> (f64, f64) {
    let radians = |count: f64| angle::to_radians(count / 3600000.0).unwrap();
    let years = (day2 - day1) / 365.25;
    (
        radians(star.asc.into()) + radians(star.asc_rate.into()) * years,
        radians(star.dec.into()) + radians(star.dec_rate.into()) * years,
    )
}

#[test]
fn each_star_is_its_place_or_its_refusal() {
    let (day1, day2) = (2415020.5, 2462088.69);
    for edition in [Edition::Crate, Edition::Published] {
        let reduced = batch::reduced_by(edition, &LIST, day1, day2).unwrap();
        let by_chain = |star: Star| {
            let (asc, dec) = shifted(star, day1, day2);
            chain::chain_by(edition, asc, dec, day1, day2)
        };
        assert_eq!(reduced, [(STARS[0], by_chain(STARS[0])), (STARS[1], Err(Refusal::Record)), (STARS[2], by_chain(STARS[2]))]);
        assert!(reduced[0].1.is_ok() && reduced[2].1.is_ok());
    }
    assert_eq!(batch::reduced(&LIST, day1, day2), batch::reduced_by(Edition::Crate, &LIST, day1, day2));
    assert_ne!(batch::reduced(&LIST, day1, day2), batch::reduced_by(Edition::Published, &LIST, day1, day2));
    assert_eq!(batch::reduced(&[], day1, day2), Ok(vec![]));
}

#[test]
fn a_refused_batch_has_no_results() {
    assert_eq!(batch::reduced(&LIST[1..], f64::NAN, 0.0), Err(Refusal::NotFinite));
    assert_eq!(batch::reduced(&LIST[1..], 2451545.0, 0.0), Err(Refusal::Day));
    assert_eq!(batch::reduced(&LIST[1..], 2451545.0, 2451545.0), Err(Refusal::List));
    for fill in [0, 1] {
        assert_eq!(batch::reduced(&[fill; MOST_BYTES + RECORD_BYTES], 2451545.0, 2451545.0), Err(Refusal::List));
        assert_eq!(batch::reduced(&[fill; MOST_BYTES + RECORD_BYTES], f64::NAN, 2451545.0), Err(Refusal::NotFinite));
    }
}

/// Bits of NaNs, signalling and quiet, of either sign.
const NANS: [u64; 5] = [0x7FF4A5A5A5A50003, 0xFFF0000000000001, 0xFFFC000000000000, 0x7FF8000000000001, 0xFFFFFFFFFFFFFFFF];

#[test]
fn what_a_batch_does_not_write_stays_bit_for_bit() {
    let bits = |xs: &[f64]| xs.iter().map(|x| x.to_bits()).collect::<Vec<u64>>();
    for edition in [Edition::Crate, Edition::Published] {
        let (mut status, mut asc) = ([77; 5], NANS.map(f64::from_bits));
        let mut dec = asc;
        for (list, day2, stars, refusal) in [
            (&LIST[..], f64::NAN, 5, Refusal::NotFinite),
            (&LIST[..], 0.0, 5, Refusal::Day),
            (&LIST[1..], 2462088.69, 5, Refusal::List),
            (&LIST[..], 2462088.69, 2, Refusal::List),
        ] {
            let answer = batch::batch_by(edition, list, 2451545.0, day2, &mut status, &mut asc, &mut dec[..stars]);
            assert_eq!((answer, status), (Err(refusal), [77; 5]));
            assert_eq!((bits(&asc), bits(&dec)), (NANS.to_vec(), NANS.to_vec()));
        }
        batch::batch_by(edition, &LIST, 2451545.0, 2462088.69, &mut status, &mut asc, &mut dec).unwrap();
        assert_eq!(status, [0, 9, 0, 77, 77]);
        assert!(asc[..3].iter().chain(&dec[..3]).all(|x| x.is_finite()));
        assert_eq!((bits(&asc[3..]), bits(&dec[3..])), (NANS[3..].to_vec(), NANS[3..].to_vec()));
    }
}

#[test]
fn what_a_batch_left_is_read_without_memory() {
    let (mut status, mut asc, mut dec) = ([0; 3], [0.0; 3], [0.0; 3]);
    batch::batch(&LIST, 2451545.0, 2462088.69, &mut status, &mut asc, &mut dec).unwrap();
    let reduced: Vec<_> = batch::reduced(&LIST, 2451545.0, 2462088.69).unwrap().into_iter().map(|(_, place)| place).collect();
    assert!(batch::places(&status, &asc, &dec).eq(reduced.iter().copied()));
    assert!(batch::places(&status[..2], &asc, &dec).eq(reduced[..2].iter().copied()));
}

/// Empty places: of zeros, of what a writer may leave behind the 0, and of what is out of range in every field.
const NOUGHT: Star = Star::still(0, 0, 0);
const LEFT: Star = Star { number: 0, asc: 3600000, dec: -3600000, asc_rate: 300, dec_rate: -20000 };
const FAR: Star = Star { number: 0, asc: u32::MAX, dec: i32::MIN, asc_rate: 20001, dec_rate: i32::MAX };
/// They stand in front, between and behind, alone and side by side.
const HOLED: [Star; 9] = [NOUGHT, FAR, STARS[0], LEFT, STARS[1], STARS[2], FAR, LEFT, NOUGHT];

/// The bytes of some records, in range or not.
fn bytes_of(records: &[Star]) -> Vec<u8> {
    let words = |star: &Star| [star.number, star.asc, star.dec as u32, star.asc_rate as u32, star.dec_rate as u32];
    records.iter().flat_map(|star| words(star).iter().flat_map(|word| word.to_le_bytes()).collect::<Vec<u8>>()).collect()
}

#[test]
fn an_empty_place_is_passed_over() {
    let bytes = bytes_of(&HOLED);
    assert!(list::stars(&bytes).unwrap().eq(STARS));
    // From every record's start, an empty one too: the next star and the place after it.
    let (end, shown) = (bytes.len(), [2, 2, 2, 4, 4, 5]);
    for (i, &at) in shown.iter().enumerate() {
        assert_eq!(list::star(&bytes, RECORD_BYTES * i), Ok(Some((HOLED[at], RECORD_BYTES * (at + 1)))), "record {}", i);
    }
    for place in (RECORD_BYTES * shown.len()..=end).step_by(RECORD_BYTES) {
        assert_eq!(list::star(&bytes, place), Ok(None), "place {}", place);
    }
    for place in [1, RECORD_BYTES - 1, end - 1, end + 1, end + RECORD_BYTES] {
        assert_eq!(list::star(&bytes, place), Err(Refusal::List), "place {}", place);
    }
    // How many are left is at most as many as there are records left.
    let mut stars = list::stars(&bytes).unwrap();
    for left in [9, 6, 4, 3, 3] {
        assert_eq!(stars.size_hint(), (0, Some(left)));
        stars.next();
    }
    for empty in [bytes_of(&[NOUGHT]), bytes_of(&[FAR, LEFT]), vec![0; MOST_BYTES]] {
        assert_eq!((list::stars(&empty).unwrap().next(), list::star(&empty, empty.len())), (None, Ok(None)));
    }
}

#[test]
fn an_empty_place_is_never_found_and_counts_in_an_index() {
    let bytes = bytes_of(&HOLED);
    assert_eq!(list::find(&bytes, 7), Ok((2, STARS[0])));
    assert_eq!(list::find(&bytes, 9), Err(Refusal::Record));
    for empty in [&bytes[..], &[], &[0; RECORD_BYTES], &bytes_of(&[LEFT]), &bytes_of(&[FAR]), &LIST] {
        assert_eq!(list::find(empty, 0), Err(Refusal::NoStar));
    }
    assert_eq!(list::find(&bytes[1..], 0), Err(Refusal::List));
}

#[test]
fn each_star_has_its_own_result_wherever_places_are_empty() {
    let (day1, day2) = (2415020.5, 2462088.69);
    for edition in [Edition::Crate, Edition::Published] {
        let full = batch::reduced_by(edition, &LIST, day1, day2).unwrap();
        assert_eq!(batch::reduced_by(edition, &bytes_of(&HOLED), day1, day2), Ok(full.clone()));
        // Every way to lay the three stars into five places, the others empty.
        for empty in [NOUGHT, LEFT, FAR] {
            for laid in (0..32u32).filter(|laid| laid.count_ones() == 3) {
                let mut stars = STARS.iter();
                let records: Vec<Star> = (0..5).map(|i| if laid >> i & 1 == 1 { *stars.next().unwrap() } else { empty }).collect();
                assert_eq!(batch::reduced_by(edition, &bytes_of(&records), day1, day2), Ok(full.clone()), "{:05b}", laid);
            }
        }
        assert_eq!(batch::reduced_by(edition, &[0; MOST_BYTES], day1, day2), Ok(vec![]));
    }
}

#[test]
fn an_empty_place_has_status_10_and_is_counted_there() {
    let (day1, day2) = (2415020.5, 2462088.69);
    for edition in [Edition::Crate, Edition::Published] {
        let (mut status, mut asc, mut dec) = ([77; 10], [f64::NAN; 10], [f64::NAN; 10]);
        let tally = batch::batch_by(edition, &bytes_of(&HOLED), day1, day2, &mut status, &mut asc, &mut dec).unwrap();
        assert_eq!(status, [10, 10, 0, 10, 9, 0, 10, 10, 10, 77]);
        assert_eq!((tally[0], tally[9], tally[10], tally.iter().sum::<u32>()), (2, 1, 6, 9));
        // By records: the stars of the full list at their indices, positive zeros elsewhere.
        let by_record: Vec<_> = batch::places(&status[..9], &asc, &dec).collect();
        let full = batch::reduced_by(edition, &LIST, day1, day2).unwrap();
        let empty = Err(Refusal::NoStar);
        assert_eq!(by_record, [empty, empty, full[0].1, empty, full[1].1, full[2].1, empty, empty, empty]);
        for i in [0, 1, 3, 4, 6, 7, 8] {
            assert_eq!((asc[i].to_bits(), dec[i].to_bits()), (0, 0), "record {}", i);
        }
        assert!(asc[9].is_nan() && dec[9].is_nan());
        // A slice must have room for the empty places too.
        assert_eq!(
            batch::batch_by(edition, &bytes_of(&HOLED), day1, day2, &mut status[..3], &mut asc, &mut dec),
            Err(Refusal::List)
        );
    }
}

#[test]
fn an_empty_place_is_written_and_moved_like_any_record() {
    let mut out = [0xA5; RECORD_BYTES];
    for empty in [NOUGHT, LEFT] {
        assert_eq!(list::put_star(&mut out, 0, empty), Ok(RECORD_BYTES));
        assert_eq!((&out[..], list::star(&out, 0)), (&bytes_of(&[empty])[..], Ok(None)));
    }
    assert_eq!(list::put_star(&mut out, 0, FAR), Err(Refusal::Record));
    // Down and up: carried where it is still and in range, else refused as any record.
    let (still, mut narrow, mut wide) = (bytes_of(&[NOUGHT, STARS[0], NOUGHT]), [0xA5; 3 * NARROW_RECORD_BYTES], [0xA5; 3 * RECORD_BYTES]);
    assert_eq!(list::list_20_to_12(&still, &mut narrow), Ok(narrow.len()));
    assert_eq!((list::list_12_to_20(&narrow, &mut wide), &wide[..]), (Ok(wide.len()), &still[..]));
    assert_eq!(list::list_20_to_12(&bytes_of(&[STARS[0], LEFT]), &mut narrow), Err(Refusal::MovingStar));
    assert_eq!(list::list_20_to_12(&bytes_of(&[LEFT, FAR]), &mut narrow), Err(Refusal::Record));
    assert_eq!(list::list_12_to_20(&bytes_of(&[FAR])[..NARROW_RECORD_BYTES], &mut wide), Err(Refusal::Record));
    // In the radio form it is a star of number 0, and comes back as the same empty place.
    let (holed, mut text, mut back) = (bytes_of(&[LEFT, STARS[2], NOUGHT]), [0; 3 * 21 + 3], [0xA5; 3 * RECORD_BYTES]);
    let len = radio::list_to_radio(&holed, &mut text).unwrap();
    let (count, first) = radio::open(&text[..len]).unwrap();
    assert_eq!((count, radio::star(&text[..len], first).map(|(star, _)| star)), (3, Ok(LEFT)));
    assert_eq!((radio::radio_to_list(&text[..len], &mut back), &back[..]), (Ok(back.len()), &holed[..]));
}

/// The list of some stars.
fn list_of(stars: &[Star]) -> Vec<u8> {
    let (mut out, mut end) = (vec![0; RECORD_BYTES * stars.len()], 0);
    for &star in stars {
        end = list::put_star(&mut out, end, star).unwrap();
    }
    out
}

#[test]
fn a_star_without_rates_is_where_the_chain_has_it() {
    let radians = |count: f64| angle::to_radians(count / 3600000.0).unwrap();
    for &(asc, dec) in &[(0, 0), (1, -1), (136636350, 321350800), (1295999999, -323000000), (648000000, 95220000)] {
        let list = list_of(&[Star::still(7, asc, dec)]);
        for &(day1, day2) in &[(2451545.0, 2462088.69), (2462088.69, 2451545.0), (1721045.0, 3182045.0), (2415020.5, 2415020.5)] {
            for edition in [Edition::Crate, Edition::Published] {
                let by_chain = chain::chain_by(edition, radians(asc.into()), radians(dec.into()), day1, day2);
                let reduced = batch::reduced_by(edition, &list, day1, day2).unwrap()[0].1;
                let bits = |place: Result<EqPoint, Refusal>| place.map(|p| (p.asc.to_bits(), p.dec.to_bits()));
                assert_eq!(bits(reduced), bits(by_chain), "{} {} from {} to {}", asc, dec, day1, day2);
            }
        }
    }
}

#[test]
fn a_star_that_moves_is_where_the_chain_has_its_shifted_place() {
    let arcturus = Star { number: 5340, asc: 770095050, dec: 69056700, asc_rate: -1158, dec_rate: -1999 };
    for star in [
        arcturus,
        Star { asc_rate: 0, ..arcturus },
        Star { dec_rate: 0, ..arcturus },
        Star { asc_rate: 20000, dec_rate: -20000, ..arcturus },
        Star { asc: 1295999999, asc_rate: 20000, ..arcturus },
        Star { asc: 0, asc_rate: -20000, ..arcturus },
    ] {
        for &(day1, day2) in &[(2451545.0, 2462088.69), (2462088.69, 2451545.0), (1721045.0, 3182045.0), (2415020.5, 2415020.5)] {
            let (asc, dec) = shifted(star, day1, day2);
            for edition in [Edition::Crate, Edition::Published] {
                let reduced = batch::reduced_by(edition, &list_of(&[star]), day1, day2).unwrap()[0].1;
                assert!(reduced.is_ok());
                assert_eq!(reduced, chain::chain_by(edition, asc, dec, day1, day2), "{:?} from {} to {}", star, day1, day2);
                let still = Star::still(star.number, star.asc, star.dec);
                assert_eq!(day1 == day2, batch::reduced_by(edition, &list_of(&[still]), day1, day2).unwrap()[0].1 == reduced);
            }
        }
    }
}

#[test]
fn a_star_that_moves_past_the_pole_is_refused_by_3() {
    let (day1, day2) = (2451545.0, 2453736.5);
    let pole = Star { dec_rate: 1, ..Star::still(1, 0, 324000000) };
    let south = Star { dec: -324000000, dec_rate: -1, ..pole };
    let damaged = [1, 0, 0, 0, 0, 0, 0, 0, 0x00, 0xD9, 0x4F, 0x13, 0x21, 0x4E, 0, 0, 1, 0, 0, 0];
    let list = [list_of(&[pole, south, Star { dec_rate: 0, ..pole }, Star { dec_rate: -1000, ..pole }]), damaged.to_vec()].concat();
    let refusals = |day1, day2| batch::reduced(&list, day1, day2).unwrap().iter().map(|(_, place)| place.err()).collect::<Vec<_>>();
    // At the pole itself, and next to it, it is the chain that refuses; a record out of range comes first.
    let (past, steep, record) = (Some(Refusal::Angle), Some(Refusal::Steep), Some(Refusal::Record));
    assert_eq!(refusals(day1, day2), [past, past, steep, steep, record]);
    // Away from the pole, with the days traded; the fourth star's rate now leads past it.
    assert_eq!(refusals(day2, day1), [steep, steep, steep, past, record]);
    assert_eq!(refusals(day1, day1), [steep, steep, steep, steep, record]);
}

/// Two stars of a narrow list, and the same with rates of zero.
const NARROW: [u8; 2 * NARROW_RECORD_BYTES] =
    [7, 0, 0, 0, 0, 0, 0, 0, 0, 0, 0, 0, 0x2C, 0x01, 0, 0, 0x80, 0xEE, 0x36, 0x00, 0x80, 0x11, 0xC9, 0xFF];
const WIDE: [u8; 2 * RECORD_BYTES] = [
    7, 0, 0, 0, 0, 0, 0, 0, 0, 0, 0, 0, 0, 0, 0, 0, 0, 0, 0, 0, //
    0x2C, 0x01, 0, 0, 0x80, 0xEE, 0x36, 0x00, 0x80, 0x11, 0xC9, 0xFF, 0, 0, 0, 0, 0, 0, 0, 0,
];

#[test]
fn a_narrow_list_moves_up_and_back() {
    let (mut wide, mut narrow) = ([0xA5; WIDE.len() + 2], [0xA5; NARROW.len() + 2]);
    assert_eq!(list::list_12_to_20(&NARROW, &mut wide), Ok(WIDE.len()));
    assert_eq!((&wide[..WIDE.len()], &wide[WIDE.len()..]), (&WIDE[..], &[0xA5; 2][..]));
    assert_eq!(list::list_20_to_12(&WIDE, &mut narrow), Ok(NARROW.len()));
    assert_eq!((&narrow[..NARROW.len()], &narrow[NARROW.len()..]), (&NARROW[..], &[0xA5; 2][..]));
    assert_eq!((list::list_12_to_20(&[], &mut wide), list::list_20_to_12(&[], &mut narrow)), (Ok(0), Ok(0)));
    // The longest.
    let (mut wide, mut narrow) = (vec![0xA5; MOST_BYTES], vec![0xA5; MOST_NARROW_BYTES]);
    assert_eq!(list::list_12_to_20(&[0; MOST_NARROW_BYTES], &mut wide), Ok(MOST_BYTES));
    assert_eq!(list::list_20_to_12(&wide, &mut narrow), Ok(MOST_NARROW_BYTES));
    assert_eq!((wide, narrow), (vec![0; MOST_BYTES], vec![0; MOST_NARROW_BYTES]));
}

#[test]
fn a_move_that_is_refused_leaves_the_slice() {
    let mut out = [0xA5; WIDE.len() - 1];
    // up: 8 for the bytes, 9 anywhere, 8 for the slice
    for len in [1, NARROW_RECORD_BYTES + 1, NARROW.len() - 1, RECORD_BYTES, MOST_NARROW_BYTES + NARROW_RECORD_BYTES, MOST_BYTES] {
        assert_eq!(list::list_12_to_20(&vec![0xFF; len], &mut out), Err(Refusal::List), "{} bytes", len);
    }
    let mut far = NARROW;
    far[NARROW.len() - 1] = 0x7F;
    assert_eq!(list::list_12_to_20(&far, &mut out[..0]), Err(Refusal::Record));
    assert_eq!(list::list_12_to_20(&NARROW, &mut out), Err(Refusal::List));
    // down: 8 for the bytes, 9 anywhere, 17 anywhere, 8 for the slice
    for len in [1, NARROW.len(), WIDE.len() - 1, MOST_BYTES + RECORD_BYTES] {
        assert_eq!(list::list_20_to_12(&vec![0xFF; len], &mut out), Err(Refusal::List), "{} bytes", len);
    }
    for place in [12, 16, RECORD_BYTES + 12, RECORD_BYTES + 16] {
        let mut moving = WIDE;
        moving[place] = 1;
        assert_eq!(list::list_20_to_12(&moving, &mut out[..0]), Err(Refusal::MovingStar));
        moving[RECORD_BYTES + 7] = 0xFF;
        assert_eq!(list::list_20_to_12(&moving, &mut out[..0]), Err(Refusal::Record));
        moving = WIDE;
        moving[place..place + 4].copy_from_slice(&20001i32.to_le_bytes());
        assert_eq!(list::list_20_to_12(&moving, &mut out[..0]), Err(Refusal::Record));
    }
    assert_eq!(list::list_20_to_12(&WIDE, &mut out[..NARROW.len() - 1]), Err(Refusal::List));
    assert_eq!(out, [0xA5; WIDE.len() - 1]);
}
