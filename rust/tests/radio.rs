//! Lists over the radio link through the crate.
use brundelak::list::{self, Star};
use brundelak::radio::*;
use brundelak::Refusal;

fn number<T: std::fmt::Debug>(r: Result<T, Refusal>) -> u8 {
    r.map_or_else(Refusal::number, |_| 0)
}

/// Two stars: 7 at 0, 0, which stands still, and 300 at a degree each way, which moves.
const STARS: [Star; 2] = [Star::still(7, 0, 0), Star { asc_rate: 150, dec_rate: -20000, ..Star::still(300, 3600000, -3600000) }];
const LIST: [u8; 2 * list::RECORD_BYTES] = [
    7, 0, 0, 0, 0, 0, 0, 0, 0, 0, 0, 0, 0, 0, 0, 0, 0, 0, 0, 0, //
    0x2C, 0x01, 0, 0, 0x80, 0xEE, 0x36, 0x00, 0x80, 0x11, 0xC9, 0xFF, 0x96, 0, 0, 0, 0xE0, 0xB1, 0xFF, 0xFF,
];
/// The same, 3600000 standing as 80 DD DB 01 and -3600000, folded to 7199999, as FF B9 B7 03; the rates, folded to 300 and 39999, as AC 02
/// and BF B8 02.
const RADIO: [u8; 22] =
    [3, 2, 7, 0, 0, 0, 0, 0xAC, 0x02, 0x80, 0xDD, 0xDB, 0x01, 0xFF, 0xB9, 0xB7, 0x03, 0xAC, 0x02, 0xBF, 0xB8, 0x02];
/// The same places in the form of before, without rates.
const BEFORE: [u8; 15] = [2, 2, 7, 0, 0, 0xAC, 0x02, 0x80, 0xDD, 0xDB, 0x01, 0xFF, 0xB9, 0xB7, 0x03];

#[test]
fn a_list_moves_there_and_back() {
    let (mut radio, mut list) = ([0xA5; RADIO.len() + 2], [0xA5; LIST.len() + 2]);
    assert_eq!(list_to_radio(&LIST, &mut radio), Ok(RADIO.len()));
    assert_eq!((&radio[..RADIO.len()], &radio[RADIO.len()..]), (&RADIO[..], &[0xA5, 0xA5][..]));
    assert_eq!(radio_to_list(&RADIO, &mut list), Ok(LIST.len()));
    assert_eq!((&list[..LIST.len()], &list[LIST.len()..]), (&LIST[..], &[0xA5, 0xA5][..]));
}

/// The stars of a radio list, walked to its end.
fn walked(radio: &[u8]) -> Vec<Star> {
    let (count, mut place) = open(radio).unwrap();
    let mut stars = vec![];
    for _ in 0..count {
        let (one, next) = star(radio, place).unwrap();
        stars.push(one);
        place = next;
    }
    assert_eq!((place, accept(radio)), (radio.len(), Ok(count)));
    assert_eq!(star(radio, place), Err(Refusal::End));
    stars
}

#[test]
fn a_list_is_walked() {
    assert_eq!(walked(&RADIO), STARS);
}

#[test]
fn a_list_of_before_is_read_with_rates_of_zero() {
    let still = |star: Star| Star::still(star.number, star.asc, star.dec);
    assert_eq!(walked(&BEFORE), STARS.map(still));
    // As a stored list it is the narrow list of the same stars, moved up.
    let narrow = [&LIST[..12], &LIST[20..32]].concat();
    let (mut list, mut up, mut radio) = ([0xA5; LIST.len()], [0x5A; LIST.len()], [0xA5; RADIO.len()]);
    assert_eq!((radio_to_list(&BEFORE, &mut list), list::list_12_to_20(&narrow, &mut up)), (Ok(LIST.len()), Ok(LIST.len())));
    assert_eq!(list, up);
    // Written again it begins with byte 3, and has the rates.
    let written = list_to_radio(&list, &mut radio).unwrap();
    assert_eq!((radio[0], written), (3, BEFORE.len() + 4));
    assert_eq!(walked(&radio[..written]), STARS.map(still));
}

#[test]
fn a_list_is_written_star_by_star() {
    let mut out = [0xA5; RADIO.len()];
    let mut place = put_head(&mut out, 0, 2).unwrap();
    place = put_star(&mut out, place, STARS[0]).unwrap();
    assert_eq!(put_star(&mut out, place, STARS[1]), Ok(RADIO.len()));
    assert_eq!(out, RADIO);
}

#[test]
fn the_first_refusal_met_is_given() {
    let refused = |bytes: &[u8]| number(accept(bytes));
    assert_eq!(accept(&[]), Err(Refusal::End));
    for first in (0..=1).chain(4..=255) {
        assert_eq!(accept(&[first, 0]), Err(Refusal::FirstByte));
    }
    assert_eq!(accept(&[2, 0x80, 0x00]), Err(Refusal::Spelling));
    assert_eq!(accept(&[2, 0xFF, 0xFF, 0xFF, 0xFF, 0x10]), Err(Refusal::Spelling));
    assert_eq!(accept(&[2, 0xFF, 0xFF, 0xFF, 0xFF, 0x0F]), Err(Refusal::List));
    // The most stars, and one more.
    let mut head = [0; 3];
    assert_eq!(put_head(&mut head, 0, list::MOST_STARS as u32), Ok(3));
    assert_eq!(accept(&head), Err(Refusal::End));
    head[1] += 1;
    assert_eq!(accept(&head), Err(Refusal::List));
    head[0] = 2;
    assert_eq!(accept(&head), Err(Refusal::List));
    // A right ascension of a whole turn: 9, after the star's last number, which may be 13 or 12 itself.
    let turn = [3, 1, 7, 0x80, 0xC8, 0xFD, 0xE9, 0x04, 0, 0, 0];
    assert_eq!([refused(&turn), refused(&turn[..10]), refused(&[&turn[..10], &[0x80, 0]].concat())], [9, 13, 12]);
    let turn = [2, 1, 7, 0x80, 0xC8, 0xFD, 0xE9, 0x04, 0];
    assert_eq!([refused(&turn), refused(&turn[..8]), refused(&[&turn[..8], &[0x80, 0]].concat())], [9, 13, 12]);
    // Rates of 20000, 20001 and -20001 a year, folded to 40000, 40002 and 40001.
    for (rate, number) in [([0xC0, 0xB8, 0x02], 0), ([0xC2, 0xB8, 0x02], 9), ([0xC1, 0xB8, 0x02], 9)] {
        assert_eq!(refused(&[&[3, 1, 7, 0, 0][..], &rate, &[0]].concat()), number);
        assert_eq!(refused(&[&[3, 1, 7, 0, 0, 0][..], &rate].concat()), number);
    }
    for form in [2, 3] {
        assert_eq!([refused(&[form, 0]), refused(&[form, 0, 0])], [0, 13]);
        assert_eq!(open(&[form, 2, 0x80, 0]), Ok((2, 2)));
    }
}

#[test]
fn the_longest_list_fills_the_most_bytes() {
    let mut list = vec![0; list::MOST_BYTES];
    let widest = Star { number: u32::MAX, asc: 1295999999, dec: -324000000, asc_rate: -20000, dec_rate: 20000 };
    for i in 0..list::MOST_STARS {
        list::put_star(&mut list, list::RECORD_BYTES * i, widest).unwrap();
    }
    let mut radio = vec![0; MOST_BYTES];
    assert_eq!(list_to_radio(&list, &mut radio), Ok(MOST_BYTES));
    assert_eq!(accept(&radio), Ok(list::MOST_STARS as u32));
}

#[test]
fn a_refused_call_leaves_the_slice() {
    let mut out = [0xA5; LIST.len() - 1];
    assert_eq!(radio_to_list(&RADIO, &mut out), Err(Refusal::List));
    assert_eq!(radio_to_list(&BEFORE, &mut out), Err(Refusal::List));
    assert_eq!(radio_to_list(&RADIO[..RADIO.len() - 1], &mut out), Err(Refusal::End));
    assert_eq!(list_to_radio(&LIST, &mut out[..RADIO.len() - 1]), Err(Refusal::List));
    assert_eq!(list_to_radio(&LIST[..LIST.len() - 1], &mut out), Err(Refusal::List));
    let mut far = LIST;
    far[7] = 0xFF;
    assert_eq!(list_to_radio(&far, &mut out[..0]), Err(Refusal::Record));
    far = LIST;
    far[LIST.len() - 1] = 0x7F;
    assert_eq!(list_to_radio(&far, &mut out[..0]), Err(Refusal::Record));
    assert_eq!(put_head(&mut out, 0, list::MOST_STARS as u32 + 1), Err(Refusal::List));
    assert_eq!(put_head(&mut out, LIST.len() - 2, 0), Err(Refusal::List));
    assert_eq!(put_head(&mut out, usize::MAX, 0), Err(Refusal::List));
    assert_eq!(put_star(&mut out, LIST.len() - 1, Star::still(0, 1296000000, 0)), Err(Refusal::Record));
    assert_eq!(put_star(&mut out, LIST.len() - 1, Star { asc_rate: -20001, ..STARS[0] }), Err(Refusal::Record));
    assert_eq!(put_star(&mut out, LIST.len() - 1, Star { dec_rate: i32::MIN, ..STARS[0] }), Err(Refusal::Record));
    assert_eq!(put_star(&mut out, LIST.len() - 5, STARS[0]), Err(Refusal::List));
    assert_eq!(out, [0xA5; LIST.len() - 1]);
}
