//! The stored list: document 01's section 7 with request (x)'s records of 20 bytes and request (xi)'s empty places written a second time,
//! and the port's star, find, batch and tally compared with it. A star's reduction is the chain of the routed Rust, at the place that its
//! rates have brought it to.
use aimed;
use functions::Outcome;
use inputs::{self, Random};
use put::{compare_put, hex, put_told, room, Answer};
use std::f64::consts::FRAC_PI_2;
use table::{refuses, Sort};
use written;
use Count;

/// The editions of the batch and of the rotation, which take the same.
macro_rules! batches {
    ($($symbol:ident)*) => {
        extern "C" {
            $( pub fn $symbol(
                bytes: *const u8,
                len: usize,
                day1: f64,
                day2: f64,
                status: *mut u8,
                status_len: usize,
                asc: *mut f64,
                asc_len: usize,
                dec: *mut f64,
                dec_len: usize,
                tally: *mut u32,
            ) -> u8; )*
        }
    };
}

batches! { brundelak_batch brundelak_batch_published brundelak_rotate brundelak_rotate_published }

extern "C" {
    fn brundelak_star(
        bytes: *const u8,
        len: usize,
        place: usize,
        number: *mut u32,
        asc: *mut u32,
        dec: *mut i32,
        asc_rate: *mut i32,
        dec_rate: *mut i32,
        next: *mut usize,
    ) -> u8;
    fn brundelak_put_star(
        out: *mut u8,
        len: usize,
        place: usize,
        number: u32,
        asc: u32,
        dec: i32,
        asc_rate: i32,
        dec_rate: i32,
        next: *mut usize,
    ) -> u8;
    fn brundelak_find(
        bytes: *const u8,
        len: usize,
        number: u32,
        index: *mut usize,
        asc: *mut u32,
        dec: *mut i32,
        asc_rate: *mut i32,
        dec_rate: *mut i32,
    ) -> u8;
    fn brundelak_tally_raise(status: u8, tally: *mut u32) -> u8;
}

pub type BatchCall =
    unsafe extern "C" fn(*const u8, usize, f64, f64, *mut u8, usize, *mut f64, usize, *mut f64, usize, *mut u32) -> u8;

/// An edition of the batch, or of the rotation: its name, the port's call, and what a star's place must be answered by, the chain in a
/// batch, at days and a declination that are not refused.
pub struct Edition {
    pub name: &'static str,
    pub call: BatchCall,
    pub chain: fn(&[f64]) -> Outcome,
}

pub const CRATE: Edition = Edition { name: "batch", call: brundelak_batch, chain: ::functions::chain_in };
pub const PUBLISHED: Edition =
    Edition { name: "batch_published", call: brundelak_batch_published, chain: ::functions::published_chain_in };

// ---- section 7

/// Bytes of a record, and stars and bytes of a list at most.
pub const RECORD: usize = 20;
pub const MOST_STARS: usize = 3000;
const MOST_BYTES: usize = RECORD * MOST_STARS;

/// Counts of a tally, a count that is full, and the highest status that is known.
const COUNTS: usize = 20;
const FULLEST: u32 = 60000;
const HIGHEST_STATUS: u8 = 19;

#[derive(Clone, Copy, PartialEq, Debug)]
pub struct Record {
    pub number: u32,
    pub asc: u32,
    pub dec: i32,
    /// Milliarcseconds a year, of the coordinate itself.
    pub asc_rate: i32,
    pub dec_rate: i32,
}

/// What a call leaves of a star that it does not answer.
pub const UNTOUCHED: Record = Record { number: 0xA5A5A5A5, asc: 0x5A5A5A5A, dec: -7, asc_rate: 0x3C3C3C3C, dec_rate: -9 };

impl Record {
    pub fn at(bytes: &[u8], place: usize) -> Record {
        let word = |i: usize| (0..4).map(|k| (bytes[place + i + k] as u32) << (8 * k)).sum::<u32>();
        Record { number: word(0), asc: word(4), dec: word(8) as i32, asc_rate: word(12) as i32, dec_rate: word(16) as i32 }
    }

    pub fn bytes(&self) -> Vec<u8> {
        let words = [self.number, self.asc, self.dec as u32, self.asc_rate as u32, self.dec_rate as u32];
        words.iter().flat_map(|w| (0..4).map(move |k| (w >> (8 * k)) as u8)).collect()
    }

    pub fn in_range(&self) -> bool {
        let slow = |rate: i32| (rate as i64).abs() <= 20000;
        self.asc < 1296000000 && (self.dec as i64).abs() <= 324000000 && slow(self.asc_rate) && slow(self.dec_rate)
    }

    /// Right ascension and declination in radians, after so many years.
    fn place(&self, years: f64) -> (f64, f64) {
        let radians = |count: f64| written::radians(count / 3600000.0);
        (
            radians(self.asc as f64) + radians(self.asc_rate as f64) * years,
            radians(self.dec as f64) + radians(self.dec_rate as f64) * years,
        )
    }

    /// Its fields for the sample.
    pub fn told(&self) -> String {
        format!("{} {}", self.number, self.told_but_number())
    }

    pub fn told_but_number(&self) -> String {
        format!("{} {} {} {}", self.asc, self.dec, self.asc_rate, self.dec_rate)
    }
}

pub fn bad_list(bytes: &[u8]) -> bool {
    bytes.len() % RECORD != 0 || bytes.len() > MOST_BYTES
}

/// The whole records of a list.
pub fn records(list: &[u8]) -> Vec<Record> {
    (0..list.len() / RECORD).map(|i| Record::at(list, RECORD * i)).collect()
}

/// The first star from a place on, empty places passed over, and the place after it: (0, ..), (8, none), or (255, none) where none is left.
fn star(bytes: &[u8], place: usize) -> (u8, Option<(Record, usize)>) {
    if bad_list(bytes) || place > bytes.len() || place % RECORD != 0 {
        return (8, None);
    }
    let mut places = (place / RECORD..bytes.len() / RECORD).map(|i| (Record::at(bytes, RECORD * i), RECORD * (i + 1)));
    let shown = places.find(|&(one, _)| one.number != 0);
    (if shown.is_some() { 0 } else { 255 }, shown)
}

/// What is written for a star: 9, then 8 for a place at which no record of a list begins.
fn record_text(one: &Record, place: usize) -> Answer<Vec<u8>> {
    if !one.in_range() {
        return Err(9);
    }
    if place % RECORD != 0 || place / RECORD >= MOST_STARS {
        return Err(8);
    }
    Ok(one.bytes())
}

fn find(bytes: &[u8], number: u32) -> (u8, Option<(usize, Record)>) {
    if bad_list(bytes) {
        return (8, None);
    }
    if number == 0 {
        return (10, None);
    }
    let found = records(bytes).into_iter().enumerate().find(|&(_, r)| r.number == number);
    match found {
        None => (10, None),
        Some((_, r)) if !r.in_range() => (9, None),
        at => (0, at),
    }
}

fn years_between(day1: f64, day2: f64) -> f64 {
    (day2 - day1) / 365.25
}

/// A record's status and two angles.
pub fn reduced(edition: &Edition, r: Record, day1: f64, day2: f64) -> (u8, f64, f64) {
    let (asc, dec) = r.place(years_between(day1, day2));
    if r.number == 0 {
        return (10, 0.0, 0.0);
    }
    if !r.in_range() {
        return (9, 0.0, 0.0);
    }
    if dec.abs() > FRAC_PI_2 {
        return (3, 0.0, 0.0);
    }
    match (edition.chain)(&[asc, dec, day1, day2]) {
        Outcome::Answer(p) => (0, p[0], p[1]),
        Outcome::Refused(n) => (n, 0.0, 0.0),
    }
}

/// What a batch answers as a whole.
pub fn batch_status(bytes: &[u8], lens: [usize; 3], (day1, day2): (f64, f64)) -> u8 {
    match (1..3).find(|&n| refuses(n, Sort::Day, day1) || refuses(n, Sort::Day, day2)) {
        Some(n) => n,
        None if bad_list(bytes) || lens.iter().any(|&l| l < bytes.len() / RECORD) => 8,
        None => 0,
    }
}

// ---- inputs

/// Two days: most often good ones, and the same as the last.
pub fn days(r: &mut Random, last: (f64, f64)) -> (f64, f64) {
    match r.below(16) {
        0 => (inputs::damaged(r), last.1),
        1 => (last.0, inputs::damaged(r)),
        2 => (2451545.0, inputs::beyond(3182045.0)),
        3 => (1721045.0, 3182045.0),
        4 => (last.0, last.0),
        5 => (2451545.0, 2451545.0 + r.between(-400.0, 400.0)),
        _ => (r.between(1721045.0, 3182045.0), r.between(1721045.0, 3182045.0)),
    }
}

/// A rate in range: none, the least and the greatest of either sign, or any.
pub fn a_rate(r: &mut Random) -> i32 {
    const RATES: [i32; 4] = [1, -1, 20000, -20000];
    match r.below(4) {
        0 => 0,
        1 => RATES[r.below(4)],
        _ => r.below(40001) as i32 - 20000,
    }
}

/// A rate out of range.
pub fn a_bad_rate(r: &mut Random) -> i32 {
    const RATES: [i32; 6] = [20001, -20001, 65536, -65536, -2147483648, 2147483647];
    RATES[r.below(6)]
}

pub fn record(r: &mut Random, stars: usize, day1: f64, day2: f64) -> Record {
    const ASC: [u32; 5] = [0, 1295999999, 1296000000, 1296000001, 0xFFFFFFFF];
    const DEC: [i32; 7] = [0, 324000000, -324000000, 324000001, -324000001, -2147483648, 2147483647];
    let mut one = Record {
        number: r.below(2 * stars + 1) as u32,
        asc: r.below(1296000000) as u32,
        dec: r.below(648000001) as i32 - 324000000,
        asc_rate: a_rate(r),
        dec_rate: a_rate(r),
    };
    match r.below(16) {
        0 => one.asc = ASC[r.below(5)],
        1 => one.dec = DEC[r.below(7)],
        2 => one.dec = 324000000 - r.below(1000000) as i32,
        3 => one.dec = -324000000 + r.below(40000) as i32,
        4 | 5 => {
            // A star that its motion and precession bring to the pole.
            let p = aimed::to_the_pole(::port::brundelak_precess_eq_coords, day1, day2);
            let years = years_between(day1, day2);
            let turns = p[0] / (2.0 * ::std::f64::consts::PI) - one.asc_rate as f64 * years / 1296000000.0;
            one.asc = ((turns - turns.floor()) * 1296000000.0).round() as u32;
            one.dec = (p[1] / FRAC_PI_2 * 324000000.0 - one.dec_rate as f64 * years).round() as i32;
        }
        6 => one.asc_rate = a_bad_rate(r),
        7 => one.dec_rate = a_bad_rate(r),
        8 => {
            let word = |r: &mut Random| r.bits() as i32;
            one = Record { number: r.bits() as u32, asc: r.bits() as u32, dec: word(r), asc_rate: word(r), dec_rate: word(r) };
        }
        _ => {}
    }
    one
}

pub fn list(r: &mut Random, day1: f64, day2: f64) -> Vec<u8> {
    let stars = match r.below(16) {
        0 => 0,
        1 => 1,
        _ => r.below(24),
    };
    let mut bytes: Vec<u8> = (0..stars).flat_map(|_| record(r, stars, day1, day2).bytes()).collect();
    match r.below(12) {
        0 => bytes.extend((0..1 + r.below(RECORD - 1)).map(|_| 0)),
        1 => {
            let cut = r.below(RECORD).min(bytes.len());
            let left = bytes.len() - cut;
            bytes.truncate(left);
        }
        _ => {}
    }
    bytes
}

/// Some places made empty, whatever stands behind their number: in front, behind, all between, every other one, all, or any. A number that
/// stays is now and then one whose first bytes are 0.
pub fn empty_some(r: &mut Random, width: usize, bytes: &mut [u8]) {
    let places = bytes.len() / width;
    let (way, some) = (r.below(6), r.below(places + 1));
    for i in 0..places {
        let empty = match way {
            0 => i < some,
            1 => i >= some,
            2 => i > 0 && i + 1 < places,
            3 => i % 2 == some % 2,
            4 => true,
            _ => r.below(3) == 0,
        };
        if empty || r.below(8) == 0 {
            let number = if empty { 0 } else { [0x100, 0x10000, 0x1000000, 0x80000000u32][r.below(4)] };
            for k in 0..4 {
                bytes[width * i + k] = (number >> (8 * k)) as u8;
            }
        }
    }
}

/// Places near the greatest, a multiple of the record's bytes among them.
const FAR: [usize; 5] = [!0, !0 - 3, !0 - (RECORD - 1), !0 / RECORD * RECORD, 1 << 63];

/// A place in a list, or none.
fn a_place(r: &mut Random, bytes: &[u8]) -> usize {
    match r.below(8) {
        0 => bytes.len(),
        1 => bytes.len() + r.below(30),
        2 => FAR[r.below(5)],
        3 => r.below(bytes.len() + 2),
        _ => RECORD * r.below(bytes.len() / RECORD + 1),
    }
}

/// A place to write at: most often a record's start.
fn a_start(r: &mut Random) -> usize {
    match r.below(8) {
        0 => FAR[r.below(5)],
        1 => [MOST_BYTES - 2 * RECORD, MOST_BYTES - RECORD, MOST_BYTES - 1, MOST_BYTES, MOST_BYTES + RECORD][r.below(5)],
        2 => r.below(2 * RECORD + 1),
        _ => RECORD * r.below(6),
    }
}

/// A number to be sought.
fn a_number(r: &mut Random, bytes: &[u8]) -> u32 {
    match r.below(4) {
        0 => r.bits() as u32,
        _ => r.below(2 * bytes.len() / RECORD + 1) as u32,
    }
}

/// A number to be sought where places are empty: 0, one whose first bytes are 0, or that of a record.
fn a_number_of_few(r: &mut Random, bytes: &[u8]) -> u32 {
    let all = records(bytes);
    match r.below(4) {
        0 => 0,
        1 => [0x100, 0x10000, 0x1000000, 0x80000000][r.below(4)],
        _ if !all.is_empty() => all[r.below(all.len())].number,
        _ => a_number(r, bytes),
    }
}

// ---- the comparison

fn compare_star(bytes: &[u8], place: usize, count: &mut Count) {
    let (expected, shown) = star(bytes, place);
    let kept = (UNTOUCHED, 0x1234567);
    let (mut one, mut next) = kept;
    let status = unsafe {
        brundelak_star(
            bytes.as_ptr(),
            bytes.len(),
            place,
            &mut one.number,
            &mut one.asc,
            &mut one.dec,
            &mut one.asc_rate,
            &mut one.dec_rate,
            &mut next,
        )
    };
    let agrees = status == expected && (one, next) == shown.unwrap_or(kept);
    count.tell(status, agrees, || format!("star: place {} of {:?}", place, bytes));
}

fn compare_put_star(r: &mut Random, count: &mut Count) {
    let (one, place) = (record(r, 24, 2451545.0, 2462088.69), a_start(r));
    let text = record_text(&one, place);
    let len = room(r, place, &text);
    compare_put("put_star", text, len, place, count, |out, next| unsafe {
        brundelak_put_star(out, len, place, one.number, one.asc, one.dec, one.asc_rate, one.dec_rate, next)
    });
}

fn compare_find(bytes: &[u8], number: u32, count: &mut Count) {
    let (expected, found) = find(bytes, number);
    let kept = (0x1234567, Record { number: number, ..UNTOUCHED });
    let (mut index, mut one) = kept;
    let status = unsafe {
        brundelak_find(
            bytes.as_ptr(),
            bytes.len(),
            number,
            &mut index,
            &mut one.asc,
            &mut one.dec,
            &mut one.asc_rate,
            &mut one.dec_rate,
        )
    };
    let agrees = status == expected && (index, one) == found.unwrap_or(kept);
    count.tell(status, agrees, || format!("find: {} in {:?}", number, bytes));
}

/// A lent slice with eight places before it and eight behind.
fn lent<T: Copy>(len: usize, fill: T) -> Vec<T> {
    vec![fill; len + 16]
}

/// The length of a lent slice.
pub fn places(r: &mut Random, stars: usize) -> usize {
    match r.below(24) {
        0 => stars.saturating_sub(1),
        1 => 0,
        2 | 3 => stars + r.below(9),
        _ => stars,
    }
}

pub fn compare_batch(
    edition: &Edition,
    bytes: &[u8],
    lens: [usize; 3],
    (day1, day2): (f64, f64),
    count: &mut Count,
    statuses: &mut Count,
) {
    let stars = bytes.len() / RECORD;
    let expected = batch_status(bytes, lens, (day1, day2));
    let (asc, dec) = (f64::from_bits(0x7FF4A5A5A5A50003), f64::from_bits(0xFFF0000000000001));
    let mut want = (lent(lens[0], 0xA5u8), lent(lens[1], asc), lent(lens[2], dec), [0xA5A5A5A5u32; COUNTS + 2]);
    let mut got = want.clone();
    if expected == 0 {
        want.3[1..1 + COUNTS].iter_mut().for_each(|c| *c = 0);
        for i in 0..stars {
            let (status, asc, dec) = reduced(edition, Record::at(bytes, RECORD * i), day1, day2);
            want.0[8 + i] = status;
            want.1[8 + i] = asc;
            want.2[8 + i] = dec;
            want.3[1 + status as usize] += 1;
        }
    }
    let status = unsafe {
        (edition.call)(
            bytes.as_ptr(),
            bytes.len(),
            day1,
            day2,
            got.0.as_mut_ptr().offset(8),
            lens[0],
            got.1.as_mut_ptr().offset(8),
            lens[1],
            got.2.as_mut_ptr().offset(8),
            lens[2],
            got.3.as_mut_ptr().offset(1),
        )
    };
    let same = got.0 == want.0 && ::bits(&got.1) == ::bits(&want.1) && ::bits(&got.2) == ::bits(&want.2) && got.3 == want.3;
    count.tell(status, status == expected && same, || {
        format!("{}: days {:?} {:?}, lengths {:?}, status {} for {}, {:?}", edition.name, day1, day2, lens, status, expected, bytes)
    });
    if status == 0 {
        for i in 0..stars {
            statuses.tell(got.0[8 + i], true, String::new);
        }
    }
}

/// A status counted in counts of which some are full or nearly so.
fn compare_raise(r: &mut Random, count: &mut Count) {
    let status = if r.below(4) == 0 { r.bits() as u8 } else { r.below(COUNTS) as u8 };
    let mut want = [0xA5A5A5A5u32; COUNTS + 2];
    want[1..1 + COUNTS].iter_mut().for_each(|c| *c = [0, FULLEST - 1, FULLEST, r.below(FULLEST as usize) as u32][r.below(4)]);
    let mut got = want;
    let place = 1 + status as usize;
    let expected = if status > HIGHEST_STATUS { 9 } else if want[place] >= FULLEST { 8 } else { 0 };
    if expected == 0 {
        want[place] += 1;
    }
    let answer = unsafe { brundelak_tally_raise(status, got.as_mut_ptr().offset(1)) };
    count.tell(answer, answer == expected && got == want, || format!("tally_raise: status {}, {:?} for {:?}", status, got, want));
}

/// n lists, stars of each shown and sought, as many written, and some in a batch; each list also with empty places. Answers the number of
/// calls and of those that differ.
pub fn compare(n: u64) -> (u64, u64) {
    let mut r = Random(::SEED);
    let (mut stars, mut finds, mut batches, mut statuses) = (Count::new(), Count::new(), Count::new(), Count::new());
    let (mut published, mut published_statuses) = (Count::new(), Count::new());
    let (mut raises, mut puts) = (Count::new(), Count::new());
    let (mut writer, mut emptier) = (Random(::SEED), Random(::SEED));
    let mut both = (2451545.0, 2462088.69);
    for i in 0..n {
        both = days(&mut r, both);
        let bytes = list(&mut r, both.0, both.1);
        let mut holed = bytes.clone();
        empty_some(&mut emptier, RECORD, &mut holed);
        for _ in 0..4 {
            let place = a_place(&mut r, &bytes);
            compare_star(&bytes, place, &mut stars);
            let number = a_number(&mut r, &bytes);
            compare_find(&bytes, number, &mut finds);
            let place = a_place(&mut emptier, &holed);
            compare_star(&holed, place, &mut stars);
            let number = a_number_of_few(&mut emptier, &holed);
            compare_find(&holed, number, &mut finds);
            compare_raise(&mut r, &mut raises);
            compare_put_star(&mut writer, &mut puts);
        }
        // A star costs some hundred thousand instructions on either side.
        if i % 4 == 0 {
            let stars = bytes.len() / RECORD;
            let lens = [places(&mut r, stars), places(&mut r, stars), places(&mut r, stars)];
            for list in [&bytes, &holed].iter() {
                compare_batch(&CRATE, list, lens, both, &mut batches, &mut statuses);
                compare_batch(&PUBLISHED, list, lens, both, &mut published, &mut published_statuses);
            }
        }
    }
    // A star that comes to the pole, where there is no direction; beside it a good one, one that comes too near to the pole, one that its
    // motion carries past it, one whose rate is out of range, and empty places, the rest of one in range and of one not, as any neighbours
    // in lists of one to four.
    let pole = Record { number: 7, asc: 90561088, dec: -247842964, asc_rate: 0, dec_rate: 0 };
    let kinds = [
        pole,
        Record { number: 8, asc: 3600000, dec: -3600000, asc_rate: 20000, dec_rate: -19999 },
        Record { number: 9, dec: pole.dec + 3600, ..pole },
        Record { number: 10, asc: 3600000, dec: 300000000, asc_rate: 1, dec_rate: -20000 },
        Record { number: 11, dec_rate: -2147483648, ..pole },
        Record { number: 0, ..pole },
        Record { number: 0, asc: 1296000000, ..pole },
    ];
    for stars in 1..5 {
        for order in 0..kinds.len().pow(stars) {
            let bytes: Vec<u8> = (0..stars).flat_map(|k| kinds[order / kinds.len().pow(k) % kinds.len()].bytes()).collect();
            compare_batch(&CRATE, &bytes, [stars as usize; 3], (3178490.5, 1770538.0069913559), &mut batches, &mut statuses);
        }
    }
    // Stars that a year brings to a pole itself, as nearly as doubles add up.
    let year = (2451545.0, 2451910.25);
    let at_poles: Vec<u8> = (0..400)
        .map(|k| Record { number: 1 + k as u32, asc: 3600000 * k as u32, dec: 324000000 - 50 * k, asc_rate: -k, dec_rate: 50 * k })
        .flat_map(|one| [one, Record { dec: -one.dec, dec_rate: -one.dec_rate, ..one }].iter().flat_map(|r| r.bytes()).collect::<Vec<u8>>())
        .collect();
    compare_batch(&CRATE, &at_poles, [800; 3], year, &mut batches, &mut statuses);
    compare_batch(&PUBLISHED, &at_poles, [800; 3], year, &mut published, &mut published_statuses);
    // The longest list, and one star more.
    let full: Vec<u8> = (0..MOST_STARS + 1).flat_map(|_| record(&mut r, MOST_STARS, 2415020.5, 2462088.69).bytes()).collect();
    // Every length about the first multiples of 20 and of the 12 bytes of before, and beside the greatest.
    for len in (0..12 * RECORD + 2).chain([MOST_BYTES - 1, MOST_BYTES, MOST_BYTES + 1, MOST_BYTES + RECORD].iter().cloned()) {
        compare_batch(&CRATE, &full[..len], [len / RECORD; 3], (2415020.5, 2462088.69), &mut batches, &mut statuses);
        compare_batch(&PUBLISHED, &full[..len], [len / RECORD; 3], (2415020.5, 2462088.69), &mut published, &mut published_statuses);
        for &place in [0, len / RECORD * RECORD, len].iter() {
            compare_star(&full[..len], place, &mut stars);
        }
        let number = a_number(&mut r, &full[..len]);
        compare_find(&full[..len], number, &mut finds);
    }
    // All places empty, of zeros or with anything behind the 0, but none, the first or the last.
    let (zeros, emptied) = (vec![0; full.len()], full.chunks(RECORD).flat_map(|record| [&[0; 4], &record[4..]].concat()).collect::<Vec<u8>>());
    for len in (0..6 * RECORD + 2).chain([MOST_BYTES - 1, MOST_BYTES, MOST_BYTES + 1, MOST_BYTES + RECORD].iter().cloned()) {
        for empty in [&zeros[..len], &emptied[..len]].iter() {
            for &kept in [None, Some(0), (len / RECORD).checked_sub(1)].iter() {
                let mut bytes = empty.to_vec();
                if let Some(byte) = kept.and_then(|i| bytes.get_mut(RECORD * i)) {
                    *byte = 7;
                }
                for &place in [0, len / RECORD / 2 * RECORD, len / RECORD * RECORD].iter() {
                    compare_star(&bytes, place, &mut stars);
                }
                for &number in [0, 7].iter() {
                    compare_find(&bytes, number, &mut finds);
                }
                compare_batch(&CRATE, &bytes, [len / RECORD; 3], (2415020.5, 2462088.69), &mut batches, &mut statuses);
                compare_batch(&PUBLISHED, &bytes, [len / RECORD; 3], (2415020.5, 2462088.69), &mut published, &mut published_statuses);
            }
        }
    }
    println!("{}", stars.line("star (255: none left)"));
    println!("{}", finds.line("find"));
    println!("{}", batches.line("batch"));
    println!("{}", statuses.line("stars of the batches"));
    println!("{}", published.line("batch_published"));
    println!("{}", published_statuses.line("stars of those"));
    println!("{}", raises.line("tally_raise"));
    println!("{}", puts.line("put_star"));
    let met = |c: &Count, numbers: &[usize]| numbers.iter().all(|&k| c.by[k] > 0);
    let all = met(&stars, &[0, 8, 255])
        && met(&finds, &[0, 8, 9, 10])
        && met(&batches, &[0, 1, 2, 8])
        && met(&statuses, &[0, 3, 4, 7, 9, 10, 14])
        && met(&published, &[0, 1, 2, 8])
        && met(&published_statuses, &[0, 3, 4, 9, 10])
        && met(&raises, &[0, 8, 9])
        && met(&puts, &[0, 8, 9]);
    if !all {
        println!("lists: a refusal that was never met");
    }
    let (calls, differing) = [stars, finds, batches, published, raises, puts]
        .iter()
        .fold((0, 0), |t, c| (t.0 + c.calls, t.1 + c.differing));
    (calls, differing + !all as u64)
}

/// A list of the sample: some stars shown, some sought, by numbers that are drawn so, and all in a batch.
fn sample_list(r: &mut Random, bytes: &[u8], both: (f64, f64), a_number: fn(&mut Random, &[u8]) -> u32) {
    println!("list {}", hex(bytes));
    for _ in 0..4 {
        let place = a_place(r, bytes);
        let (status, shown) = star(bytes, place);
        let answer = shown.map_or(String::new(), |(one, next)| format!(" {} {}", one.told(), next));
        println!("star {} = {}{}", place, status, answer);
        let number = a_number(r, bytes);
        let (status, found) = find(bytes, number);
        let answer = found.map_or(String::new(), |(index, one)| format!(" {} {}", index, one.told_but_number()));
        println!("find {} = {}{}", number, status, answer);
    }
    sample_batches(&[CRATE, PUBLISHED], bytes, both);
}

/// A list in these editions.
pub fn sample_batches(editions: &[Edition], bytes: &[u8], both: (f64, f64)) {
    let status = batch_status(bytes, [bytes.len() / RECORD; 3], both);
    for edition in editions.iter() {
        let mut answer = String::new();
        for i in 0..if status == 0 { bytes.len() / RECORD } else { 0 } {
            let (status, asc, dec) = reduced(edition, Record::at(bytes, RECORD * i), both.0, both.1);
            answer += &format!(" {}{}", status, if status == 0 { ::hex(&[asc, dec]) } else { String::new() });
        }
        println!("{}{} = {}{}", edition.name, ::hex(&[both.0, both.1]), status, answer);
    }
}

/// The sample's lists, then a third as many with empty places, then as many stars written as there were lists at first.
pub fn sample(n: u64) {
    println!("# A list in hexadecimal, then calls on it: star PLACE = status, number, right ascension, declination, both rates, next place;");
    println!("# find NUMBER = status, index, right ascension, declination, both rates; batch DAY DAY = status, each star's status, angles if it");
    println!("# is 0; batch_published alike.");
    let mut r = Random(::SEED);
    let mut both = (2451545.0, 2462088.69);
    for _ in 0..n {
        both = days(&mut r, both);
        let bytes = list(&mut r, both.0, both.1);
        sample_list(&mut r, &bytes, both, a_number);
    }
    println!("# The same with empty places.");
    for _ in 0..n / 3 {
        both = days(&mut r, both);
        let mut bytes = list(&mut r, both.0, both.1);
        empty_some(&mut r, RECORD, &mut bytes);
        sample_list(&mut r, &bytes, both, a_number_of_few);
    }
    println!("# put_star LENGTH PLACE NUMBER ASC DEC RATE RATE = status, what is written into a slice of so many bytes.");
    let mut r = Random(::SEED);
    for _ in 0..n {
        let one = record(&mut r, 24, 2451545.0, 2462088.69);
        let place = if r.below(4) == 0 { r.below(2 * RECORD + 1) } else { RECORD * r.below(6) };
        let text = record_text(&one, place);
        let len = room(&mut r, place, &text);
        println!("put_star {} {} {} = {}", len, place, one.told(), put_told(text, len, place));
    }
}
