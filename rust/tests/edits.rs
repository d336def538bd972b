//! A stored list edited where it stands: struck, added to and gathered, call by call and in sequences.
use brundelak::list::{self, Star, MOST_BYTES, MOST_STARS, RECORD_BYTES};
use brundelak::Refusal;

type Record = [u8; RECORD_BYTES];
const EMPTY: Record = [0; RECORD_BYTES];

fn record(star: Star) -> Record {
    let words = [star.number, star.asc, star.dec as u32, star.asc_rate as u32, star.dec_rate as u32];
    let mut bytes = EMPTY;
    for (place, word) in bytes.chunks_mut(4).zip(words) {
        place.copy_from_slice(&word.to_le_bytes());
    }
    bytes
}

fn number_of(record: &Record) -> u32 {
    u32::from_le_bytes([record[0], record[1], record[2], record[3]])
}

/// A star in range that moves, told from others by its number and a figure.
const fn star(number: u32, figure: u32) -> Star {
    Star { number, asc: 3600000 + figure, dec: -7200000, asc_rate: 65, dec_rate: -189 }
}

/// Star 7 is there twice; the second record is empty with bytes behind the 0, and 9's right ascension is a whole turn.
const LEFT: Star = Star { number: 0, asc: u32::MAX, dec: i32::MIN, asc_rate: -1, dec_rate: 77 };
const DAMAGED: Star = Star::still(9, 1296000000, 0);
const STARS: [Star; 6] = [star(7, 1), LEFT, DAMAGED, star(7, 2), Star::still(0, 0, 0), star(300, 3)];

fn elsewhere() -> [Record; 6] {
    STARS.map(record)
}

#[test]
fn a_strike_zeroes_the_first_record_with_the_number_and_no_other() {
    let before = elsewhere();
    for (number, index) in [(7, 0), (9, 2), (300, 5)] {
        let (mut bytes, mut wanted) = (before.concat(), before);
        wanted[index] = EMPTY;
        assert_eq!((list::strike(&mut bytes, number), bytes), (Ok(()), wanted.concat()), "star {}", number);
    }
}

#[test]
fn a_star_takes_the_whole_of_the_first_empty_place() {
    let (mut bytes, mut wanted) = (elsewhere().concat(), elsewhere());
    // The first is zero wherever the bytes behind the 0 were not.
    for (star, index) in [(Star::still(u32::MAX, 0, 0), 1), (star(1, 4), 4)] {
        wanted[index] = record(star);
        assert_eq!((list::add(&mut bytes, star), &bytes), (Ok(()), &wanted.concat()));
    }
    assert_eq!((list::add(&mut bytes, star(2, 4)), bytes), (Err(Refusal::NoEmptyPlace), wanted.concat()));
}

#[test]
fn gathered_stars_keep_their_bytes_and_their_order() {
    let (mut bytes, before) = (elsewhere().concat(), elsewhere());
    let wanted = [before[0], before[2], before[3], before[5], EMPTY, EMPTY].concat();
    for _ in 0..2 {
        assert_eq!((list::gather(&mut bytes), &bytes), (Ok(()), &wanted));
    }
}

/// The numbers of the stars that the reader shows.
fn numbers(bytes: &[u8]) -> Vec<u32> {
    list::stars(bytes).unwrap().map(|star| star.number).collect()
}

#[test]
fn reader_and_find_say_the_same_before_and_after_a_gather() {
    let (mut bytes, mut gathered) = (elsewhere().concat(), elsewhere().concat());
    assert_eq!(list::gather(&mut gathered), Ok(()));
    for _ in 0..2 {
        assert!(list::stars(&bytes).unwrap().eq(list::stars(&gathered).unwrap()));
        for number in [0, 1, 7, 9, 300] {
            let found = |bytes| list::find(bytes, number).map(|(_, star)| star);
            assert_eq!(found(&bytes), found(&gathered), "star {}", number);
        }
        // The index apart, which counts the places that were empty before it.
        assert_eq!((list::find(&bytes, 300), list::find(&gathered, 300)), (Ok((5, star(300, 3))), Ok((numbers(&gathered).len() - 1, star(300, 3)))));
        assert_eq!(list::strike(&mut bytes, 7), Ok(()));
        assert_eq!((list::strike(&mut gathered, 7), list::gather(&mut gathered)), (Ok(()), Ok(())));
    }
    assert_eq!((numbers(&bytes), numbers(&gathered)), (vec![9, 300], vec![9, 300]));
}

#[test]
fn a_number_that_stood_twice_is_there_until_it_is_struck_twice() {
    let mut bytes = elsewhere().concat();
    for _ in 0..2 {
        assert_eq!(list::add(&mut bytes, star(7, 5)), Err(Refusal::NumberPresent));
        assert_eq!(list::strike(&mut bytes, 7), Ok(()));
    }
    assert_eq!(list::strike(&mut bytes, 7), Err(Refusal::NoStar));
    assert_eq!((list::add(&mut bytes, star(7, 5)), list::find(&bytes, 7)), (Ok(()), Ok((0, star(7, 5)))));
}

#[test]
fn an_edit_that_is_refused_leaves_every_byte() {
    let full = [star(7, 1), DAMAGED].map(record).concat();
    let refused = [
        (Star { number: 0, ..star(7, 1) }, Refusal::Record),
        (Star { asc: 1296000000, ..star(7, 1) }, Refusal::Record),
        (Star { dec: -324000001, ..star(1, 1) }, Refusal::Record),
        (Star { asc_rate: 20001, ..star(1, 1) }, Refusal::Record),
        (Star { dec_rate: i32::MIN, ..star(1, 1) }, Refusal::Record),
        (star(7, 1), Refusal::NumberPresent),
        (star(9, 1), Refusal::NumberPresent),
        (star(1, 1), Refusal::NoEmptyPlace),
    ];
    let mut bytes = full.clone();
    for (star, refusal) in refused {
        assert_eq!(list::add(&mut bytes, star), Err(refusal), "{:?}", star);
    }
    for number in [0, 1, 0x0700, u32::MAX] {
        assert_eq!(list::strike(&mut bytes, number), Err(Refusal::NoStar), "star {}", number);
    }
    assert_eq!(bytes, full);
    // Number 0 is not struck where a place is empty either.
    let mut bytes = elsewhere().concat();
    assert_eq!((list::strike(&mut bytes, 0), bytes), (Err(Refusal::NoStar), elsewhere().concat()));
}

#[test]
fn bytes_that_are_no_list_are_refused_first() {
    for len in [1, RECORD_BYTES - 1, RECORD_BYTES + 1, MOST_BYTES - 1, MOST_BYTES + 1, MOST_BYTES + RECORD_BYTES] {
        for fill in [0, 0xA5] {
            let mut bytes = vec![fill; len];
            assert_eq!(list::strike(&mut bytes, 0), Err(Refusal::List), "{} bytes", len);
            assert_eq!(list::add(&mut bytes, Star::still(0, 0, 0)), Err(Refusal::List), "{} bytes", len);
            assert_eq!(list::add(&mut bytes, star(7, 0)), Err(Refusal::List), "{} bytes", len);
            assert_eq!(list::gather(&mut bytes), Err(Refusal::List), "{} bytes", len);
            assert!(bytes.iter().all(|&b| b == fill));
        }
    }
    // No bytes are a list that has no place.
    assert_eq!((list::strike(&mut [], 7), list::strike(&mut [], 0)), (Err(Refusal::NoStar), Err(Refusal::NoStar)));
    assert_eq!(list::add(&mut [], Star::still(0, 0, 0)), Err(Refusal::Record));
    assert_eq!((list::add(&mut [], star(7, 0)), list::gather(&mut [])), (Err(Refusal::NoEmptyPlace), Ok(())));
}

#[test]
fn the_longest_list_takes_as_many_stars_as_it_has_places() {
    let mut bytes = vec![0; MOST_BYTES];
    for number in 1..=MOST_STARS as u32 {
        assert_eq!(list::add(&mut bytes, star(number, number)), Ok(()));
    }
    assert_eq!(list::add(&mut bytes, star(u32::MAX, 0)), Err(Refusal::NoEmptyPlace));
    for number in (2..=MOST_STARS as u32).step_by(2) {
        assert_eq!(list::strike(&mut bytes, number), Ok(()));
    }
    assert_eq!(list::gather(&mut bytes), Ok(()));
    assert_eq!(numbers(&bytes), (1..MOST_STARS as u32).step_by(2).collect::<Vec<u32>>());
    let (kept, rest) = bytes.split_at(MOST_BYTES / 2);
    assert!(list::stars(kept).unwrap().eq((1..MOST_STARS as u32).step_by(2).map(|number| star(number, number))));
    assert!(rest.iter().all(|&b| b == 0));
}

// ---- sequences

#[derive(Clone, Copy, Debug)]
enum Call {
    Strike(u32),
    Add(Star),
    Gather,
}

fn call(bytes: &mut [u8], call: Call) -> Result<(), Refusal> {
    match call {
        Call::Strike(number) => list::strike(bytes, number),
        Call::Add(star) => list::add(bytes, star),
        Call::Gather => list::gather(bytes),
    }
}

/// The request's words, written a second time over whole records.
fn worded(places: &mut [Record], call: Call) -> Result<(), Refusal> {
    let first = |places: &[Record], number| places.iter().position(|place| number_of(place) == number);
    match call {
        Call::Strike(number) => {
            let index = first(places, number).filter(|_| number != 0).ok_or(Refusal::NoStar)?;
            places[index] = EMPTY;
        }
        Call::Add(star) => {
            let ranged = star.asc < 1296000000 && star.dec.unsigned_abs() <= 324000000;
            let slow = star.asc_rate.unsigned_abs() <= 20000 && star.dec_rate.unsigned_abs() <= 20000;
            if star.number == 0 || !ranged || !slow {
                return Err(Refusal::Record);
            }
            if first(places, star.number).is_some() {
                return Err(Refusal::NumberPresent);
            }
            places[first(places, 0).ok_or(Refusal::NoEmptyPlace)?] = record(star);
        }
        Call::Gather => {
            let mut kept: Vec<Record> = places.iter().copied().filter(|place| number_of(place) != 0).collect();
            kept.resize(places.len(), EMPTY);
            places.copy_from_slice(&kept);
        }
    }
    Ok(())
}

/// Draws below a limit.
struct Draw(u64);

impl Draw {
    fn below(&mut self, limit: u32) -> u32 {
        self.0 = self.0.wrapping_mul(6364136223846793005).wrapping_add(1442695040888963407);
        (self.0 >> 33) as u32 % limit
    }

    /// A star of few numbers, 0 among them, now and then one that stands still, or is out of range.
    fn star(&mut self) -> Star {
        let one = star(self.below(6), self.below(1000));
        match self.below(12) {
            0 => Star { asc: 1296000000, ..one },
            1 => Star { dec: 324000001, ..one },
            2 => Star { asc_rate: -20001, ..one },
            3 => Star { dec_rate: 20001, ..one },
            4..=6 => Star::still(one.number, 0, 0),
            _ => one,
        }
    }

    fn call(&mut self) -> Call {
        match self.below(9) {
            0..=3 => Call::Strike(self.below(6)),
            4..=7 => Call::Add(self.star()),
            _ => Call::Gather,
        }
    }
}

/// How often each refusal was met, by its number, and each answered call under 0.
fn met(counts: &mut [u32; 20], answer: Result<(), Refusal>) {
    counts[answer.map_or_else(Refusal::number, |_| 0) as usize] += 1;
}

#[test]
fn any_calls_on_any_list_go_by_the_requests_words() {
    let (mut draw, mut counts) = (Draw(1), [0; 20]);
    for _ in 0..2000 {
        // Any records, within bytes that no call may touch.
        let mut places: Vec<Record> = (0..draw.below(6)).map(|_| record(draw.star())).collect();
        let end = RECORD_BYTES * (places.len() + 1);
        let mut bytes = [&[0xA5; RECORD_BYTES][..], &places.concat(), &[0x5A; RECORD_BYTES]].concat();
        for _ in 0..20 {
            let one = draw.call();
            let answer = call(&mut bytes[RECORD_BYTES..end], one);
            assert_eq!(answer, worded(&mut places, one), "{:?}", one);
            assert_eq!(bytes, [&[0xA5; RECORD_BYTES][..], &places.concat(), &[0x5A; RECORD_BYTES]].concat(), "{:?}", one);
            met(&mut counts, answer);
        }
    }
    assert!([0, 9, 10, 18, 19].iter().all(|&n| counts[n] > 1000), "statuses met: {:?}", counts);
}

#[test]
fn the_kept_stars_are_the_answered_adds_less_the_answered_strikes() {
    let (mut draw, mut counts) = (Draw(2), [0; 20]);
    for _ in 0..500 {
        let (mut bytes, mut book) = (vec![0; RECORD_BYTES * draw.below(6) as usize], Vec::<Star>::new());
        for _ in 0..40 {
            let one = draw.call();
            let answer = call(&mut bytes, one);
            match (one, answer) {
                (Call::Add(star), Ok(())) => book.push(star),
                (Call::Strike(number), Ok(())) => book.retain(|star| star.number != number),
                _ => {}
            }
            met(&mut counts, answer);
            let mut kept: Vec<Star> = list::stars(&bytes).unwrap().collect();
            kept.sort_by_key(|star| star.number);
            book.sort_by_key(|star| star.number);
            assert_eq!(kept, book, "after {:?}", one);
            assert!(kept.windows(2).all(|two| two[0].number != two[1].number));
        }
    }
    assert!([0, 9, 10, 18, 19].iter().all(|&n| counts[n] > 500), "statuses met: {:?}", counts);
}
