//! The edits of a stored list where it stands: request (xi)'s strike, add and gather written a second time, and the port's compared with
//! them, each call alone and in sequences on one buffer.
use inputs::Random;
use lists::{a_bad_rate, a_rate, bad_list, records, Record, MOST_STARS, RECORD};
use put::{hex, status_of, told, Answer};
use widths::{of_any_length, still};
use Count;

extern "C" {
    fn brundelak_strike(bytes: *mut u8, len: usize, number: u32) -> u8;
    fn brundelak_add(bytes: *mut u8, len: usize, number: u32, asc: u32, dec: i32, asc_rate: i32, dec_rate: i32) -> u8;
    fn brundelak_gather(bytes: *mut u8, len: usize) -> u8;
}

// ---- request (xi)

#[derive(Clone, Copy, Debug)]
enum Edit {
    Strike(u32),
    Add(Record),
    Gather,
}

use self::Edit::*;

/// The list with other bytes at its i-th place.
fn with(bytes: &[u8], i: usize, record: &[u8]) -> Vec<u8> {
    [&bytes[..RECORD * i], record, &bytes[RECORD * (i + 1)..]].concat()
}

fn strike(bytes: &[u8], number: u32) -> Answer<Vec<u8>> {
    if bad_list(bytes) {
        return Err(8);
    }
    if number == 0 {
        return Err(10);
    }
    let i = records(bytes).iter().position(|of| of.number == number).ok_or(10)?;
    Ok(with(bytes, i, &[0; RECORD]))
}

fn add(bytes: &[u8], one: &Record) -> Answer<Vec<u8>> {
    if bad_list(bytes) {
        return Err(8);
    }
    if one.number == 0 || !one.in_range() {
        return Err(9);
    }
    if records(bytes).iter().any(|of| of.number == one.number) {
        return Err(18);
    }
    let i = records(bytes).iter().position(|of| of.number == 0).ok_or(19)?;
    Ok(with(bytes, i, &one.bytes()))
}

/// The bytes of each record that is kept.
fn kept(bytes: &[u8]) -> Vec<&[u8]> {
    bytes.chunks(RECORD).filter(|record| record[..4] != [0; 4]).collect()
}

fn gather(bytes: &[u8]) -> Answer<Vec<u8>> {
    if bad_list(bytes) {
        return Err(8);
    }
    let mut list = kept(bytes).concat();
    list.resize(bytes.len(), 0);
    Ok(list)
}

/// The whole list after an edit.
fn edited(bytes: &[u8], edit: &Edit) -> Answer<Vec<u8>> {
    match *edit {
        Strike(number) => strike(bytes, number),
        Add(ref one) => add(bytes, one),
        Gather => gather(bytes),
    }
}

// ---- inputs

/// A number from few, so that the same are met again; 0, and some whose first bytes are 0, among them.
fn a_number(r: &mut Random, places: usize) -> u32 {
    match r.below(16) {
        0 => 0,
        1 => [0x100, 0x10000, 0x1000000, 0x80000000][r.below(4)],
        2 => r.bits() as u32,
        _ => 1 + r.below(places + 2) as u32,
    }
}

/// A star, now and then out of range.
fn a_star(r: &mut Random, places: usize) -> Record {
    let rate = |r: &mut Random| if r.below(16) == 0 { a_bad_rate(r) } else { a_rate(r) };
    Record { number: a_number(r, places), asc_rate: rate(r), dec_rate: rate(r), ..still(r, 12) }
}

/// Zero bytes, or stars good and damaged, of which so many in eight are empty places with anything behind their 0; of any length.
fn a_list(r: &mut Random) -> Vec<u8> {
    let (places, empty) = (r.below(12), [0, 1, 4][r.below(3)]);
    let mut bytes = if r.below(6) == 0 { vec![0; RECORD * places] } else { vec![] };
    while bytes.len() < RECORD * places {
        let mut one = a_star(r, places);
        if r.below(8) < empty {
            one.number = 0;
        }
        bytes.extend(one.bytes());
    }
    of_any_length(r, &mut bytes);
    bytes
}

/// An edit of a list of so many places: of twelve so many are strikes, one or two gather, the others add.
fn an_edit(r: &mut Random, places: usize, strikes: usize) -> Edit {
    match r.below(12) {
        k if k < strikes => Strike(a_number(r, places)),
        k if k < strikes + 1 + places % 2 => Gather,
        _ => Add(a_star(r, places)),
    }
}

// ---- the comparison

/// Bytes on either side of a list that is lent.
const NEAR: usize = 8;

/// A list between canaries, no two of which are the same beside each other.
fn lent(bytes: &[u8]) -> Vec<u8> {
    let canary: Vec<u8> = (0..NEAR).map(|i| 0xA5 ^ i as u8).collect();
    [&canary, bytes, &canary].concat()
}

/// The list of what is lent.
fn within(lent: &[u8]) -> &[u8] {
    &lent[NEAR..lent.len() - NEAR]
}

const NAMES: [&'static str; 3] = ["strike", "add", "gather"];

struct Counts([Count; 3]);

impl Counts {
    /// A call on what is lent, which is then as the port leaves it; its status.
    fn compare(&mut self, lent: &mut Vec<u8>, edit: &Edit) -> u8 {
        let before = lent.clone();
        let expected = edited(within(&before), edit);
        let len = within(lent).len();
        let bytes = lent[NEAR..].as_mut_ptr();
        let (which, status) = unsafe {
            match *edit {
                Strike(number) => (0, brundelak_strike(bytes, len, number)),
                Add(one) => (1, brundelak_add(bytes, len, one.number, one.asc, one.dec, one.asc_rate, one.dec_rate)),
                Gather => (2, brundelak_gather(bytes, len)),
            }
        };
        let mut want = before.clone();
        if let Ok(ref list) = expected {
            want[NEAR..NEAR + len].copy_from_slice(list);
        }
        let agrees = status == status_of(&expected) && *lent == want;
        self.0[which].tell(status, agrees, || format!("{:?}: status {}, {:?} for {:?}, {:?}", edit, status, lent, expected, before));
        status
    }

    /// A call on a list of its own.
    fn alone(&mut self, bytes: &[u8], edit: &Edit) {
        self.compare(&mut lent(bytes), edit);
    }
}

/// So many edits of one list, one after the other. Those that the port answered, and the list after them.
fn sequence(r: &mut Random, bytes: &[u8], edits: usize, counts: &mut Counts) -> (Vec<Edit>, Vec<u8>) {
    let (mut list, places, strikes) = (lent(bytes), bytes.len() / RECORD, 1 + r.below(6));
    let all: Vec<Edit> = (0..edits).map(|_| an_edit(r, places, strikes)).collect();
    let answered = all.iter().cloned().filter(|edit| counts.compare(&mut list, edit) == 0).collect();
    (answered, within(&list).to_vec())
}

/// The stars added less those struck off, each as its record's bytes.
fn ledger(answered: &[Edit]) -> Vec<Vec<u8>> {
    let mut stars: Vec<Record> = vec![];
    for edit in answered {
        match *edit {
            Strike(number) => {
                stars.iter().position(|added| added.number == number).map(|i| stars.remove(i));
            }
            Add(one) => stars.push(one),
            Gather => {}
        }
    }
    let mut all: Vec<Vec<u8>> = stars.iter().map(|one| one.bytes()).collect();
    all.sort();
    all
}

/// From zero bytes on the stars kept are the ledger's, and no number stands twice.
fn compare_ledger(r: &mut Random, places: usize, edits: usize, counts: &mut Counts, ledgers: &mut Count) {
    let (answered, list) = sequence(r, &vec![0; RECORD * places], edits, counts);
    let mut stars = kept(&list);
    stars.sort();
    let alone = stars.windows(2).all(|two| two[0][..4] != two[1][..4]);
    ledgers.tell(0, alone && stars == ledger(&answered), || format!("ledger: {:?} after {:?}", list, answered));
}

/// n lists, each edited in all three ways, and an eighth as many sequences on them and on zero bytes; then every length about the first
/// multiples, and the longest.
pub fn compare(n: u64) -> (u64, u64) {
    let mut r = Random(::SEED);
    let mut counts = Counts([Count::new(), Count::new(), Count::new()]);
    let mut ledgers = Count::new();
    for i in 0..n {
        let bytes = a_list(&mut r);
        let places = bytes.len() / RECORD;
        let edits = [Strike(a_number(&mut r, places)), Add(a_star(&mut r, places)), Gather];
        for edit in edits.iter() {
            counts.alone(&bytes, edit);
        }
        if i % 8 == 0 {
            sequence(&mut r, &bytes, 24, &mut counts);
            let places = r.below(10);
            compare_ledger(&mut r, places, 40, &mut counts, &mut ledgers);
        }
    }
    let last = RECORD * MOST_STARS;
    let good = |i: usize| Record { number: i as u32, asc: 2, dec: -3, asc_rate: 4, dec_rate: -5 };
    let full: Vec<u8> = (1..MOST_STARS + 2).flat_map(|i| good(i).bytes()).collect();
    let zeros = vec![0; full.len()];
    for len in (0..12 * RECORD + 2).chain(last - RECORD - 1..last - RECORD + 2).chain(last - 1..last + 2).chain(last + RECORD..last + RECORD + 1) {
        for bytes in [&full[..len], &zeros[..len]].iter() {
            for edit in [Strike(1), Strike((len / RECORD) as u32), Strike(0), Add(good(MOST_STARS + 2)), Add(good(1)), Add(good(0)), Gather].iter() {
                counts.alone(bytes, edit);
            }
        }
    }
    // The longest list: a star struck off its last place is added there again, and one of three places empty is gathered.
    let mut list = lent(&full[..last]);
    for edit in [Add(good(MOST_STARS + 1)), Strike(MOST_STARS as u32), Add(good(MOST_STARS + 1)), Add(good(MOST_STARS + 2)), Gather].iter() {
        counts.compare(&mut list, edit);
    }
    let holed: Vec<u8> = (1..MOST_STARS + 1).flat_map(|i| Record { number: (i % 3 * i) as u32, ..good(i) }.bytes()).collect();
    counts.alone(&holed, &Gather);
    sequence(&mut r, &holed, 40, &mut counts);
    compare_ledger(&mut r, MOST_STARS, 40, &mut counts, &mut ledgers);
    // As many adds as there are places, and one more.
    let few = 40;
    let mut list = lent(&zeros[..RECORD * few]);
    let adds = (1..few + 2).filter(|&i| counts.compare(&mut list, &Add(good(i))) == 0).count();
    ledgers.tell(0, adds == few, || format!("ledger: {} places took {} adds", few, adds));
    for (count, name) in counts.0.iter().zip(&NAMES) {
        println!("{}", count.line(name));
    }
    println!("{}", ledgers.line("ledger (from zero bytes)"));
    let met: [&[usize]; 3] = [&[0, 8, 10], &[0, 8, 9, 18, 19], &[0, 8]];
    let all = counts.0.iter().zip(&met).all(|(count, numbers)| numbers.iter().all(|&k| count.by[k] > 0));
    if !all {
        println!("edits: a refusal that was never met");
    }
    let (calls, differing) = counts.0.iter().fold((0, ledgers.differing), |t, c| (t.0 + c.calls, t.1 + c.differing));
    (calls, differing + !all as u64)
}

// ---- the sample

/// The sample's lists, each edited some times.
pub fn sample(n: u64) {
    println!("# A list, then calls that edit it where it stands, each what the one before left: strike NUMBER, add NUMBER ASC DEC RATE RATE and");
    println!("# gather = status, the whole list after it.");
    let mut r = Random(::SEED);
    for _ in 0..n {
        let mut bytes = a_list(&mut r);
        println!("list {}", hex(&bytes));
        let strikes = 1 + r.below(6);
        for _ in 0..8 {
            let edit = an_edit(&mut r, bytes.len() / RECORD, strikes);
            let call = match edit {
                Strike(number) => format!("strike {}", number),
                Add(one) => format!("add {}", one.told()),
                Gather => "gather".to_string(),
            };
            let after = edited(&bytes, &edit);
            bytes = after.clone().unwrap_or(bytes);
            println!("{} = {}", call, told(after, |list| hex(&list)));
        }
    }
}
