//! The moves between widths: request (x)'s, written a second time, and the port's compared with them. A list of before has 12 bytes a star.
use inputs::Random;
use lists::{a_bad_rate, a_rate, bad_list, empty_some, records, Record, MOST_STARS, RECORD};
use put::{compare_back, compare_put, hex, put_told, room, Answer};
use Count;

extern "C" {
    fn brundelak_list_12_to_20(bytes: *const u8, len: usize, out: *mut u8, out_len: usize, written: *mut usize) -> u8;
    fn brundelak_list_20_to_12(bytes: *const u8, len: usize, out: *mut u8, out_len: usize, written: *mut usize) -> u8;
}

// ---- request (x)

/// Bytes of a record of before.
const OLD: usize = 12;

fn refused_record(list: &[u8]) -> Answer<()> {
    if records(list).iter().any(|one| !one.in_range()) {
        return Err(9);
    }
    Ok(())
}

pub fn up(bytes: &[u8]) -> Answer<Vec<u8>> {
    if bytes.len() % OLD != 0 || bytes.len() / OLD > MOST_STARS {
        return Err(8);
    }
    let list: Vec<u8> = bytes.chunks(OLD).flat_map(|old| [old, &[0; 8]].concat()).collect();
    refused_record(&list)?;
    Ok(list)
}

fn down(bytes: &[u8]) -> Answer<Vec<u8>> {
    if bad_list(bytes) {
        return Err(8);
    }
    refused_record(bytes)?;
    if records(bytes).iter().any(|one| one.asc_rate != 0 || one.dec_rate != 0) {
        return Err(17);
    }
    Ok(bytes.chunks(RECORD).flat_map(|record| record[..OLD].to_vec()).collect())
}

// ---- inputs

/// A star that stands still, in range but for one of so many.
pub fn still(r: &mut Random, out_of: usize) -> Record {
    const ASC: [u32; 3] = [1296000000, 0x80000000, 0xFFFFFFFF];
    const DEC: [i32; 4] = [324000001, -324000001, 2147483647, -2147483648];
    let mut one = Record {
        number: r.bits() as u32,
        asc: r.below(1296000000) as u32,
        dec: r.below(648000001) as i32 - 324000000,
        asc_rate: 0,
        dec_rate: 0,
    };
    match r.below(2 * out_of) {
        0 => one.asc = ASC[r.below(3)],
        1 => one.dec = DEC[r.below(4)],
        2 => one = Record { asc: 1295999999, dec: 324000000, ..one },
        3 => one = Record { asc: 0, dec: -324000000, ..one },
        _ => {}
    }
    one
}

/// Some bytes over, or fewer.
pub fn of_any_length(r: &mut Random, bytes: &mut Vec<u8>) {
    match r.below(12) {
        0 => bytes.extend((0..1 + r.below(RECORD - 1)).map(|_| 0)),
        1 => {
            let left = bytes.len().saturating_sub(1 + r.below(RECORD - 1));
            bytes.truncate(left);
        }
        _ => {}
    }
}

fn list_of_before(r: &mut Random) -> Vec<u8> {
    let stars = r.below(24);
    let mut bytes: Vec<u8> = (0..stars).flat_map(|_| still(r, 60).bytes()[..OLD].to_vec()).collect();
    of_any_length(r, &mut bytes);
    bytes
}

/// A list of 20 bytes a star, in which any star may move: before or behind one out of range.
fn list(r: &mut Random) -> Vec<u8> {
    let stars = r.below(24);
    let mut all: Vec<Record> = (0..stars).map(|_| still(r, 60)).collect();
    for _ in 0..if stars == 0 { 0 } else { [0, 0, 1, 2][r.below(4)] } {
        let one = &mut all[r.below(stars)];
        match r.below(6) {
            0 => one.asc_rate = a_bad_rate(r),
            1 => one.dec_rate = a_bad_rate(r),
            2 => one.asc_rate = a_rate(r),
            3 => one.dec_rate = a_rate(r),
            4 => one.asc_rate = [1, -1, 256, -65536][r.below(4)],
            _ => one.dec_rate = [1, -1, 256, 16777216][r.below(4)],
        }
    }
    let mut bytes: Vec<u8> = all.iter().flat_map(|one| one.bytes()).collect();
    of_any_length(r, &mut bytes);
    bytes
}

// ---- the comparison

fn compare_up(bytes: &[u8], len: usize, count: &mut Count) {
    let text = up(bytes);
    if let Ok(ref list) = text {
        compare_back("list_12_to_20", down(list), bytes, count);
    }
    compare_put("list_12_to_20", text, len, 0, count, |out, written| unsafe {
        brundelak_list_12_to_20(bytes.as_ptr(), bytes.len(), out, len, written)
    });
}

fn compare_down(bytes: &[u8], len: usize, count: &mut Count) {
    let text = down(bytes);
    if let Ok(ref of_before) = text {
        compare_back("list_20_to_12", up(of_before), bytes, count);
    }
    compare_put("list_20_to_12", text, len, 0, count, |out, written| unsafe {
        brundelak_list_20_to_12(bytes.as_ptr(), bytes.len(), out, len, written)
    });
}

/// n lists moved up, n down, and each of these the other way too, all of them also with empty places; then every length about the first
/// multiples, and the longest.
pub fn compare(n: u64) -> (u64, u64) {
    let (mut r, mut emptier) = (Random(::SEED), Random(::SEED));
    let (mut ups, mut downs) = (Count::new(), Count::new());
    for _ in 0..n {
        let (of_before, now) = (list_of_before(&mut r), list(&mut r));
        let (mut holed_before, mut holed) = (of_before.clone(), now.clone());
        empty_some(&mut emptier, OLD, &mut holed_before);
        empty_some(&mut emptier, RECORD, &mut holed);
        for bytes in [&of_before, &now, &holed_before, &holed].iter() {
            let len = room(&mut r, 0, &up(bytes));
            compare_up(bytes, len, &mut ups);
            let len = room(&mut r, 0, &down(bytes));
            compare_down(bytes, len, &mut downs);
        }
    }
    let most = RECORD * (MOST_STARS + 1);
    let mut full = Record { number: 1, asc: 2, dec: 3, asc_rate: 0, dec_rate: 0 }.bytes().iter().cloned().cycle().take(most).collect::<Vec<u8>>();
    for width in [OLD, RECORD].iter() {
        let (few, last) = (12 * RECORD + 2, width * MOST_STARS);
        for len in (0..few).chain(last - width..last + width + 1) {
            compare_up(&vec![0; len], most, &mut ups);
            compare_down(&full[..len], most, &mut downs);
        }
    }
    // 9 anywhere comes before 17 anywhere, and 17 before a slice that is too short.
    let last = RECORD * (MOST_STARS - 1);
    full.truncate(last + RECORD);
    full[12] = 1;
    compare_down(&full, most, &mut downs);
    compare_down(&full, 0, &mut downs);
    full[last + 7] = 0xFF;
    compare_down(&full, most, &mut downs);
    for &(name, ref count) in [("list_12_to_20", &ups), ("list_20_to_12", &downs)].iter() {
        println!("{}", count.line(name));
    }
    let all = [0, 8, 9].iter().all(|&k| ups.by[k] > 0) && [0, 8, 9, 17].iter().all(|&k| downs.by[k] > 0);
    if !all {
        println!("widths: a refusal that was never met");
    }
    (ups.calls + downs.calls, ups.differing + downs.differing + !all as u64)
}

// ---- the sample

/// The sample's lists of both widths, each moved both ways; behind them a quarter as many with empty places.
pub fn sample(n: u64) {
    println!("# A list, then list_12_to_20 LENGTH and list_20_to_12 LENGTH = status, what is written into a slice of so many bytes.");
    let mut r = Random(::SEED);
    for k in 0..n + n / 4 {
        let mut bytes = if k % 2 == 0 { list_of_before(&mut r) } else { list(&mut r) };
        if k >= n {
            empty_some(&mut r, [OLD, RECORD][k as usize % 2], &mut bytes);
        }
        println!("list {}", hex(&bytes));
        let len = room(&mut r, 0, &up(&bytes));
        println!("list_12_to_20 {} = {}", len, put_told(up(&bytes), len, 0));
        let len = room(&mut r, 0, &down(&bytes));
        println!("list_20_to_12 {} = {}", len, put_told(down(&bytes), len, 0));
    }
}
