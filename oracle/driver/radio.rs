//! Lists over the radio link: document 02's request (i), in the form of request (x), written a second time, and the port's reader, writer
//! and movers compared with it. Form 3 is written; form 2, without rates, is read too.
use inputs::Random;
use lists::{a_bad_rate, a_rate, bad_list, Record, MOST_STARS, RECORD, UNTOUCHED};
use put::{compare_back, compare_put, hex, put_told, room, status_of, told, Answer};
use std::cmp;
use widths;
use Count;

extern "C" {
    fn brundelak_radio_open(bytes: *const u8, len: usize, count: *mut u32, place: *mut usize) -> u8;
    fn brundelak_radio_star(
        bytes: *const u8,
        len: usize,
        place: usize,
        number: *mut u32,
        asc: *mut u32,
        dec: *mut i32,
        asc_rate: *mut i32,
        dec_rate: *mut i32,
        next: *mut usize,
    ) -> u8;
    fn brundelak_radio_accept(bytes: *const u8, len: usize, count: *mut u32) -> u8;
    fn brundelak_radio_put_head(out: *mut u8, len: usize, place: usize, count: u32, next: *mut usize) -> u8;
    fn brundelak_radio_put_star(
        out: *mut u8,
        len: usize,
        place: usize,
        number: u32,
        asc: u32,
        dec: i32,
        asc_rate: i32,
        dec_rate: i32,
        next: *mut usize,
    ) -> u8;
    fn brundelak_radio_to_list(bytes: *const u8, len: usize, out: *mut u8, out_len: usize, written: *mut usize) -> u8;
    fn brundelak_list_to_radio(bytes: *const u8, len: usize, out: *mut u8, out_len: usize, written: *mut usize) -> u8;
}

// ---- requests (i) and (x)

const MOST: u32 = MOST_STARS as u32;
/// Bytes of a radio list at most: the first, two of the count, and for each star three numbers of five and two rates of three.
const MOST_BYTES: usize = 3 + 21 * MOST_STARS;

/// A number in as many groups as its bits need.
fn groups(n: u32) -> Vec<u8> {
    let count = cmp::max(1, (32 - n.leading_zeros() as usize + 6) / 7);
    (0..count).map(|k| (n as u64 >> (7 * k)) as u8 & 0x7F | if k + 1 < count { 0x80 } else { 0 }).collect()
}

/// A number from a place on, and the place after it. A byte shows 12 where no number of 32 bits is spelt so up to it.
fn number(bytes: &[u8], place: usize) -> Answer<(u32, usize)> {
    let (mut value, mut k) = (0u64, 0);
    loop {
        let byte = *place.checked_add(k).and_then(|i| bytes.get(i)).ok_or(13)?;
        value += ((byte & 0x7F) as u64) << (7 * k);
        k += 1;
        if byte < 0x80 {
            let shortest = k == 1 || value >= 1 << (7 * (k - 1));
            return if shortest && value <= 0xFFFFFFFF { Ok((value as u32, place + k)) } else { Err(12) };
        }
        // At least a 1 stands in the groups to come.
        if value + (1 << (7 * k)) > 0xFFFFFFFF {
            return Err(12);
        }
    }
}

fn folded(z: i32) -> u32 {
    let d = z as i64;
    (if d < 0 { -2 * d - 1 } else { 2 * d }) as u32
}

fn unfolded(n: u32) -> i32 {
    let half = (n / 2) as i32;
    if n % 2 == 0 {
        half
    } else {
        -half - 1
    }
}

/// How many numbers a star has, as the first byte says.
fn numbers_of(bytes: &[u8]) -> Answer<usize> {
    match bytes.first() {
        None => Err(13),
        Some(&2) => Ok(3),
        Some(&3) => Ok(5),
        Some(_) => Err(11),
    }
}

fn open(bytes: &[u8]) -> Answer<(u32, usize)> {
    numbers_of(bytes)?;
    let (count, place) = number(bytes, 1)?;
    if count > MOST {
        return Err(8);
    }
    Ok((count, place))
}

fn star(bytes: &[u8], place: usize) -> Answer<(Record, usize)> {
    let (mut of, mut place) = ([0; 5], place);
    for k in 0..numbers_of(bytes)? {
        let (n, next) = number(bytes, place)?;
        of[k] = n;
        place = next;
    }
    let one = Record { number: of[0], asc: of[1], dec: unfolded(of[2]), asc_rate: unfolded(of[3]), dec_rate: unfolded(of[4]) };
    if !one.in_range() {
        return Err(9);
    }
    Ok((one, place))
}

fn accept(bytes: &[u8]) -> Answer<Vec<Record>> {
    let (count, mut place) = open(bytes)?;
    let mut stars = vec![];
    for _ in 0..count {
        let (one, next) = star(bytes, place)?;
        stars.push(one);
        place = next;
    }
    if place != bytes.len() {
        return Err(13);
    }
    Ok(stars)
}

fn head(count: u32) -> Answer<Vec<u8>> {
    if count > MOST {
        return Err(8);
    }
    Ok([vec![3], groups(count)].concat())
}

/// A star's numbers in the form that has so many.
fn numbers(one: &Record, of: usize) -> Vec<Vec<u8>> {
    let all = [one.number, one.asc, folded(one.dec), folded(one.asc_rate), folded(one.dec_rate)];
    all[..of].iter().map(|&n| groups(n)).collect()
}

fn star_bytes(one: &Record) -> Answer<Vec<u8>> {
    if !one.in_range() {
        return Err(9);
    }
    Ok(numbers(one, 5).concat())
}

fn to_list(bytes: &[u8]) -> Answer<Vec<u8>> {
    Ok(accept(bytes)?.iter().flat_map(|one| one.bytes()).collect())
}

fn to_radio(bytes: &[u8]) -> Answer<Vec<u8>> {
    if bad_list(bytes) {
        return Err(8);
    }
    let mut radio = head((bytes.len() / RECORD) as u32)?;
    for i in 0..bytes.len() / RECORD {
        radio.extend(star_bytes(&Record::at(bytes, RECORD * i))?);
    }
    Ok(radio)
}

// ---- inputs

/// A number of any length.
fn a_number(r: &mut Random) -> u32 {
    const AT: [u32; 11] = [0, 1, 127, 128, 16383, 16384, 2097151, 2097152, 268435455, 268435456, 0xFFFFFFFF];
    match r.below(3) {
        0 => AT[r.below(11)],
        _ => (r.bits() as u32) >> r.below(32),
    }
}

/// A star, in range but for one of so many.
fn record(r: &mut Random, out_of: usize) -> Record {
    const ASC: [u32; 5] = [1296000000, 1296000001, 0x7FFFFFFF, 0x80000000, 0xFFFFFFFF];
    const DEC: [i32; 4] = [324000001, -324000001, 2147483647, -2147483648];
    let mut one = Record {
        number: a_number(r),
        asc: cmp::min(a_number(r), 1295999999),
        dec: cmp::min(cmp::max(unfolded(a_number(r)), -324000000), 324000000),
        asc_rate: a_rate(r),
        dec_rate: a_rate(r),
    };
    if r.below(out_of) == 0 {
        match r.below(4) {
            0 => one.asc = ASC[r.below(5)],
            1 => one.dec = DEC[r.below(4)],
            2 => one.asc_rate = a_bad_rate(r),
            _ => one.dec_rate = a_bad_rate(r),
        }
    }
    one
}

/// The first byte of the form that has so many numbers a star.
fn mark(of: usize) -> u8 {
    if of == 3 {
        2
    } else {
        3
    }
}

/// A radio list of either form, as its first byte and its numbers' groups.
fn pieces(r: &mut Random, of: usize) -> Vec<Vec<u8>> {
    let stars = if r.below(8) == 0 { 0 } else { 1 + r.below(9) };
    let mut all = vec![vec![mark(of)], groups(stars as u32)];
    for _ in 0..stars {
        all.extend(numbers(&record(r, 24), of));
    }
    all
}

/// A radio list, good or a slip or two from it, or any bytes.
fn radio(r: &mut Random) -> Vec<u8> {
    const FIFTH: [u8; 8] = [0, 1, 0x0F, 0x10, 0x7F, 0x80, 0x8F, 0xFF];
    const COUNTS: [u32; 5] = [MOST - 1, MOST, MOST + 1, 65536, 0xFFFFFFFF];
    let of = [3, 5, 5][r.below(3)];
    let mut all = pieces(r, of);
    let (mut over, mut cut) = (vec![], None);
    for _ in 0..[0, 0, 1, 2][r.below(4)] {
        let last = all.len() - 1;
        let at = 1 + r.below(last);
        match r.below(9) {
            // One group more than it needs.
            0 => {
                let end = all[at].len() - 1;
                all[at][end] |= 0x80;
                all[at].push(0);
            }
            1 => all[at] = vec![r.bits() as u8 | 0x80, 0xFF, 0x80, r.bits() as u8 | 0x80, FIFTH[r.below(8)]],
            // Six groups.
            2 => all[at] = vec![0x80, 0x80, 0x80, 0x80, 0x81 + r.below(15) as u8, 1],
            3 => all[1] = groups((last / of) as u32 + 1),
            4 => all[1] = groups(COUNTS[r.below(5)]),
            5 => over = (0..1 + r.below(3)).map(|_| r.below(3) as u8).collect(),
            6 => cut = Some(r.bits() as usize),
            7 => all[0] = vec![r.below(6) as u8],
            _ => {
                let k = r.below(all[at].len());
                all[at][k] = r.bits() as u8;
            }
        }
    }
    let mut bytes = all.concat();
    bytes.extend(over);
    if let Some(k) = cut {
        let left = k % (bytes.len() + 1);
        bytes.truncate(left);
    }
    if r.below(24) == 0 {
        bytes = (0..r.below(40)).map(|_| r.bits() as u8).collect();
        if r.below(2) == 0 && !bytes.is_empty() {
            bytes[0] = mark(of);
        }
    }
    bytes
}

/// A stored list, as a mover may get it.
fn list(r: &mut Random) -> Vec<u8> {
    let stars = r.below(12);
    let mut bytes: Vec<u8> = (0..stars).flat_map(|_| record(r, 40).bytes()).collect();
    if r.below(10) == 0 {
        bytes.extend((0..1 + r.below(RECORD - 1)).map(|_| 0));
    }
    bytes
}

/// A place: most often of a star, as reading goes.
fn a_place(r: &mut Random, bytes: &[u8]) -> usize {
    const FAR: [usize; 4] = [!0, !0 - 1, !0 - 4, 1 << 63];
    match r.below(8) {
        0 => FAR[r.below(4)],
        1 => r.below(bytes.len() + 4),
        2 => bytes.len() - cmp::min(bytes.len(), r.below(6)),
        _ => {
            let (stars, mut place) = open(bytes).unwrap_or((1, 2));
            for _ in 0..r.below(cmp::max(1, stars as usize)) {
                place = star(bytes, place).map(|s| s.1).unwrap_or(place);
            }
            place
        }
    }
}

// ---- the comparison

fn compare_open(bytes: &[u8], count: &mut Count) {
    let expected = open(bytes);
    let kept = (0xA5A5A5A5, 0x1234567);
    let mut got = kept;
    let status = unsafe { brundelak_radio_open(bytes.as_ptr(), bytes.len(), &mut got.0, &mut got.1) };
    let agrees = status == status_of(&expected) && got == expected.unwrap_or(kept);
    count.tell(status, agrees, || format!("radio_open: {:?} for {:?}, {:?}", got, expected, bytes));
}

fn compare_star(bytes: &[u8], place: usize, count: &mut Count) {
    let expected = star(bytes, place);
    let kept = (UNTOUCHED, 0x1234567);
    let (mut one, mut next) = kept;
    let status = unsafe {
        brundelak_radio_star(
            bytes.as_ptr(),
            bytes.len(),
            place,
            &mut one.number,
            &mut one.asc,
            &mut one.dec,
            &mut one.asc_rate,
            &mut one.dec_rate,
            &mut next,
        )
    };
    let agrees = status == status_of(&expected) && (one, next) == expected.unwrap_or(kept);
    count.tell(status, agrees, || format!("radio_star: {:?} for {:?}, place {} of {:?}", (one, next), expected, place, bytes));
}

fn compare_accept(bytes: &[u8], count: &mut Count) {
    let expected = accept(bytes).map(|stars| stars.len() as u32);
    let mut got = 0xA5A5A5A5;
    let status = unsafe { brundelak_radio_accept(bytes.as_ptr(), bytes.len(), &mut got) };
    let agrees = status == status_of(&expected) && got == expected.unwrap_or(0xA5A5A5A5);
    count.tell(status, agrees, || format!("radio_accept: {} for {:?}, {:?}", got, expected, bytes));
}

fn compare_put_head(r: &mut Random, count: &mut Count) {
    let stars = [0, 127, 128, MOST, MOST + 1, r.below(MOST_STARS) as u32, a_number(r)][r.below(7)];
    let (place, text) = (a_place(r, &[3; 12]), head(stars));
    let len = room(r, place, &text);
    compare_put("radio_put_head", text, len, place, count, |out, next| unsafe { brundelak_radio_put_head(out, len, place, stars, next) });
}

fn compare_put_star(r: &mut Random, count: &mut Count) {
    let one = record(r, 4);
    let (place, text) = (a_place(r, &[3; 12]), star_bytes(&one));
    let len = room(r, place, &text);
    compare_put("radio_put_star", text, len, place, count, |out, next| unsafe {
        brundelak_radio_put_star(out, len, place, one.number, one.asc, one.dec, one.asc_rate, one.dec_rate, next)
    });
}

/// The radio list that a stored list's list must be: the same bytes, or of form 2 the same stars in form 3, their rates zero.
fn written_again(bytes: &[u8]) -> Vec<u8> {
    if numbers_of(bytes) != Ok(3) {
        return bytes.to_vec();
    }
    let (stars, mut place) = open(bytes).unwrap();
    let mut all = [&[3], &bytes[1..place]].concat();
    for _ in 0..stars {
        let next = star(bytes, place).unwrap().1;
        all.extend([&bytes[place..next], &[0, 0]].concat());
        place = next;
    }
    all
}

/// What a list of form 2 says is the list of before, of 12 bytes a star, moved up.
fn read_as_before(bytes: &[u8], list: &[u8]) -> bool {
    let of_before: Vec<u8> = list.chunks(RECORD).flat_map(|r| r[..12].to_vec()).collect();
    numbers_of(bytes) != Ok(3) || widths::up(&of_before) == Ok(list.to_vec())
}

fn compare_to_list(bytes: &[u8], len: usize, count: &mut Count) {
    let text = to_list(bytes);
    if let Ok(ref list) = text {
        compare_back("radio_to_list", to_radio(list), &written_again(bytes), count);
        if !read_as_before(bytes, list) {
            count.differ(|| format!("radio_to_list: {:?} is not the list of before", bytes));
        }
    }
    compare_put("radio_to_list", text, len, 0, count, |out, written| unsafe {
        brundelak_radio_to_list(bytes.as_ptr(), bytes.len(), out, len, written)
    });
}

fn compare_to_radio(bytes: &[u8], len: usize, count: &mut Count) {
    let text = to_radio(bytes);
    if let Ok(ref radio) = text {
        compare_back("list_to_radio", to_list(radio), bytes, count);
    }
    compare_put("list_to_radio", text, len, 0, count, |out, written| unsafe {
        brundelak_list_to_radio(bytes.as_ptr(), bytes.len(), out, len, written)
    });
}

/// The longest lists of both forms, and what a count promises that the bytes do not hold.
fn longest() -> Vec<Vec<u8>> {
    let widest = Record { number: 0xFFFFFFFF, asc: 1295999999, dec: -324000000, asc_rate: -20000, dec_rate: 20000 };
    let mut lists = vec![];
    for &of in [3, 5].iter() {
        let head = |n: u32| [vec![mark(of)], groups(n)].concat();
        let stars = |n: u32| [head(n), (0..n).flat_map(|_| numbers(&widest, of).concat()).collect()].concat();
        let full = stars(MOST);
        lists.extend(vec![
            [&full[..], &[0]].concat(),
            full[..full.len() - 1].to_vec(),
            full,
            stars(MOST - 1),
            stars(MOST + 1),
            head(MOST),
            [&head(MOST)[..], &[0, 0, 0]].concat(),
            [&[mark(of)][..], &[0xFF, 0xFF, 0xFF, 0xFF, 0x0F]].concat(),
        ]);
    }
    lists
}

/// n radio lists read, accepted and moved, n stored lists moved, and as many heads and stars written.
pub fn compare(n: u64) -> (u64, u64) {
    let mut r = Random(::SEED);
    let (mut opens, mut stars, mut accepts) = (Count::new(), Count::new(), Count::new());
    let (mut heads, mut puts, mut downs, mut ups) = (Count::new(), Count::new(), Count::new(), Count::new());
    let mut lists = longest();
    lists.extend((0..n).map(|_| radio(&mut r)));
    for bytes in &lists {
        compare_open(bytes, &mut opens);
        for _ in 0..3 {
            let place = a_place(&mut r, bytes);
            compare_star(bytes, place, &mut stars);
        }
        compare_accept(bytes, &mut accepts);
        let len = room(&mut r, 0, &to_list(bytes));
        compare_to_list(bytes, len, &mut downs);
        compare_put_head(&mut r, &mut heads);
        compare_put_star(&mut r, &mut puts);
        let stored = to_list(bytes).unwrap_or_else(|_| list(&mut r));
        let len = room(&mut r, 0, &to_radio(&stored));
        compare_to_radio(&stored, len, &mut ups);
    }
    let star = Record { number: 1, asc: 2, dec: 3, asc_rate: -4, dec_rate: 5 }.bytes();
    for &n in [MOST_STARS - 1, MOST_STARS, MOST_STARS + 1].iter() {
        compare_to_radio(&star.iter().cloned().cycle().take(RECORD * n).collect::<Vec<u8>>(), MOST_BYTES, &mut ups);
    }
    let met = |c: &Count, numbers: &[usize]| numbers.iter().all(|&k| c.by[k] > 0);
    let all = met(&opens, &[0, 8, 11, 12, 13])
        && met(&stars, &[0, 9, 11, 12, 13])
        && met(&accepts, &[0, 8, 9, 11, 12, 13])
        && met(&heads, &[0, 8])
        && met(&puts, &[0, 8, 9])
        && met(&downs, &[0, 8, 9, 11, 12, 13])
        && met(&ups, &[0, 8, 9]);
    if !all {
        println!("radio: a refusal that was never met");
    }
    let counts = [
        ("radio_open", opens),
        ("radio_star", stars),
        ("radio_accept", accepts),
        ("radio_put_head", heads),
        ("radio_put_star", puts),
        ("radio_to_list", downs),
        ("list_to_radio", ups),
    ];
    for &(name, ref count) in counts.iter() {
        println!("{}", count.line(name));
    }
    let (calls, differing) = counts.iter().fold((0, 0), |t, c| (t.0 + c.1.calls, t.1 + c.1.differing));
    (calls, differing + !all as u64)
}

// ---- the sample

/// The sample's radio lists, and a stored list for each.
pub fn sample(n: u64) {
    println!("# A radio list in hexadecimal, then calls on it: radio_open = status, count, place; radio_star PLACE = status, number, right");
    println!("# ascension, declination, both rates, next place; radio_accept = status, count; radio_to_list LENGTH = status, what is written");
    println!("# into a slice of so many bytes; radio_put_head LENGTH PLACE COUNT and radio_put_star LENGTH PLACE NUMBER ASC DEC RATE RATE");
    println!("# likewise. Then a stored list and list_to_radio LENGTH.");
    let mut r = Random(::SEED);
    for _ in 0..n {
        let bytes = radio(&mut r);
        println!("radio {}", hex(&bytes));
        println!("radio_open = {}", told(open(&bytes), |(count, place)| format!("{} {}", count, place)));
        let mut places: Vec<usize> = (0..3).map(|_| a_place(&mut r, &bytes)).collect();
        places.dedup();
        for place in places {
            let answer = told(star(&bytes, place), |(s, next)| format!("{} {}", s.told(), next));
            println!("radio_star {} = {}", place, answer);
        }
        println!("radio_accept = {}", told(accept(&bytes), |stars| stars.len().to_string()));
        let len = room(&mut r, 0, &to_list(&bytes));
        println!("radio_to_list {} = {}", len, put_told(to_list(&bytes), len, 0));
        let stars = [0, 127, 128, MOST, MOST + 1, a_number(&mut r)][r.below(6)];
        let place = r.below(9);
        let len = room(&mut r, place, &head(stars));
        println!("radio_put_head {} {} {} = {}", len, place, stars, put_told(head(stars), len, place));
        let one = record(&mut r, 4);
        let len = room(&mut r, place, &star_bytes(&one));
        println!("radio_put_star {} {} {} = {}", len, place, one.told(), put_told(star_bytes(&one), len, place));
        let stored = list(&mut r);
        let len = room(&mut r, 0, &to_radio(&stored));
        println!("list {}", hex(&stored));
        println!("list_to_radio {} = {}", len, put_told(to_radio(&stored), len, 0));
    }
}
