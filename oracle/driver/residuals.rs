//! The residual sheet: request (xiii) written a second time, over whole numbers, and the port's compared with it.
use inputs::{beyond, damaged, Random};
use lists::MOST_STARS;
use put::{hex, status_of, told, Answer};
use std::f64::consts::PI;
use written::folded;
use Count;

extern "C" {
    fn brundelak_residuals(
        status: *const u8,
        status_len: usize,
        asc: *const u64,
        asc_len: usize,
        dec: *const u64,
        dec_len: usize,
        measured_asc: *const u64,
        measured_asc_len: usize,
        measured_dec: *const u64,
        measured_dec_len: usize,
        asc_sheet: *mut i64,
        dec_sheet: *mut i64,
    ) -> u8;
}

// ---- request (xiii)

/// The statuses, and the bits of four slices of angles: computed right ascensions and declinations, then the measured ones.
#[derive(Clone, Debug)]
struct Night {
    status: Vec<u8>,
    angles: [Vec<u64>; 4],
}

/// Count, sum, sum of squares, largest size, its first place, set aside.
type Sheet = [i128; 6];

/// A double as a whole number and a power of two that it is multiplied by.
fn parts(x: f64) -> (i128, i32) {
    let exponent = (x.to_bits() >> 52 & 0x7FF) as i32;
    let fraction = (x.to_bits() & 0xFFFFFFFFFFFFF) as i128;
    let size = if exponent == 0 { fraction } else { fraction + (1 << 52) };
    (if x.is_sign_negative() { -size } else { size }, exponent.max(1) - 1075)
}

/// The nearest whole number, halves away from zero.
fn nearest(x: f64) -> i128 {
    let (n, power) = parts(x);
    if power >= 0 {
        return n << power;
    }
    if power < -100 {
        return 0;
    }
    let one = 1i128 << -power;
    let size = (2 * n.abs() + one) / (2 * one);
    n.signum() * size
}

/// In right ascension the shorter way round.
fn across_the_turn(x: f64) -> f64 {
    let y = folded(x, 2.0 * PI);
    if y > PI {
        y - 2.0 * PI
    } else {
        y
    }
}

fn residual(right_ascension: bool, computed: f64, measured: f64) -> i128 {
    let x = computed - measured;
    let x = if right_ascension { across_the_turn(x) } else { x };
    nearest(x * (180.0 / PI) * 3600000.0)
}

fn sheet(night: &Night, coordinate: usize) -> Sheet {
    let (computed, measured) = (&night.angles[coordinate], &night.angles[coordinate + 2]);
    let all: Vec<(usize, i128)> = (0..night.status.len())
        .filter(|&i| night.status[i] == 0)
        .map(|i| (i, residual(coordinate == 0, f64::from_bits(computed[i]), f64::from_bits(measured[i]))))
        .collect();
    let taken: Vec<(usize, i128)> = all.iter().cloned().filter(|one| one.1.abs() <= 1000000).collect();
    let largest = taken.iter().map(|one| one.1.abs()).max().unwrap_or(0);
    let place = taken.iter().find(|one| one.1.abs() == largest).map_or(0, |one| one.0);
    let sum = taken.iter().map(|one| one.1).sum();
    let squares = taken.iter().map(|one| one.1 * one.1).sum();
    [taken.len() as i128, sum, squares, largest, place as i128, (all.len() - taken.len()) as i128]
}

fn sheets(night: &Night) -> Answer<[Sheet; 2]> {
    let n = night.status.len();
    if night.angles.iter().any(|slice| slice.len() != n) || n > MOST_STARS {
        return Err(8);
    }
    let tested: Vec<f64> = night.angles.iter().flat_map(|slice| slice.iter().map(|&b| f64::from_bits(b))).collect();
    if tested.iter().any(|x| !x.is_finite()) {
        return Err(1);
    }
    if tested.iter().any(|x| x.abs() > 64.0) {
        return Err(3);
    }
    Ok([sheet(night, 0), sheet(night, 1)])
}

// ---- inputs

/// An angle of so many milliarcseconds, as nearly as doubles have it.
fn angle(milliarcseconds: f64) -> f64 {
    milliarcseconds / 3600000.0 * (PI / 180.0)
}

/// One that is a whole number and a half of them, bit for bit, where doubles beside the nearest have it.
fn half(whole: u64) -> f64 {
    let wanted = whole as f64 + 0.5;
    let near = angle(wanted).to_bits();
    (near - 8..near + 8).map(f64::from_bits).find(|&x| x * (180.0 / PI) * 3600000.0 == wanted).unwrap_or(f64::from_bits(near))
}

/// Beside a limit, from few so that the same are met again, or any that is taken in.
fn a_size(r: &mut Random) -> f64 {
    match r.below(8) {
        0 => angle([999999.4, 999999.6, 1000000.0, 1000000.4, 1000000.6, 1000001.0][r.below(6)]),
        1 => half([0, 1, 2, 3, 999998, 999999, 1000000][r.below(7)]),
        2 => half(r.below(1000000) as u64),
        3 => r.between(0.0, 64.0),
        4 => r.between(0.0, angle(1000000.0)),
        _ => angle(r.below(4) as f64),
    }
}

/// Computed and measured: apart by a size, either way, from zero or from anywhere, and by turns as well.
fn two_angles(r: &mut Random) -> (f64, f64) {
    let size = a_size(r);
    let apart = if r.below(2) == 0 { size } else { -size };
    let from = match r.below(4) {
        0 => 0.0,
        1 => [2.0 * PI, PI, -PI, -0.0, 64.0, -64.0][r.below(6)],
        _ => r.between(-7.0, 7.0),
    };
    let turns = if r.below(4) == 0 { 2.0 * PI * (r.below(9) as f64 - 4.0) } else { 0.0 };
    let (computed, measured) = (from + apart + turns, from);
    if r.below(2) == 0 {
        (computed.max(-64.0).min(64.0), measured)
    } else {
        (-measured, -computed.max(-64.0).min(64.0))
    }
}

fn a_status(r: &mut Random) -> u8 {
    match r.below(6) {
        0 => r.bits() as u8,
        1 => [1, 3, 9, 10, 255][r.below(5)],
        _ => 0,
    }
}

/// Of so many entries. In some all are measured where they are computed.
fn of_entries(r: &mut Random, entries: usize) -> Night {
    let still = r.below(8) == 0;
    let mut night = Night { status: vec![], angles: [vec![], vec![], vec![], vec![]] };
    for _ in 0..entries {
        night.status.push(a_status(r));
        for k in 0..2 {
            let (computed, measured) = two_angles(r);
            night.angles[k].push(computed.to_bits());
            night.angles[k + 2].push(if still { computed } else { measured }.to_bits());
        }
    }
    night
}

/// Some floats that are refused, or the last that is not; in some of them 3 stands before 1.
fn damage(r: &mut Random, night: &mut Night) {
    for _ in 0..1 + r.below(3) {
        let slice = &mut night.angles[r.below(4)];
        if !slice.is_empty() {
            let i = r.below(slice.len());
            let x = [64.0, beyond(64.0), 65.0, damaged(r)][r.below(4)];
            slice[i] = if r.below(2) == 0 { x } else { -x }.to_bits();
        }
    }
}

/// One of the slices, or two, of another length.
fn cut(r: &mut Random, night: &mut Night) {
    for _ in 0..1 + r.below(2) {
        let (which, longer) = (r.below(5), r.below(2) == 0);
        if which == 4 {
            let len = night.status.len();
            night.status.resize(if longer { len + 1 } else { len.saturating_sub(1) }, 0);
        } else {
            let len = night.angles[which].len();
            night.angles[which].resize(if longer { len + 1 } else { len.saturating_sub(1) }, 0);
        }
    }
}

fn a_night(r: &mut Random) -> Night {
    let entries = r.below(9);
    let mut night = of_entries(r, entries);
    if r.below(5) == 0 {
        damage(r, &mut night);
    }
    if r.below(8) == 0 {
        cut(r, &mut night);
    }
    night
}

// ---- the comparison

/// Numbers that no sheet has, between which both are lent.
const CANARY: i64 = 0x5AA55AA55AA55AA5;

fn compare_one(night: &Night, count: &mut Count) {
    let expected = sheets(night);
    let (mut got, mut want) = ([CANARY; 16], [CANARY; 16]);
    for (i, number) in got.iter_mut().enumerate() {
        *number ^= i as i64;
        want[i] = *number;
    }
    if let Ok(ref two) = expected {
        for (k, one) in two.iter().enumerate() {
            for (i, &number) in one.iter().enumerate() {
                want[1 + 8 * k + i] = number as i64;
            }
        }
    }
    let lent = night.clone();
    let [ref a, ref b, ref c, ref d] = lent.angles;
    let (asc_sheet, dec_sheet) = (got[1..].as_mut_ptr(), got[9..].as_mut_ptr());
    let status = unsafe {
        brundelak_residuals(
            lent.status.as_ptr(),
            lent.status.len(),
            a.as_ptr(),
            a.len(),
            b.as_ptr(),
            b.len(),
            c.as_ptr(),
            c.len(),
            d.as_ptr(),
            d.len(),
            asc_sheet,
            dec_sheet,
        )
    };
    let kept = lent.status == night.status && lent.angles == night.angles;
    let agrees = kept && status == status_of(&expected) && got == want;
    count.tell(status, agrees, || format!("residuals: status {}, {:?} for {:?}, {:?}", status, got, expected, night));
}

/// n nights, then those of the most entries and of one more, and of every status.
pub fn compare(n: u64) -> (u64, u64) {
    let mut r = Random(::SEED);
    let mut count = Count::new();
    for _ in 0..n {
        compare_one(&a_night(&mut r), &mut count);
    }
    for &entries in [256, MOST_STARS - 1, MOST_STARS, MOST_STARS + 1].iter() {
        let mut night = of_entries(&mut r, entries);
        compare_one(&night, &mut count);
        for i in 0..entries {
            night.status[i] = i as u8;
        }
        compare_one(&night, &mut count);
        // the widest sums, either way
        for &(computed, measured) in [(angle(1000000.0), 0.0), (0.0, angle(1000000.0))].iter() {
            let bits = |x: f64| vec![x.to_bits(); entries];
            let angles = [bits(computed), bits(computed), bits(measured), bits(measured)];
            compare_one(&Night { status: vec![0; entries], angles }, &mut count);
        }
        for _ in 0..4 {
            let mut night = night.clone();
            cut(&mut r, &mut night);
            compare_one(&night, &mut count);
        }
    }
    println!("{}", count.line("residuals"));
    let all = [0, 1, 3, 8].iter().all(|&k| count.by[k] > 0);
    if !all {
        println!("residuals: a refusal that was never met");
    }
    (count.calls, count.differing + !all as u64)
}

// ---- the sample

/// The sample's nights.
pub fn sample(n: u64) {
    println!("# residuals, the lengths of its five slices, the statuses' bytes (- where there is none), the angles' bits, slice by slice = status,");
    println!("# then both sheets.");
    let mut r = Random(::SEED);
    for _ in 0..n {
        let night = a_night(&mut r);
        let lengths: Vec<String> = night.angles.iter().map(|slice| slice.len().to_string()).collect();
        let angles: Vec<f64> = night.angles.iter().flat_map(|slice| slice.iter().map(|&b| f64::from_bits(b))).collect();
        let statuses = if night.status.is_empty() { "-".to_string() } else { hex(&night.status) };
        let numbers = |two: [Sheet; 2]| two.iter().flat_map(|one| one.iter().map(|n| n.to_string())).collect::<Vec<_>>().join(" ");
        println!("residuals {} {} {}{} = {}", night.status.len(), lengths.join(" "), statuses, ::hex(&angles), told(sheets(&night), numbers));
    }
}
