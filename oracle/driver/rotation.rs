//! Request (xiv) written a second time: the three angles of precession as one rotation of the axes, applied to a star's unit vector. The
//! port's rotate is compared with it, over lists as a batch's, and over stars in the axes, which show the matrix entry by entry.
use functions::Outcome::{self, Answer, Refused};
use inputs::Random;
use lists::{self, Edition, Record, RECORD};
use put::hex;
use written;
use Count;

const CRATE: Edition = Edition { name: "rotate", call: lists::brundelak_rotate, chain: crate_rotated };
const PUBLISHED: Edition = Edition { name: "rotate_published", call: lists::brundelak_rotate_published, chain: published_rotated };

// ---- the rule

type Matrix = [[f64; 3]; 3];

/// Products summed left to right, none left out.
fn sum(products: [f64; 3]) -> f64 {
    (products[0] + products[1]) + products[2]
}

fn times(a: Matrix, b: Matrix) -> Matrix {
    let mut m = [[0.0; 3]; 3];
    for i in 0..3 {
        for j in 0..3 {
            m[i][j] = sum([a[i][0] * b[0][j], a[i][1] * b[1][j], a[i][2] * b[2][j]]);
        }
    }
    m
}

fn about_third(angle: f64) -> Matrix {
    let (s, c) = (written::sine(angle), written::cosine(angle));
    [[c, s, 0.0], [-s, c, 0.0], [0.0, 0.0, 1.0]]
}

fn about_second(angle: f64) -> Matrix {
    let (s, c) = (written::sine(angle), written::cosine(angle));
    [[c, 0.0, -s], [0.0, 1.0, 0.0], [s, 0.0, c]]
}

/// The crate's signs, or Meeus's (21.2).
fn rotation(published: bool, day1: f64, day2: f64) -> Matrix {
    let sign = if published { 1.0 } else { -1.0 };
    let (c, t) = (written::century(day1), (day2 - day1) / 36525.0);
    let arc = |seconds: f64| seconds / 3600.0;
    let shared = t * (arc(2306.2181) + c * (arc(1.39656) - c * arc(0.000139)));
    let first = shared + t * t * ((arc(0.30188) - c * arc(0.000344)) + t * arc(0.017998));
    let second = shared + t * t * ((arc(1.09468) + sign * (c * arc(0.000066))) + t * arc(0.018203));
    let third = t * (arc(2004.3109) + c * (-sign * arc(0.8533) - c * arc(0.000217)) - t * ((arc(0.42665) + c * arc(0.000217)) + t * arc(0.041833)));
    let right = times(about_second(written::radians(third)), about_third(-written::radians(first)));
    times(about_third(-written::radians(second)), right)
}

fn rotated(published: bool, a: &[f64]) -> Outcome {
    let m = rotation(published, a[2], a[3]);
    let (sin_asc, cos_asc, sin_dec, cos_dec) = (written::sine(a[0]), written::cosine(a[0]), written::sine(a[1]), written::cosine(a[1]));
    let v = [cos_dec * cos_asc, cos_dec * sin_asc, sin_dec];
    let w: Vec<f64> = m.iter().map(|row| sum([row[0] * v[0], row[1] * v[1], row[2] * v[2]])).collect();
    if written::no_direction(w[1], w[0]) {
        Refused(14)
    } else if w[2].abs() > 1.0 {
        Refused(7)
    } else {
        Answer(vec![written::arctangent(w[1], w[0]), written::arcsine(w[2])])
    }
}

fn crate_rotated(a: &[f64]) -> Outcome {
    rotated(false, a)
}

fn published_rotated(a: &[f64]) -> Outcome {
    rotated(true, a)
}

// ---- the comparison

/// Stars in the axes, either way, still or moving: each shows a column of the matrix.
fn axes(rate: i32) -> Vec<u8> {
    const QUARTER: u32 = 324000000;
    let at = |asc: u32, dec: i32| Record { number: 1 + asc / QUARTER, asc: asc, dec: dec, asc_rate: rate, dec_rate: 0 };
    let equator = (0..4).map(|k| at(k * QUARTER, 0));
    equator.chain([1, -1].iter().map(|&way| at(0, way * QUARTER as i32))).flat_map(|one| one.bytes()).collect()
}

/// A still star.
const fn still(asc: u32, dec: i32) -> Record {
    Record { number: 7, asc: asc, dec: dec, asc_rate: 0, dec_rate: 0 }
}

/// Stars and days, in the crate's edition and in the published one, between which a star comes too near to the pole for an arcsine, and then
/// between which one comes to lie in the pole itself, aimed by a program; the crate's two stand in theorems.
const NEAR: [(Record, (f64, f64)); 2] =
    [(still(1238378275, 275135987), (2002827.5, 2914752.5)), (still(716993923, 265741673), (2939181.5, 1858469.5))];
const NOWHERE: [(Record, (u64, u64)); 2] = [
    (still(1273891477, 304862162), (0x413f236c16428310, 0x414240e6d45b6b94)),
    (still(685786020, 291827437), (0x4147b687d7e2ddf9, 0x4143323bc9508638)),
];

/// The stars above, each with its days.
fn aimed() -> Vec<(Record, (f64, f64))> {
    let nowhere = NOWHERE.iter().map(|&(star, (day1, day2))| (star, (f64::from_bits(day1), f64::from_bits(day2))));
    NEAR.iter().cloned().chain(nowhere).collect()
}

/// n lists, each also with empty places. Answers the number of calls and of those that differ.
pub fn compare(n: u64) -> (u64, u64) {
    let (mut r, mut emptier) = (Random(::SEED), Random(::SEED));
    let (mut calls, mut statuses) = (Count::new(), Count::new());
    let (mut published, mut published_statuses) = (Count::new(), Count::new());
    let mut both = (2451545.0, 2462088.69);
    {
        let mut compare = |bytes: &[u8], lens, both| {
            lists::compare_batch(&CRATE, bytes, lens, both, &mut calls, &mut statuses);
            lists::compare_batch(&PUBLISHED, bytes, lens, both, &mut published, &mut published_statuses);
        };
        for i in 0..n {
            both = lists::days(&mut r, both);
            let bytes = lists::list(&mut r, both.0, both.1);
            let mut holed = bytes.clone();
            lists::empty_some(&mut emptier, RECORD, &mut holed);
            let stars = bytes.len() / RECORD;
            let lens = [lists::places(&mut r, stars), lists::places(&mut r, stars), lists::places(&mut r, stars)];
            compare(&bytes, lens, both);
            compare(&holed, lens, both);
            let shown = axes([0, 1, -20000][i as usize % 3]);
            compare(&shown, [shown.len() / RECORD; 3], both);
        }
        // Those that are aimed at the pole beside a good star, one that its motion carries past the pole, one whose rate is out of range, and
        // empty places, the rest of one in range and of one not, as any neighbours in lists of one to three.
        let mut kinds: Vec<Record> = aimed().iter().map(|of| of.0).collect();
        let any = kinds[0];
        kinds.extend(&[
            Record { number: 8, asc: 3600000, dec: -3600000, asc_rate: 20000, dec_rate: -19999 },
            Record { number: 10, asc: 3600000, dec: 300000000, asc_rate: 1, dec_rate: 20000 },
            Record { number: 11, dec_rate: -2147483648, ..any },
            Record { number: 0, ..any },
            Record { number: 0, asc: 1296000000, ..any },
        ]);
        for stars in 1..4 {
            for order in 0..kinds.len().pow(stars) {
                let bytes: Vec<u8> = (0..stars).flat_map(|k| kinds[order / kinds.len().pow(k) % kinds.len()].bytes()).collect();
                for &(_, days) in aimed().iter() {
                    compare(&bytes, [stars as usize; 3], days);
                }
            }
        }
        // The longest list, and one star more.
        for &stars in [lists::MOST_STARS, lists::MOST_STARS + 1].iter() {
            let bytes: Vec<u8> = (0..stars).flat_map(|i| Record { number: i as u32, ..kinds[i % 5] }.bytes()).collect();
            compare(&bytes, [stars; 3], NEAR[0].1);
        }
    }
    println!("{}", calls.line("rotate"));
    println!("{}", statuses.line("stars of those"));
    println!("{}", published.line("rotate_published"));
    println!("{}", published_statuses.line("stars of those"));
    let met = |c: &Count, numbers: &[usize]| numbers.iter().all(|&k| c.by[k] > 0);
    let all = met(&calls, &[0, 1, 2, 8])
        && met(&statuses, &[0, 3, 7, 9, 10, 14])
        && met(&published, &[0, 1, 2, 8])
        && met(&published_statuses, &[0, 3, 7, 9, 10, 14]);
    if !all {
        println!("rotation: a refusal that was never met");
    }
    (calls.calls + published.calls, calls.differing + published.differing + !all as u64)
}

/// The sample's lists, a third of them with empty places, and the stars in the axes.
pub fn sample(n: u64) {
    println!("# Lists again, and rotate DAY DAY = status, each star's status, angles if it is 0; rotate_published alike.");
    let mut r = Random(::SEED);
    let mut both = (2451545.0, 2462088.69);
    for i in 0..n {
        both = lists::days(&mut r, both);
        let mut bytes = lists::list(&mut r, both.0, both.1);
        if i % 3 == 0 {
            lists::empty_some(&mut r, RECORD, &mut bytes);
        }
        told(&bytes, both);
        if i % 4 == 0 {
            told(&axes(if i % 8 == 0 { 0 } else { 1 }), both);
        }
    }
    for (star, days) in aimed() {
        told(&star.bytes(), days);
    }
}

fn told(bytes: &[u8], both: (f64, f64)) {
    println!("list {}", hex(bytes));
    lists::sample_batches(&[CRATE, PUBLISHED], bytes, both);
}
