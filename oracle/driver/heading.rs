//! The heading of a star and of a mark, written a second time: a star's place as a batch has it, apparent sidereal time, and the Rust's hour
//! angle, azimuth and altitude. The port's heading is compared with it, over records and days as a batch's, and any place on the Earth. So is
//! the mean of a mark's headings, by whole numbers.
use functions::met;
use functions::Outcome::{self, Answer, Refused};
use inputs::{self, Random};
use lists::{self, Edition, Record, MOST_STARS};
use put::status_of;
use routed::{coords, nutation};
use sidereal;
use std::f64::consts::{FRAC_PI_2, PI};
use table::first_of;
use table::Sort::{Angle, Day, Latitude, Steep};
use written;
use Count;

extern "C" {
    fn brundelak_heading(
        asc: u32,
        dec: i32,
        asc_rate: i32,
        dec_rate: i32,
        day1: f64,
        day2: f64,
        long: f64,
        lat: f64,
        heading: *mut f64,
        azimuth: *mut f64,
        alt: *mut f64,
    ) -> u8;
    fn brundelak_heading_published(
        asc: u32,
        dec: i32,
        asc_rate: i32,
        dec_rate: i32,
        day1: f64,
        day2: f64,
        long: f64,
        lat: f64,
        heading: *mut f64,
        azimuth: *mut f64,
        alt: *mut f64,
    ) -> u8;
    fn brundelak_mean_heading(headings: *const u64, headings_len: usize, mean: *mut f64, sheet: *mut i64) -> u8;
}

type Call = unsafe extern "C" fn(u32, i32, i32, i32, f64, f64, f64, f64, *mut f64, *mut f64, *mut f64) -> u8;

/// The port's call, its name, and the batch's edition.
struct Sight {
    name: &'static str,
    call: Call,
    edition: Edition,
}

const SIGHTS: [Sight; 2] = [
    Sight { name: "heading", call: brundelak_heading, edition: lists::CRATE },
    Sight { name: "heading_published", call: brundelak_heading_published, edition: lists::PUBLISHED },
];

// ---- the rules

/// Degrees from 0 to below 360: a whole turn, to which a fold may round, is 0.
fn on_circle(degrees: f64) -> f64 {
    let folded = written::folded(degrees, 360.0);
    if folded < 360.0 {
        folded
    } else {
        0.0
    }
}

/// A mark's heading, from the star's and from the readings at the star and at the mark.
pub fn mark(a: &[f64]) -> f64 {
    on_circle(a[0] + (a[2] - a[1]))
}

fn northward(azimuth: f64) -> f64 {
    on_circle(azimuth + 180.0)
}

/// What the Rust's function answers to arguments of these sorts, or the refusal.
fn stepped(refusal: u8, work: &dyn Fn() -> f64) -> Result<f64, u8> {
    if refusal != 0 {
        return Err(refusal);
    }
    match met(&|| vec![work()]) {
        Answer(x) => Ok(x[0]),
        Refused(n) => Err(n),
    }
}

fn sidereal_time(day: f64) -> f64 {
    sidereal::apparent(day, nutation::nutation(day), written::cosine)
}

/// Heading, azimuth and altitude of a record; the other arguments are both days, longitude and latitude.
fn sight(edition: &Edition, one: &Record, a: [f64; 4]) -> Result<Vec<f64>, u8> {
    let (day2, long, lat) = (a[1], a[2], a[3]);
    match first_of(&[Day, Day, Angle, Latitude], &a) {
        0 => {}
        n => return Err(n),
    }
    let (asc, dec) = match lists::reduced(edition, Record { number: 1, ..*one }, a[0], day2) {
        (0, asc, dec) => (asc, dec),
        (n, _, _) => return Err(n),
    };
    let time = sidereal_time(day2);
    let hour = stepped(first_of(&[Angle, Angle, Angle], &[time, long, asc]), &|| coords::hr_angl_frm_observer_long(time, long, asc))?;
    let az = stepped(first_of(&[Angle, Steep, Latitude], &[hour, dec, lat]), &|| coords::az_frm_eq(hour, dec, lat))?;
    let alt = stepped(first_of(&[Angle, Latitude, Latitude], &[hour, dec, lat]), &|| coords::alt_frm_eq(hour, dec, lat))?;
    let degrees = |x: f64| x * (180.0 / PI);
    Ok(vec![northward(degrees(az)), degrees(az), degrees(alt)])
}

// ---- inputs

/// The observer's longitude and latitude: most often good ones.
fn a_site(r: &mut Random, last: (f64, f64)) -> (f64, f64) {
    match r.below(16) {
        0 => (inputs::damaged(r), last.1),
        1 => (last.0, inputs::damaged(r)),
        2 => ([64.0, -64.0, inputs::beyond(64.0), 0.0, -0.0, PI][r.below(6)], last.1),
        3 => (last.0, [FRAC_PI_2, -FRAC_PI_2, inputs::beyond(FRAC_PI_2), 0.0, -0.0, 1.57][r.below(6)]),
        4 => (-last.0, last.1),
        5 => (last.0, -last.1),
        6 => (r.between(-64.0, 64.0), last.1),
        _ => (r.between(-PI, PI), r.between(-FRAC_PI_2, FRAC_PI_2)),
    }
}

/// A record, both days and a place.
fn next(r: &mut Random, both: &mut (f64, f64), site: &mut (f64, f64)) -> (Record, [f64; 4]) {
    *both = lists::days(r, *both);
    *site = a_site(r, *site);
    let one = lists::record(r, 24, both.0, both.1);
    (one, [both.0, both.1, site.0, site.1])
}

/// A place from which a star is overhead, as nearly as doubles have it, or underfoot; any where the star has no place.
fn below(r: &mut Random, one: &Record, (day1, day2): (f64, f64)) -> (f64, f64) {
    match lists::reduced(&lists::CRATE, Record { number: 1, ..*one }, day1, day2) {
        (0, asc, dec) if r.below(4) > 0 => (sidereal_time(day2) - asc, dec),
        (0, asc, dec) => (sidereal_time(day2) - asc + PI, -dec),
        _ => (0.0, 0.0),
    }
}

/// A star that nutation and aberration may carry past 1.57 in declination, where a day's precession does not.
fn steep(r: &mut Random) -> Record {
    let (size, asc) = (323835746 - r.below(30000) as i32, r.below(1296000000) as u32);
    Record { number: 1, asc: asc, dec: if r.below(2) == 0 { size } else { -size }, asc_rate: 0, dec_rate: 0 }
}

/// Overhead, where there is no azimuth, and beside 1.57.
fn aimed(r: &mut Random) -> Vec<(Record, [f64; 4])> {
    let day = r.between(1721045.0, 3182045.0);
    let near = steep(r);
    let high = Record { number: 1, asc: r.below(1296000000) as u32, dec: r.below(600000000) as i32 - 300000000, asc_rate: 0, dec_rate: 0 };
    let (long, lat) = below(r, &high, (2451545.0, day));
    vec![(near, [day, day, 0.3, 0.9]), (high, [2451545.0, day, long, lat])]
}

/// The star that comes to the pole, where there is no direction, and one that comes too near to it.
fn at_the_pole() -> Vec<(Record, [f64; 4])> {
    let pole = Record { number: 7, asc: 90561088, dec: -247842964, asc_rate: 0, dec_rate: 0 };
    let days = [3178490.5, 1770538.0069913559, -0.3, 0.9];
    vec![(pole, days), (Record { dec: pole.dec + 3600, ..pole }, days)]
}

// ---- the comparison

fn compare_one(of: &Sight, one: &Record, a: [f64; 4], count: &mut Count) {
    let expected = sight(&of.edition, one, a);
    let outcome: Outcome = match expected {
        Ok(ref xs) => Answer(xs.clone()),
        Err(n) => Refused(n),
    };
    let mut lent = ::fresh();
    let status = {
        let mut places = lent.iter_mut().skip(1).step_by(2);
        let (heading, azimuth, alt): (*mut f64, *mut f64, *mut f64) =
            (places.next().unwrap(), places.next().unwrap(), places.next().unwrap());
        unsafe { (of.call)(one.asc, one.dec, one.asc_rate, one.dec_rate, a[0], a[1], a[2], a[3], heading, azimuth, alt) }
    };
    let sound = expected.as_ref().map_or(true, |xs| xs.iter().all(|x| x.is_finite()) && xs[0] >= 0.0 && xs[0] < 360.0);
    let agrees = sound && status == expected.as_ref().err().map_or(0, |&n| n) && ::bits(&lent) == ::bits(&::lent_after(&outcome));
    count.tell(status, agrees, || format!("{} of {:?} at {}: status {}, {} for {:?}", of.name, one, ::shown(&a), status, ::shown(&lent), outcome));
}

/// n records, each at a place. Answers the number of calls and of those that differ.
pub fn compare(n: u64) -> (u64, u64) {
    let mut r = Random(::SEED);
    let (mut both, mut site) = ((2451545.0, 2462088.69), (-0.3, 0.9));
    let mut counts = [Count::new(), Count::new()];
    for _ in 0..n {
        let (one, a) = next(&mut r, &mut both, &mut site);
        for (of, count) in SIGHTS.iter().zip(counts.iter_mut()) {
            compare_one(of, &one, a, count);
        }
    }
    let others: Vec<(Record, [f64; 4])> = (0..n / 8).flat_map(|_| aimed(&mut r)).chain(at_the_pole()).collect();
    for &(one, a) in others.iter() {
        for (of, count) in SIGHTS.iter().zip(counts.iter_mut()) {
            compare_one(of, &one, a, count);
        }
    }
    let met = |c: &Count, numbers: &[usize]| numbers.iter().all(|&k| c.by[k] > 0);
    let all = counts.iter().all(|c| met(c, &[0, 1, 2, 3, 4, 7, 9, 14]));
    for (of, count) in SIGHTS.iter().zip(counts.iter()) {
        println!("{}", count.line(of.name));
    }
    if !all {
        println!("heading: a refusal that was never met");
    }
    let (calls, differing) = compare_means(n);
    counts.iter().fold((calls, differing + !all as u64), |t, c| (t.0 + c.calls, t.1 + c.differing))
}

/// The sample's records, some of them aimed, each in both editions.
pub fn sample(n: u64) {
    println!("# heading ASC DEC RATE RATE DAY DAY LONGITUDE LATITUDE = status, heading, azimuth, altitude; heading_published alike.");
    let mut r = Random(::SEED);
    let (mut both, mut site) = ((2451545.0, 2462088.69), (-0.3, 0.9));
    let mut all: Vec<(Record, [f64; 4])> = (0..n).map(|_| next(&mut r, &mut both, &mut site)).collect();
    all.extend((0..n / 8).flat_map(|_| aimed(&mut r)).chain(at_the_pole()));
    for &(one, a) in all.iter() {
        for of in SIGHTS.iter() {
            let answer = match sight(&of.edition, &one, a) {
                Ok(xs) => format!("0{}", ::hex(&xs)),
                Err(n) => n.to_string(),
            };
            println!("{} {}{} = {}", of.name, one.told_but_number(), ::hex(&a), answer);
        }
    }
}

// ---- the mean of headings

/// Mean and sheet: count, sum, sum of squares, largest size, its first place, set aside.
type Mean = (f64, [i64; 6]);

/// Heading less reference, the shorter way round, in milliarcseconds.
fn apart(reference: f64, heading: f64) -> i64 {
    let turned = written::folded(heading - reference, 360.0);
    let degrees = if turned > 180.0 { turned - 360.0 } else { turned };
    (degrees * 3600000.0).round() as i64
}

fn agree(residual: i64) -> bool {
    residual.abs() <= 1000000
}

fn mean_from(reference: f64, headings: &[f64]) -> Mean {
    let mut sheet = [0; 6];
    for (i, &h) in headings.iter().enumerate() {
        let one = apart(reference, h);
        if !agree(one) {
            sheet[5] += 1;
            continue;
        }
        if sheet[0] == 0 || one.abs() > sheet[3] {
            sheet[3] = one.abs();
            sheet[4] = i as i64;
        }
        sheet[0] += 1;
        sheet[1] += one;
        sheet[2] += one * one;
    }
    let residual = sheet[1] as f64 / sheet[0] as f64;
    (on_circle(reference + residual / 3600000.0), sheet)
}

fn mean(headings: &[f64]) -> Result<Mean, u8> {
    if headings.is_empty() || headings.len() > MOST_STARS {
        return Err(8);
    }
    if headings.iter().any(|h| !h.is_finite()) {
        return Err(1);
    }
    if headings.iter().any(|&h| h < 0.0 || h >= 360.0) {
        return Err(3);
    }
    let with = |reference: f64| headings.iter().filter(|&&h| agree(apart(reference, h))).count();
    let reference = headings.iter().find(|&&h| 2 * with(h) > headings.len()).ok_or(20u8)?;
    Ok(mean_from(*reference, headings))
}

/// How far from the others a sight lies, in milliarcseconds: most often it agrees; beside the limit, a half, half a turn, anywhere.
fn off(r: &mut Random) -> f64 {
    let size = match r.below(12) {
        0 => [999999.4, 999999.5, 999999.6, 1000000.0, 1000000.4, 1000000.5, 1000000.6, 1000001.0][r.below(8)],
        1 => r.below(1000000) as f64 + 0.5,
        2 => 648000000.0,
        3 => r.between(0.0, 1296000000.0),
        4 => r.between(0.0, 2000000.0),
        5 => r.below(4) as f64,
        _ => r.between(0.0, 500000.0),
    };
    if r.below(2) == 0 {
        size
    } else {
        -size
    }
}

/// So many sights about one heading, which is north as often as not.
fn sights(r: &mut Random, n: usize) -> Vec<f64> {
    let from = match r.below(4) {
        0 | 1 => 0.0,
        2 => [180.0, 90.0, 359.99999999999994, 1.0][r.below(4)],
        _ => r.between(0.0, 360.0),
    };
    let still = r.below(8) == 0;
    (0..n).map(|_| on_circle(from + if still { 0.0 } else { off(r) } / 3600000.0)).collect()
}

/// Of few sights; some have one or more that are refused, or the last that is not.
fn a_set(r: &mut Random) -> Vec<f64> {
    let n = r.below(12);
    let mut all = sights(r, n);
    if r.below(6) == 0 && n > 0 {
        for _ in 0..1 + r.below(3) {
            all[r.below(n)] = [360.0, 359.99999999999994, -0.0, -1e-300, 720.0, inputs::damaged(r)][r.below(6)];
        }
    }
    all
}

fn compare_mean(headings: &[f64], count: &mut Count) {
    let expected = mean(headings);
    let mut want = (::fresh(), [CANARY; 8]);
    let mut got = want.clone();
    if let Ok((x, sheet)) = expected {
        want.0[1] = x;
        want.1[1..7].copy_from_slice(&sheet);
    }
    let lent: Vec<u64> = headings.iter().map(|h| h.to_bits()).collect();
    let before = lent.clone();
    let status = unsafe { brundelak_mean_heading(lent.as_ptr(), lent.len(), &mut got.0[1], got.1[1..].as_mut_ptr()) };
    let sound = expected.as_ref().map_or(true, |one| one.0 >= 0.0 && one.0 < 360.0);
    let agrees = sound && lent == before && status == status_of(&expected) && ::bits(&got.0) == ::bits(&want.0) && got.1 == want.1;
    count.tell(status, agrees, || format!("mean_heading of {}: status {}, {:?} for {:?}", ::shown(headings), status, got, expected));
}

/// Numbers that no sheet has, between which it is lent.
const CANARY: i64 = 0x5AA55AA55AA55AA5;

/// n sets of few sights, then those of the most and of one more, which agree, which are a limit apart, and of which none agree.
fn compare_means(n: u64) -> (u64, u64) {
    let mut r = Random(::SEED);
    let mut count = Count::new();
    for _ in 0..n {
        compare_mean(&a_set(&mut r), &mut count);
    }
    for &many in [256, MOST_STARS - 1, MOST_STARS, MOST_STARS + 1].iter() {
        compare_mean(&sights(&mut r, many), &mut count);
        compare_mean(&(0..many).map(|i| if i % 2 == 0 { 0.0 } else { on_circle(-1000000.0 / 3600000.0) }).collect::<Vec<f64>>(), &mut count);
        compare_mean(&(0..many).map(|i| i as f64 * (360.0 / (many as f64 + 1.0))).collect::<Vec<f64>>(), &mut count);
    }
    println!("{}", count.line("mean_heading"));
    let all = [0, 1, 3, 8, 20].iter().all(|&k| count.by[k] > 0);
    if !all {
        println!("mean_heading: a refusal that was never met");
    }
    (count.calls, count.differing + !all as u64)
}

/// The sample's sets of sights.
pub fn sample_means(n: u64) {
    println!("# mean_heading, how many headings, their bits = status, the mean's bits, the sheet.");
    let mut r = Random(::SEED);
    for _ in 0..n {
        let all = a_set(&mut r);
        let answer = match mean(&all) {
            Ok((x, sheet)) => format!("0{} {}", ::hex(&[x]), sheet.iter().map(|k| k.to_string()).collect::<Vec<_>>().join(" ")),
            Err(n) => n.to_string(),
        };
        println!("mean_heading {}{} = {}", all.len(), ::hex(&all), answer);
    }
}
