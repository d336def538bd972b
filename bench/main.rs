//! bench NAME port|rust N: N calls of a function, of the port through its C boundary or of the supplied text with Rust's own library
//! functions, on the same random sights.
//! bench stars LIST N: the first N stars of a list from J2000, each where its rates have brought it, to a night by the supplied text's
//! chain, star by star.
//! Either with `time` for N: the nanoseconds of a call, the median of seven rounds.
//! As many sights, or stars, are made ready whatever N is, so that the difference of two counts is the calls' own.
extern crate astro_own as own;

use own::{aberr, coords, nutation, precess};

extern "C" {
    /// The processor's time of this process, in millionths of a second.
    fn clock() -> i64;
    fn brundelak_az_frm_eq(hour_angle: f64, dec: f64, lat: f64, out: *mut f64) -> u8;
    fn brundelak_alt_frm_eq(hour_angle: f64, dec: f64, lat: f64, out: *mut f64) -> u8;
    fn brundelak_precess_eq_coords(asc: f64, dec: f64, day1: f64, day2: f64, a: *mut f64, b: *mut f64) -> u8;
    fn brundelak_nutation(day: f64, a: *mut f64, b: *mut f64) -> u8;
    fn brundelak_stell_aberr_in_eq_coords(asc: f64, dec: f64, day: f64, a: *mut f64, b: *mut f64) -> u8;
    fn brundelak_chain(asc: f64, dec: f64, day1: f64, day2: f64, a: *mut f64, b: *mut f64) -> u8;
}

struct Sight {
    asc: f64,
    dec: f64,
    lat: f64,
    day: f64,
}

const J2000: f64 = 2451545.0;
const SIGHTS: usize = 600;
/// Bytes of a record.
const RECORD: usize = 20;

/// The chain, composed of the supplied functions.
fn chain(s: &Sight) -> f64 {
    let (asc, dec) = precess::precess_eq_coords(s.asc, s.dec, J2000, s.day);
    let t = own::time::julian_cent(s.day);
    let oblq = (84381.448 / 3600.0 - t * (46.8150 / 3600.0 + t * (0.00059 / 3600.0 - t * (0.001813 / 3600.0)))).to_radians();
    let (long, obl) = nutation::nutation(s.day);
    let point = coords::EqPoint { asc: asc, dec: dec };
    let n = nutation::nutation_in_eq_coords(&point, long, obl, oblq);
    let a = aberr::stell_aberr_in_eq_coords(&point, s.day);
    ((asc + n.0) + a.0) + ((dec + n.1) + a.1)
}

fn sum((a, b): (f64, f64)) -> f64 {
    a + b
}

/// One answer of the port.
fn one<F: FnOnce(*mut f64) -> u8>(f: F) -> f64 {
    let mut a = 0.0;
    assert_eq!(f(&mut a), 0);
    a
}

/// Two answers of the port.
fn two<F: FnOnce(*mut f64, *mut f64) -> u8>(f: F) -> f64 {
    let (mut a, mut b) = (0.0, 0.0);
    assert_eq!(f(&mut a, &mut b), 0);
    a + b
}

fn work(name: &str, side: &str) -> fn(&Sight) -> f64 {
    match (name, side) {
        ("az_frm_eq", "port") => |s| one(|a| unsafe { brundelak_az_frm_eq(s.asc, s.dec, s.lat, a) }),
        ("az_frm_eq", _) => |s| coords::az_frm_eq(s.asc, s.dec, s.lat),
        ("alt_frm_eq", "port") => |s| one(|a| unsafe { brundelak_alt_frm_eq(s.asc, s.dec, s.lat, a) }),
        ("alt_frm_eq", _) => |s| coords::alt_frm_eq(s.asc, s.dec, s.lat),
        ("precess_eq_coords", "port") => {
            |s| two(|a, b| unsafe { brundelak_precess_eq_coords(s.asc, s.dec, J2000, s.day, a, b) })
        }
        ("precess_eq_coords", _) => |s| sum(precess::precess_eq_coords(s.asc, s.dec, J2000, s.day)),
        ("nutation", "port") => |s| two(|a, b| unsafe { brundelak_nutation(s.day, a, b) }),
        ("nutation", _) => |s| sum(nutation::nutation(s.day)),
        ("stell_aberr_in_eq_coords", "port") => {
            |s| two(|a, b| unsafe { brundelak_stell_aberr_in_eq_coords(s.asc, s.dec, s.day, a, b) })
        }
        ("stell_aberr_in_eq_coords", _) => {
            |s| sum(aberr::stell_aberr_in_eq_coords(&coords::EqPoint { asc: s.asc, dec: s.dec }, s.day))
        }
        ("chain", "port") => |s| two(|a, b| unsafe { brundelak_chain(s.asc, s.dec, J2000, s.day, a, b) }),
        ("chain", _) => chain,
        _ => panic!("no such function: {}", name),
    }
}

/// The stars of a list on one night.
fn stars(path: &str) -> Vec<Sight> {
    let bytes = std::fs::read(path).unwrap();
    let word = |at: usize| (0..4).map(|k| (bytes[at + k] as u32) << (8 * k)).sum::<u32>();
    let signed = |at: usize| (word(at) as i32 as f64 / 3600000.0).to_radians();
    let day = 2462088.69;
    let years = (day - J2000) / 365.25;
    (0..bytes.len() / RECORD)
        .map(|i| Sight {
            asc: (word(RECORD * i + 4) as f64 / 3600000.0).to_radians() + signed(RECORD * i + 12) * years,
            dec: signed(RECORD * i + 8) + signed(RECORD * i + 16) * years,
            lat: 0.0,
            day: day,
        })
        .collect()
}

/// Random sights, always the same.
fn sights() -> Vec<Sight> {
    let mut state = 1u64;
    let mut part = || {
        state = state.wrapping_mul(6364136223846793005).wrapping_add(1442695040888963407);
        (state >> 11) as f64 / 9007199254740992.0
    };
    (0..SIGHTS)
        .map(|_| Sight {
            asc: 6.28 * part(),
            dec: 2.8 * part() - 1.4,
            lat: 2.8 * part() - 1.4,
            day: J2000 + 73050.0 * (part() - 0.5),
        })
        .collect()
}

/// The nanoseconds of a call.
fn timed(ready: &[Sight], call: fn(&Sight) -> f64) -> f64 {
    let round = || {
        let begun = unsafe { clock() };
        let mut total = 0.0;
        let times = 1 + 20000 / ready.len();
        for _ in 0..times {
            total += ready.iter().map(call).sum::<f64>();
        }
        assert!(total == total);
        1000.0 * unsafe { clock() - begun } as f64 / (times * ready.len()) as f64
    };
    let mut figures: Vec<f64> = (0..7).map(|_| round()).collect();
    figures.sort_by(|a, b| a.partial_cmp(b).unwrap());
    figures[3]
}

fn main() {
    let args: Vec<String> = std::env::args().collect();
    let (ready, call) = match args[1].as_str() {
        "stars" => (stars(&args[2]), chain as fn(&Sight) -> f64),
        name => (sights(), work(name, &args[2])),
    };
    if args[3] == "time" {
        println!("{:.1}", timed(&ready, call));
        return;
    }
    let n: usize = args[3].parse().unwrap();
    let total: f64 = ready[..n].iter().map(call).sum();
    println!("{}", total);
}
