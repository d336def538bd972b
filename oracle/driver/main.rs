//! Compares the port with the supplied Rust.
//!   driver compare N      N calls a function, bit for bit, refusals against section 5's table
//!   driver lists N        of these the calls on lists and nights alone
//!   driver fuzz N         N calls in all, any bits at every function: it ends, and writes what it answers and nothing else
//!   driver gaps N         the widest gap between the port and Rust's own library functions, as a table
//!   driver sample N       what the Rust answers to some of N calls a function of each kind, a line for each
extern crate astro_own as own;
extern crate astro_routed as routed;

mod aimed;
mod atmos;
mod ceiling;
mod edits;
mod functions;
mod heading;
mod inputs;
mod lists;
mod port;
mod published;
mod put;
mod radio;
mod residuals;
mod rotation;
mod sidereal;
mod table;
mod transit;
mod widths;
mod written;

use functions::{Function, Outcome};
use inputs::Random;
use port::Lent;
use std::process::exit;

const SEED: u64 = 0x6272756e64656c61;

/// Floats that no function answers: each place its own NaN, signalling and of either sign.
fn fresh() -> Lent {
    let mut lent = [0.0; 7];
    for (i, x) in lent.iter_mut().enumerate() {
        *x = f64::from_bits(0x7FF4A5A5A5A50000 + i as u64 | (i as u64 / 2 % 2) << 63);
    }
    lent
}

fn bits(xs: &[f64]) -> Vec<u64> {
    xs.iter().map(|x| x.to_bits()).collect()
}

fn shown(xs: &[f64]) -> String {
    let words: Vec<String> = xs.iter().map(|x| format!("{:?} ({:016x})", x, x.to_bits())).collect();
    words.join(", ")
}

/// What is in the lent floats after a call that answers as `outcome` says.
fn lent_after(outcome: &Outcome) -> Lent {
    let mut lent = fresh();
    if let Outcome::Answer(ref xs) = *outcome {
        for (i, &x) in xs.iter().enumerate() {
            lent[2 * i + 1] = x;
        }
    }
    lent
}

/// What a call must come to: section 5's table first, then the work.
fn outcome_of(f: &Function, args: &[f64]) -> Outcome {
    match table::first_of(f.sorts, args) {
        0 => (f.expected)(args),
        n => Outcome::Refused(n),
    }
}

struct Count {
    calls: u64,
    by: [u64; 256],
    differing: u64,
}

impl Count {
    fn new() -> Count {
        Count { calls: 0, by: [0; 256], differing: 0 }
    }

    /// One call, its status, and whether it agrees; the first few that do not are shown.
    fn tell<F: FnOnce() -> String>(&mut self, status: u8, agrees: bool, shown: F) {
        self.calls += 1;
        self.by[status as usize] += 1;
        if !agrees {
            self.differ(shown);
        }
    }

    fn differ<F: FnOnce() -> String>(&mut self, shown: F) {
        self.differing += 1;
        if self.differing <= 3 {
            println!("differs: {}", shown());
        }
    }

    /// One call of the port, compared.
    fn compare(&mut self, f: &Function, args: &[f64]) {
        let outcome = outcome_of(f, args);
        let mut lent = fresh();
        let status = (f.port)(args, &mut lent);
        let (expected, finite) = match outcome {
            Outcome::Answer(ref xs) => (0, xs.iter().all(|x| x.is_finite())),
            Outcome::Refused(n) => (n, true),
        };
        let agrees = finite && status == expected && bits(&lent) == bits(&lent_after(&outcome));
        self.tell(status, agrees, || {
            let port = shown(&[lent[1], lent[3], lent[5]]);
            format!("{} at {}: port {} {}, Rust {:?}", f.name, shown(args), status, port, outcome)
        });
    }

    fn line(&self, name: &str) -> String {
        let refused: Vec<String> = (1..256).filter(|&n| self.by[n] > 0).map(|n| format!("{}:{}", n, self.by[n])).collect();
        format!(
            "{:<32} calls {:>7}  answered {:>7}  refused {:<40} differing {}",
            name.trim_start_matches("brundelak_"),
            self.calls,
            self.by[0],
            refused.join(" "),
            self.differing
        )
    }
}

/// The inputs of a function, the same for every run.
fn stream(f: &Function) -> (Random, Vec<f64>) {
    let seed = f.name.bytes().fold(SEED, |h, b| (h ^ b as u64).wrapping_mul(0x100000001B3));
    (Random(seed), vec![0.0; f.sorts.len()])
}

/// The sums of the aberration's rows are private, so each day is seen from directions that recover all three of them:
/// at (0, 0) the answer is (y, z) over c; at a quarter turn it is (-x, z) but for rounding; a steep one mixes all.
const DIRECTIONS: [(f64, f64); 6] =
    [(0.0, 0.0), (1.5707963267948966, 0.0), (-1.5707963267948966, 0.0), (0.7, 1.2), (2.9, -1.57), (-64.0, 0.3)];

fn compare(n: u64) -> bool {
    let mut total = (0, 0);
    for f in functions::all() {
        let mut count = Count::new();
        let (mut r, mut args) = stream(&f);
        for _ in 0..n {
            args = inputs::next(&mut r, f.name, f.sorts, &args);
            count.compare(&f, &args);
        }
        if f.name == "brundelak_stell_aberr_in_eq_coords" {
            for i in 0..n / 10 {
                let day = match i {
                    0 => 1721045.0,
                    1 => 3182045.0,
                    _ => r.between(1721045.0, 3182045.0),
                };
                for &(asc, dec) in DIRECTIONS.iter() {
                    count.compare(&f, &[asc, dec, day]);
                }
            }
        }
        println!("{}", count.line(f.name));
        // 15 and 16 say of a sight as much as an answer.
        let told = count.by[0] + count.by[15] + count.by[16];
        if told * 3 < count.calls || f.meets.iter().any(|&n| count.by[n as usize] == 0) {
            println!("{}: too few answers, or a refusal that was never met", f.name);
            return false;
        }
        total = (total.0 + count.calls, total.1 + count.differing);
    }
    told(total, compare_lists(n))
}

/// Calls on lists, and of those that differ.
fn compare_lists(n: u64) -> (u64, u64) {
    let all = [
        lists::compare(n / 4),
        radio::compare(n),
        widths::compare(n),
        edits::compare(n),
        residuals::compare(n),
        rotation::compare(n / 16),
        heading::compare(n),
    ];
    all.iter().fold((0, 0), |t, c| (t.0 + c.0, t.1 + c.1))
}

fn told(some: (u64, u64), others: (u64, u64)) -> bool {
    let (calls, differing) = (some.0 + others.0, some.1 + others.1);
    println!("compared {} calls, differing {}", calls, differing);
    differing == 0
}

fn fuzz(n: u64) -> bool {
    let all = functions::all();
    let mut r = Random(SEED);
    let mut wrong = 0;
    let mut answered = 0;
    for i in 0..n {
        let f = &all[i as usize % all.len()];
        // Any bits, and often enough small enough to be answered.
        let args: Vec<f64> = f.sorts.iter().map(|_| {
            let x = r.bits();
            match r.below(4) {
                0 => f64::from_bits(x),
                1 => inputs::damaged(&mut r),
                _ => f64::from_bits(x & 0xBFFFFFFFFFFFFFFF),
            }
        }).collect();
        let mut lent = fresh();
        let status = (f.port)(&args, &mut lent);
        let after = fresh();
        let canaries = (0..4).all(|k| lent[2 * k].to_bits() == after[2 * k].to_bits());
        let kept = bits(&lent) == bits(&after);
        let finite = [1, 3, 5].iter().all(|&k| lent[k].is_finite() || lent[k].to_bits() == after[k].to_bits());
        let sound = canaries && finite && (status != 0) == kept && (status == 0 || f.meets.contains(&status));
        answered += (status == 0) as u64;
        if !sound {
            wrong += 1;
            println!("{}: status {}, {} at {}", f.name, status, shown(&lent), shown(&args));
        }
    }
    println!("fuzzed {} calls, answered {}, wrong {}", n, answered, wrong);
    wrong == 0
}

/// The widest gap between the port and Rust's own library functions.
struct Gap {
    widest: f64,
    at: Vec<f64>,
    /// Calls that the port answers and the Rust answers by NaN or infinity.
    alone: u64,
}

impl Gap {
    fn new() -> Gap {
        Gap { widest: 0.0, at: vec![], alone: 0 }
    }

    fn look(&mut self, f: &Function, args: &[f64]) {
        let mut lent = fresh();
        if (f.port)(args, &mut lent) != 0 {
            return;
        }
        let theirs = (f.own)(args);
        if theirs.iter().any(|x| !x.is_finite()) {
            self.alone += 1;
            return;
        }
        for (i, &x) in theirs.iter().enumerate() {
            let gap = (x - lent[2 * i + 1]).abs();
            if gap > self.widest {
                self.widest = gap;
                self.at = args.to_vec();
            }
        }
    }

    fn cells(&self) -> String {
        if self.widest == 0.0 {
            return "0 | ".to_string();
        }
        let at: Vec<String> = self.at.iter().map(|x| format!("{:?}", x)).collect();
        format!("{:.2e} | {}", self.widest, at.join(", "))
    }
}

fn gaps(n: u64) {
    println!("| function | ordinary sights | at | all inputs | at | port alone |");
    println!("|---|---|---|---|---|---|");
    for f in functions::all() {
        let (mut ordinary, mut all) = (Gap::new(), Gap::new());
        let (mut r, mut args) = stream(&f);
        for _ in 0..n {
            let sight = inputs::ordinary(&mut r, f.sorts);
            ordinary.look(&f, &sight);
            all.look(&f, &sight);
            args = inputs::next(&mut r, f.name, f.sorts, &args);
            all.look(&f, &args);
        }
        println!(
            "| `{}` | {} | {} | {} |",
            f.name.trim_start_matches("brundelak_"),
            ordinary.cells(),
            all.cells(),
            all.alone
        );
    }
}

/// Bits in hexadecimal, without the zeros at the end.
fn hex(xs: &[f64]) -> String {
    let words: Vec<String> = xs
        .iter()
        .map(|x| match format!("{:016x}", x.to_bits()).trim_end_matches('0') {
            "" => " 0".to_string(),
            digits => format!(" {}", digits),
        })
        .collect();
    words.concat()
}

/// What tells one call of a status from another: for an answer the signs of all numbers, the zeros, the answers' quadrants and whether
/// an argument is a limit; for a refusal the arguments that meet it.
fn kind(f: &Function, args: &[f64], status: u8, answer: &[f64]) -> Vec<bool> {
    if status != 0 {
        return f.sorts.iter().zip(args).map(|(&s, &x)| table::refuses(status, s, x)).collect();
    }
    let at_limit = f.sorts.iter().zip(args).any(|(&s, &x)| table::limits(s).iter().any(|l| l.abs() == x.abs()));
    let mut kind: Vec<bool> = args.iter().chain(answer).map(|x| x.is_sign_negative()).collect();
    kind.extend(answer.iter().flat_map(|&x| vec![x == 0.0, x.abs() > std::f64::consts::FRAC_PI_2]));
    kind.extend(&[args.iter().any(|&x| x == 0.0), at_limit]);
    kind
}

/// For each function so many calls that the Rust answers, and so many refused by each number: of each kind one in turn.
const ANSWERED: usize = 77;
const REFUSED: usize = 6;
const LISTS: u64 = 48;
const RADIO_LISTS: u64 = 64;
const WIDTH_LISTS: u64 = 48;
const EDITED_LISTS: u64 = 48;
const NIGHTS: u64 = 64;
const ROTATED_LISTS: u64 = 24;
const SIGHTS: u64 = 96;
const MEANS: u64 = 96;

fn sample(n: u64) {
    println!("# What the supplied Rust answers over the port's elementary functions and helpers, and these by their rules written a second");
    println!("# time; made by oracle/run --sample. A function's name, then its calls: arguments, =, status, answer. A double is its bits in");
    println!("# hexadecimal, without the zeros at the end.");
    for f in functions::all() {
        println!("{}", f.name.trim_start_matches("brundelak_"));
        let (mut r, mut args) = stream(&f);
        // By status, kinds in the order met, and of each its calls.
        let mut met: Vec<Vec<(Vec<bool>, Vec<String>)>> = (0..256).map(|_| vec![]).collect();
        for _ in 0..n {
            args = inputs::next(&mut r, f.name, f.sorts, &args);
            let (status, answer) = match outcome_of(&f, &args) {
                Outcome::Answer(xs) => (0, xs),
                Outcome::Refused(n) => (n, vec![]),
            };
            let kind = kind(&f, &args, status, &answer);
            let line = format!("{} = {}{}", hex(&args).trim_start(), status, hex(&answer));
            let kinds = &mut met[status as usize];
            match kinds.iter().position(|k| k.0 == kind) {
                Some(i) if kinds[i].1.contains(&line) => {}
                Some(i) => kinds[i].1.push(line),
                None => kinds.push((kind, vec![line])),
            }
        }
        for (status, kinds) in met.iter().enumerate() {
            let rounds = kinds.iter().map(|k| k.1.len()).max().unwrap_or(0);
            let turns = (0..rounds).flat_map(|i| kinds.iter().filter_map(move |k| k.1.get(i)));
            for line in turns.take(if status == 0 { ANSWERED } else { REFUSED }) {
                println!("{}", line);
            }
        }
    }
    lists::sample(LISTS);
    radio::sample(RADIO_LISTS);
    widths::sample(WIDTH_LISTS);
    edits::sample(EDITED_LISTS);
    residuals::sample(NIGHTS);
    rotation::sample(ROTATED_LISTS);
    heading::sample(SIGHTS);
    heading::sample_means(MEANS);
}

fn main() {
    let args: Vec<String> = std::env::args().collect();
    let n = args.get(2).and_then(|s| s.parse().ok()).unwrap_or(0);
    let good = match args.get(1).map(|s| s.as_str()) {
        Some("compare") if n > 0 => compare(n),
        Some("lists") if n > 0 => told((0, 0), compare_lists(n)),
        Some("fuzz") if n > 0 => fuzz(n),
        Some("gaps") if n > 0 => {
            gaps(n);
            true
        }
        Some("sample") if n > 0 => {
            sample(n);
            true
        }
        _ => {
            println!("driver compare N | lists N | fuzz N | gaps N | sample N");
            false
        }
    };
    exit(if good { 0 } else { 1 });
}
