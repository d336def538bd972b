//! Inputs: random, at the limits, mirrored and damaged, always the same for the same seed.
use aimed;
use std::f64::consts::{FRAC_PI_2, PI};
use table::{limits, Sort};

/// splitmix64.
pub struct Random(pub u64);

impl Random {
    pub fn bits(&mut self) -> u64 {
        self.0 = self.0.wrapping_add(0x9E3779B97F4A7C15);
        let z = (self.0 ^ (self.0 >> 30)).wrapping_mul(0xBF58476D1CE4E5B9);
        let z = (z ^ (z >> 27)).wrapping_mul(0x94D049BB133111EB);
        z ^ (z >> 31)
    }
    pub fn below(&mut self, n: usize) -> usize {
        (self.bits() % n as u64) as usize
    }
    /// From 0 to 1.
    fn part(&mut self) -> f64 {
        (self.bits() >> 11) as f64 / 9007199254740992.0
    }
    pub fn between(&mut self, low: f64, high: f64) -> f64 {
        low + (high - low) * self.part()
    }
    fn sign(&mut self, x: f64) -> f64 {
        if self.bits() & 1 == 0 {
            x
        } else {
            -x
        }
    }
    fn pick(&mut self, from: &[f64]) -> f64 {
        from[self.below(from.len())]
    }
}

/// The next double in size.
pub fn beyond(x: f64) -> f64 {
    f64::from_bits(x.to_bits() + 1)
}

/// The double before in size; 0 stays.
pub fn before(x: f64) -> f64 {
    if x == 0.0 {
        x
    } else {
        f64::from_bits(x.to_bits() - 1)
    }
}

const DAMAGED: [u64; 8] = [
    0x7FF8000000000000, // NaN
    0xFFF8000000000000, // -NaN
    0x7FF0000000000001, // a signalling NaN
    0xFFFFFFFFFFFFFFFF,
    0x7FF0000000000000, // infinity
    0xFFF0000000000000,
    0x7FEFFFFFFFFFFFFF, // the largest double
    0xFFEFFFFFFFFFFFFF,
];

const SMALL: [u64; 8] = [
    0x0000000000000000,
    0x8000000000000000, // -0
    0x0000000000000001, // the least subnormal
    0x800FFFFFFFFFFFFF, // the largest subnormal
    0x0010000000000000, // the least normal
    0x1CB0000000000000, // its square is subnormal
    0x1F00000000000000,
    0xBCB0000000000000, // -2^-52
];

/// A double that is on nobody's mind: damaged, small, or any bits.
pub fn damaged(r: &mut Random) -> f64 {
    match r.below(4) {
        0 | 1 => f64::from_bits(DAMAGED[r.below(8)]),
        2 => f64::from_bits(SMALL[r.below(8)]),
        _ => f64::from_bits(r.bits()),
    }
}

/// A limit of the sort, or a double beside it.
fn at_limit(r: &mut Random, sort: Sort) -> f64 {
    let x = r.pick(limits(sort));
    let x = match r.below(3) {
        0 => x,
        1 => beyond(x),
        _ => before(x),
    };
    match sort {
        Sort::Day | Sort::Distance | Sort::Height => x,
        _ => r.sign(x),
    }
}

/// Where quadrants and signs meet: signed zeros, small numbers, quarter turns and doubles beside them.
fn at_corner(r: &mut Random, sort: Sort) -> f64 {
    match sort {
        Sort::Day => match r.below(5) {
            0 => 2451545.0,
            1 => 2415020.3135,
            2 => 1721045.0,
            3 => 3182045.0,
            _ => 2451545.0 + r.between(-1e-3, 1e-3),
        },
        Sort::Distance => r.pick(&[1.0, 0.0001, 0.00256955529, 30.0, 1000000.0]),
        Sort::Height => r.pick(&[0.0, -0.0, -1000.0, 100000.0, 1706.0]),
        Sort::Sight => r.pick(&[0.0, -0.0, 15.0, 45.0, 89.8]),
        // A difference of small ones folds to a whole turn.
        Sort::Circle => r.pick(&[0.0, -0.0, 1e-20, 1e-14, 90.0, 180.0, 270.0, before(360.0)]),
        _ => {
            let quarters = match sort {
                Sort::Latitude | Sort::Steep => 2,
                Sort::Unit => 1,
                _ => 9,
            };
            let x = match r.below(4) {
                0 => f64::from_bits(SMALL[r.below(8)]),
                1 => 0.0,
                2 => r.below(quarters) as f64 * FRAC_PI_2,
                _ => r.below(quarters) as f64 * FRAC_PI_2 * (1.0 + r.between(-1e-9, 1e-9)),
            };
            r.sign(x)
        }
    }
}

/// Anywhere within the limits.
fn within(r: &mut Random, sort: Sort) -> f64 {
    match sort {
        Sort::Angle => match r.below(4) {
            0 => r.between(-64.0, 64.0),
            1 => r.between(-0.5, 0.5),
            _ => r.between(-2.0 * PI, 2.0 * PI),
        },
        Sort::Latitude | Sort::Steep => match r.below(4) {
            // Steep: towards the limit.
            0 => {
                let gap = 10f64.powf(r.between(-8.0, -0.5));
                let top = if sort == Sort::Steep { 1.57 } else { FRAC_PI_2 };
                r.sign(top - gap)
            }
            _ => r.between(-1.57, 1.57),
        },
        Sort::Day => match r.below(3) {
            0 => r.between(2415020.0, 2488070.0),
            _ => r.between(1721045.0, 3182045.0),
        },
        Sort::Distance => 10f64.powf(r.between(-4.0, 6.0)),
        Sort::Height => match r.below(2) {
            0 => r.between(-1000.0, 9000.0),
            _ => r.between(-1000.0, 100000.0),
        },
        Sort::Number => {
            let size = 10f64.powf(r.between(-20.0, 20.0));
            match r.below(3) {
                0 => r.sign(size),
                1 => r.between(-2.0, 2.0),
                _ => r.between(-1e6, 1e6),
            }
        }
        Sort::Unit => match r.below(3) {
            0 => {
                let gap = 10f64.powf(r.between(-16.0, 0.0));
                r.sign(1.0 - gap)
            }
            _ => r.between(-1.0, 1.0),
        },
        Sort::Alone => match r.below(2) {
            0 => r.between(-10.0, 10.0),
            _ => r.between(-400000.0, 400000.0),
        },
        Sort::AloneSteep => r.between(-1.57, 1.57),
        Sort::NotNegative => match r.below(2) {
            0 => f64::from_bits(r.bits() >> 2),
            _ => r.between(0.0, 100.0),
        },
        // Low: where refraction is most.
        Sort::Sight => match r.below(3) {
            0 => r.between(0.0, 5.0),
            _ => r.between(0.0, 89.8),
        },
        Sort::Circle => r.between(0.0, 360.0),
    }
}

fn each(r: &mut Random, sorts: &[Sort], make: fn(&mut Random, Sort) -> f64) -> Vec<f64> {
    sorts.iter().map(|&s| make(r, s)).collect()
}

/// A sight as it comes: angles within a turn, latitudes to 1.4, two centuries of days.
pub fn ordinary(r: &mut Random, sorts: &[Sort]) -> Vec<f64> {
    each(r, sorts, |r, sort| match sort {
        Sort::Angle | Sort::Alone => r.between(-2.0 * PI, 2.0 * PI),
        Sort::Latitude | Sort::Steep | Sort::AloneSteep => r.between(-1.4, 1.4),
        Sort::Day => r.between(2415020.0, 2488070.0),
        Sort::Unit => r.between(-0.99, 0.99),
        Sort::Number | Sort::NotNegative => r.between(0.0, 10.0),
        _ => within(r, sort),
    })
}

/// The mirror of an argument: days are mirrored in 2451545.0.
fn mirror(sort: Sort, x: f64) -> f64 {
    match sort {
        Sort::Day => 2451545.0 - (x - 2451545.0),
        _ => -x,
    }
}

/// A few doubles on.
fn beside(r: &mut Random, x: f64) -> f64 {
    f64::from_bits(x.to_bits().wrapping_add(r.below(9) as u64).wrapping_sub(4))
}

/// The next input of a function after `last`.
pub fn next(r: &mut Random, name: &str, sorts: &[Sort], last: &[f64]) -> Vec<f64> {
    if r.below(12) == 0 {
        if let Some(args) = aimed::input(r, name) {
            return match r.below(4) {
                0 => args,
                _ => args.iter().zip(sorts).map(|(&x, &s)| if s == Sort::Day { x } else { beside(r, x) }).collect(),
            };
        }
    }
    let mut args = match r.below(16) {
        0 => each(r, sorts, at_limit),
        1 | 2 => each(r, sorts, at_corner),
        3 => (0..sorts.len()).map(|_| damaged(r)).collect(),
        4 | 5 | 6 => last.to_vec(),
        _ => each(r, sorts, within),
    };
    let i = r.below(args.len());
    match r.below(16) {
        0 => args[i] = damaged(r),
        1 | 2 => args[i] = at_limit(r, sorts[i]),
        3 | 4 => args[i] = at_corner(r, sorts[i]),
        5 => args[i] = within(r, sorts[i]),
        6 => args[i] = f64::from_bits(args[i].to_bits() ^ (1 << r.below(64))),
        7 => {
            // One argument of the sort of another: equal days, equal angles.
            let j = r.below(args.len());
            if sorts[i] == sorts[j] {
                args[i] = args[j];
            }
        }
        8 | 9 => {
            // The mirror: any of the arguments.
            let which = r.bits();
            for k in 0..args.len() {
                if which >> k & 1 == 1 {
                    args[k] = mirror(sorts[k], args[k]);
                }
            }
        }
        _ => {}
    }
    args
}
