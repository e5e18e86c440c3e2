//! Writes the first part of the list of cases that the program `replay` runs on the x86-64 code; the oscillators' ticks
//! follow it, as `compare/src/bin/stored_ticks.rs` says, with the command that writes both.
//!
//! A line is a name, the inputs and the answer, each number as 16 hexadecimal digits. The answers of sine, cosine and
//! powers are those of the proved code as this machine runs it; all the others are Rust's own operations.
use gruttisol::numeric;
use random::Random;
use std::f64::consts::{FRAC_PI_2, FRAC_PI_4, PI};
use std::fmt::Write;

/// Drawn points of each function, beside the chosen ones.
const DRAWS: usize = 160;

fn main() {
    let list = &mut List(String::new());
    let r = &mut Random::new(1);

    list.of_floats("sin", angles(r), |[x]| bits(numeric::sin(x)));
    list.of_floats("cos", angles(r), |[x]| bits(numeric::cos(x)));
    list.of_floats("exp2", exponents(r), |[x]| bits(numeric::exp2(x)));
    list.of_floats("pow3000", shares(r), |[x]| bits(numeric::pow3000(x)));
    list.of_floats("floor", numbers(r), |[x]| bits(x.floor()));
    list.of_floats("fabs", numbers(r), |[x]| bits(x.abs()));
    list.of_floats("is_finite", numbers(r), |[x]| x.is_finite() as u64);
    list.of_floats("clamp", clamped(r), |[x, lo, hi]| bits(x.clamp(lo, hi)));
    list.of_floats("min", pairs(r), |[a, b]| bits(a.min(b)));
    list.of_floats("max", pairs(r), |[a, b]| bits(a.max(b)));
    list.of_floats("to_u64", numbers(r), |[x]| x as u64);
    list.of_words("of_u64", wholes(r), |n| bits(n as f64));
    list.of_words("bits", numbers(r).into_iter().map(|[x]| x.to_bits()), |n| bits(f64::from_bits(n)));
    list.of_words("draw", wholes(r), |n| bits(draw(n)));
    list.of_words("bipolar", wholes(r), |n| bits(draw(n) * 2.0 - 1.0));

    print!("{}", list.0);
}

struct List(String);

impl List {
    fn case(&mut self, name: &str, inputs: &[u64], answer: u64) {
        self.0.push_str(name);
        for word in inputs.iter().chain([&answer]) {
            write!(self.0, " {word:016X}").unwrap();
        }
        self.0.push('\n');
    }

    fn of_floats<const N: usize>(&mut self, name: &str, points: Vec<[f64; N]>, answer: impl Fn([f64; N]) -> u64) {
        for x in points {
            self.case(name, &x.map(f64::to_bits), answer(x));
        }
    }

    fn of_words(&mut self, name: &str, points: impl IntoIterator<Item = u64>, answer: impl Fn(u64) -> u64) {
        for n in points {
            self.case(name, &[n], answer(n));
        }
    }
}

/// The bits, of any NaN the same.
fn bits(x: f64) -> u64 {
    if x.is_nan() {
        0x7ff8_0000_0000_0000
    } else {
        x.to_bits()
    }
}

/// The Rust's `next_f64` over a number drawn by the caller.
fn draw(k: u64) -> f64 {
    k as f64 * 2f64.powi(-53)
}

/// Each with both signs and with the numbers beside it.
fn around(points: impl IntoIterator<Item = f64>) -> Vec<f64> {
    points.into_iter().flat_map(|x| [x.next_down(), x, x.next_up()]).flat_map(|x| [x, -x]).collect()
}

/// What any function on numbers may get wrong: zeros, subnormal numbers, infinities, NaNs of several bits.
fn corners() -> Vec<f64> {
    let all = [
        0x0000_0000_0000_0000,
        0x0000_0000_0000_0001, // the smallest number
        0x0008_0000_0000_0000,
        0x000f_ffff_ffff_ffff, // the largest subnormal one
        0x0010_0000_0000_0000,
        0x7fef_ffff_ffff_ffff, // the largest
        0x7ff0_0000_0000_0000,
        0x7ff0_0000_0000_0001, // a signalling NaN
        0x7ff8_0000_0000_0000,
        0x7ff8_0000_0000_002a,
    ];
    all.into_iter().map(f64::from_bits).flat_map(|x| [x, -x]).collect()
}

fn singles(points: impl IntoIterator<Item = f64>) -> Vec<[f64; 1]> {
    points.into_iter().map(|x| [x]).collect()
}

/// Radians: right angles and half ones, the ends of the range, small ones, and drawn ones.
fn angles(r: &mut Random) -> Vec<[f64; 1]> {
    let mut all = corners();
    all.extend(around([FRAC_PI_4, PI, 1.0, 100.0, 512.0]));
    all.extend(around((1..=325).step_by(12).map(|k| k as f64 * FRAC_PI_2)));
    all.extend([1e-300, 1e-20, 1e-8, 0.001, 513.0, 1e6, 1e300].into_iter().flat_map(|x| [x, -x]));
    all.extend((0..DRAWS).map(|_| r.between(-512.0, 512.0)));
    all.extend((0..DRAWS / 4).map(|_| r.between(-1.0, 1.0)));
    singles(all)
}

/// Whole and half numbers, the ends of the range, and drawn numbers.
fn exponents(r: &mut Random) -> Vec<[f64; 1]> {
    let mut all = corners();
    all.extend(around([0.5, 1.0, 2.0, 1021.5, 1022.0, 1023.0, 1024.0, 1074.0, 1e6]));
    all.extend((-1022..1024).step_by(31).flat_map(|k| [k as f64, k as f64 + 0.5]));
    all.extend((0..DRAWS).map(|_| r.between(-1022.0, 1024.0)));
    all.extend((0..DRAWS / 4).map(|_| r.between(-2.0, 2.0)));
    singles(all)
}

/// From 0 to 1: parts of 64, and drawn numbers.
fn shares(r: &mut Random) -> Vec<[f64; 1]> {
    let mut all = corners();
    all.extend(around([0.5, 1.0, 2.0, 88.5, 89.0]));
    all.extend((0..=64).map(|k| k as f64 / 64.0));
    all.extend((0..DRAWS * 5 / 4).map(|_| r.between(0.0, 1.0)));
    singles(all)
}

/// Numbers of every kind: powers of two and what lies beside them, fractions, and drawn bits.
fn numbers(r: &mut Random) -> Vec<[f64; 1]> {
    let mut all = corners();
    all.extend(around([-53, -1, 0, 1, 2, 31, 52, 53, 63, 64, 1023].map(|k| 2f64.powi(k))));
    all.extend(around([0.1, 1.5, 2.5, 999.5, 2f64.powi(52) - 0.5]));
    all.extend((0..DRAWS * 5 / 8).map(|_| f64::from_bits(r.bits())));
    all.extend((0..DRAWS * 5 / 8).map(|_| ordinary(r)));
    singles(all)
}

/// A number from 2^-4 to 2^68, where fractions, whole numbers and the ends of u64 lie.
fn ordinary(r: &mut Random) -> f64 {
    let exponent = 1023 - 4 + r.bits() % 72;
    f64::from_bits(r.bits() & 0x800f_ffff_ffff_ffff | exponent << 52)
}

/// Ranges as Rust's `clamp` takes them, and numbers in, at the ends of and outside them.
fn clamped(r: &mut Random) -> Vec<[f64; 3]> {
    let ranges =
        [(0.0, 1.0), (-1.0, 1.0), (0.05, 0.95), (-32.0, 32.0), (2.0, 2.0), (-0.0, 0.0), (f64::NEG_INFINITY, 1e9)];
    let mut all = vec![];
    for (lo, hi) in ranges {
        all.extend(corners().into_iter().map(|x| [x, lo, hi]));
        all.extend([lo, hi].into_iter().flat_map(|x| [x.next_down(), x, x.next_up()]).map(|x| [x, lo, hi]));
        all.extend((0..DRAWS / 8).map(|_| [r.between(-40.0, 40.0), lo, hi]));
    }
    all
}

/// Pairs of numbers. Which zero is the smaller, and what comes of a signalling NaN, Rust leaves open.
fn pairs(r: &mut Random) -> Vec<[f64; 2]> {
    let open = |x: f64| x.is_nan() && x.to_bits() & 1 << 51 == 0;
    let zeros = |a: f64, b: f64| a == 0.0 && b == 0.0 && a.to_bits() != b.to_bits();
    let some: Vec<f64> = corners().into_iter().filter(|&x| !open(x)).collect();
    let mut all: Vec<[f64; 2]> = some.iter().flat_map(|&a| some.iter().map(move |&b| [a, b])).step_by(3).collect();
    all.extend(around([1e-9, 1.0]).into_iter().flat_map(|a| [[a, 1.0], [1e-9, a], [a, f64::NAN]]));
    all.extend((0..DRAWS).map(|_| [f64::from_bits(r.bits()), f64::from_bits(r.bits())]));
    all.retain(|&[a, b]| !open(a) && !open(b) && !zeros(a, b));
    all
}

/// Whole numbers around each power of two, halfway between two floats, and of every length.
fn wholes(r: &mut Random) -> Vec<u64> {
    let mut all = vec![0, u64::MAX, u64::MAX - 1023, u64::MAX - 1024, u64::MAX - 2047];
    for n in (0..64).map(|k| 1u64 << k) {
        all.extend([n, n - 1, n | n >> 53, n | n >> 53 | n >> 52]);
    }
    all.extend((0..DRAWS / 2).map(|_| r.bits() >> (r.bits() % 64)));
    all
}
