//! Sine, cosine and the powers against Rust's own `f64::sin`, `cos`, `exp2` and `powf`, on a grid over each range.
//!
//! Those methods call the C library of the system: on Linux with glibc, its libm, which is off by less than one unit in
//! the last place. A point further off than 2^-40 fails, so a whole unit there (2^-52) changes no verdict.
use gruttisol::numeric::{cos, exp2, pow3000, sin};
use random::Random;
use std::f64::consts::{FRAC_PI_2, FRAC_PI_4};

/// 2^-40.
const LIMIT: f64 = 1.0 / (1u64 << 40) as f64;

/// Points of a grid that are evenly spaced, and as many that are drawn.
const POINTS: u32 = 100_000;

/// The points of a grid from `lo` to `hi`, few of them whole: evenly spaced ones, drawn ones, and the surroundings of the
/// ends and of `special` ones.
fn grid(lo: f64, hi: f64, special: impl Iterator<Item = f64>) -> Vec<f64> {
    let mut random = Random::new(1);
    let spaced = (0..POINTS).map(|i| lo + (hi - lo) * ((i as f64 + 0.5) / POINTS as f64));
    let drawn = (0..POINTS).map(|_| random.between(lo, hi));
    let mut points: Vec<f64> = spaced.chain(drawn).collect();
    points.extend(special.chain([lo, hi]).flat_map(around));
    points.retain(|x| (lo..=hi).contains(x));
    let whole = points.iter().filter(|x| x.fract() == 0.0).count();
    assert!(points.len() > 2 * POINTS as usize && whole < points.len() / 100, "{whole} of {}", points.len());
    points
}

/// `x`, three floats on each side of it, and numbers at falling distances.
fn around(x: f64) -> Vec<f64> {
    let mut near = vec![x];
    let (mut below, mut above) = (x, x);
    for _ in 0..3 {
        (below, above) = (below.next_down(), above.next_up());
        near.extend([below, above]);
    }
    for power in [4, 10, 20, 30] {
        let step = 1.0 / (1u64 << power) as f64;
        near.extend([x - step, x + step]);
    }
    near
}

/// How far `ours` is off.
fn absolute(ours: f64, theirs: f64) -> f64 {
    (ours - theirs).abs()
}

fn relative(ours: f64, theirs: f64) -> f64 {
    ((ours - theirs) / theirs).abs()
}

/// Compares two functions at every point, prints the worst error, and fails beyond the limit.
fn compare(
    what: &str,
    points: &[f64],
    ours: impl Fn(f64) -> f64,
    theirs: impl Fn(f64) -> f64,
    error: fn(f64, f64) -> f64,
) {
    // a NaN on either side is as far off as can be
    let error = |x: f64| Some(error(ours(x), theirs(x))).filter(|e| !e.is_nan()).unwrap_or(f64::INFINITY);
    let worst = points.iter().copied().max_by(|&a, &b| error(a).total_cmp(&error(b))).unwrap();
    println!("{what}: worst error 2^{:.2} at {worst:?} ({} points)", error(worst).log2(), points.len());
    assert!(error(worst) <= LIMIT, "{what} at {worst:?}: {:?}, and Rust's own is {:?}", ours(worst), theirs(worst));
}

/// Eighths of a turn over [-512, 512]: where sine and cosine change their piece, are 0, and are ±1.
fn eighths() -> impl Iterator<Item = f64> {
    (-652..=652).map(|k| k as f64 * FRAC_PI_4)
}

#[test]
fn sine() {
    let points = grid(-512.0, 512.0, eighths());
    compare("sine over [-512, 512]", &points, sin, f64::sin, absolute);
    assert!(points.iter().all(|&x| (-1.0..=1.0).contains(&sin(x))));
}

#[test]
fn cosine() {
    let points = grid(-512.0, 512.0, eighths());
    compare("cosine over [-512, 512]", &points, cos, f64::cos, absolute);
    assert!(points.iter().all(|&x| (-1.0..=1.0).contains(&cos(x))));
}

#[test]
fn power_of_two() {
    // between two halves the nearest whole number is one and the same
    let halves = (-1022..1024).map(|k| k as f64 + 0.5);
    let points = grid(-1022.0, 1024f64.next_down(), halves.chain([0.0, 1.0, 1023.0]));
    compare("2^x over [-1022, 1024)", &points, exp2, f64::exp2, relative);
}

#[test]
fn power_of_3000() {
    let halves = (0..12).map(|k| (k as f64 + 0.5) / 3000f64.log2());
    let points = grid(0.0, 1.0, halves);
    compare("3000^r over [0, 1]", &points, pow3000, |r| 3000f64.powf(r), relative);
}

/// Bits are compared, so that 0.0 isn't -0.0.
#[track_caller]
fn is(ours: f64, wanted: f64) {
    assert_eq!(ours.to_bits(), wanted.to_bits(), "{ours:?} isn't {wanted:?}");
}

#[test]
fn listed_values_of_sine_and_cosine() {
    is(sin(0.0), 0.0);
    is(cos(0.0), 1.0);
    assert!(sin(512.0).is_finite() && sin(-512.0).is_finite());
    assert!(cos(512.0).is_finite() && cos(-512.0).is_finite());
    let beyond = [512f64.next_up(), 513.0, 1e9, f64::MAX, f64::INFINITY];
    for x in beyond.into_iter().flat_map(|x| [x, -x]).chain([f64::NAN, -f64::NAN]) {
        assert!(sin(x).is_nan() && cos(x).is_nan(), "{x:?}");
    }
    assert!(absolute(sin(FRAC_PI_2), 1.0) <= LIMIT && absolute(cos(FRAC_PI_2), 0.0) <= LIMIT);
}

#[test]
fn listed_values_of_powers() {
    is(exp2(0.0), 1.0);
    is(exp2(-1022.0), f64::MIN_POSITIVE);
    for x in [1024.0, 1024f64.next_up(), 1025.0, f64::MAX, f64::INFINITY] {
        is(exp2(x), f64::INFINITY);
    }
    for x in [(-1022f64).next_down(), -1022.5, -1023.0, -1074.0, -f64::MAX, f64::NEG_INFINITY] {
        is(exp2(x), 0.0);
    }
    is(pow3000(0.0), 1.0);
    is(pow3000(1.0), 3000.0);
    assert!(exp2(f64::NAN).is_nan() && exp2(-f64::NAN).is_nan() && pow3000(f64::NAN).is_nan());
}
