//! What must come out to the last bit: whole powers of two, noise draws, and the small functions against Rust's own.
//!
//! Two answers are the same if their bits are, or if both are NaN.
use gruttisol::numeric::*;
use random::Random;

/// Drawn inputs of each kind, beside the corners.
const DRAWS: usize = 1_000_000;

/// The numbers that a function on f64 is most likely to get wrong, each with both signs.
fn corners() -> Vec<f64> {
    let bits = [
        0x7ff0_0000_0000_0001, // a signalling NaN
        0x7ff8_0000_0000_0000,
        0x7ff8_0000_0000_002a,
        0x7fff_ffff_ffff_ffff,
        0x0000_0000_0000_0001, // the smallest number
        0x0008_0000_0000_0000,
        0x000f_ffff_ffff_ffff, // the largest subnormal one
    ];
    let powers = [-1022, -100, -53, -52, -3, -2, -1, 0, 1, 2, 8, 31, 32, 52, 53, 62, 63, 64, 65, 100, 1023];
    let others =
        [0.0, 1e-9, 0.1, 1.5, 2.5, 3.0, 1e9, 2f64.powi(52) - 0.5, 2f64.powi(52) + 1.0, f64::MAX, f64::INFINITY];
    let mut all: Vec<f64> = bits.into_iter().map(f64::from_bits).chain(others).collect();
    all.extend(powers.into_iter().map(|k| 2f64.powi(k)).flat_map(|x| [x.next_down(), x, x.next_up()]));
    all.extend(all.clone().iter().map(|x| -x));
    all
}

/// A number from 2^-4 to 2^68, where fractions, whole numbers and the ends of u64 lie.
fn ordinary(random: &mut Random) -> f64 {
    let exponent = 1023 - 4 + random.bits() % 72;
    f64::from_bits(random.bits() & 0x800f_ffff_ffff_ffff | exponent << 52)
}

/// Hands a check numbers of any bits, then, as often, ordinary ones; it draws as many as it takes.
fn drawn(mut check: impl FnMut(&mut dyn FnMut() -> f64)) {
    let mut random = Random::new(1);
    for _ in 0..DRAWS {
        check(&mut || f64::from_bits(random.bits()));
        check(&mut || ordinary(&mut random));
    }
}

/// Runs a check on every corner and on drawn numbers.
fn each(mut check: impl FnMut(f64)) {
    corners().into_iter().for_each(&mut check);
    drawn(|draw| check(draw()));
}

/// Runs a check on every pair of corners and on drawn pairs.
fn each_pair(mut check: impl FnMut(f64, f64)) {
    for a in corners() {
        corners().into_iter().for_each(|b| check(a, b));
    }
    drawn(|draw| check(draw(), draw()));
}

/// Runs a check on whole numbers: around each power of two, halfway between two floats, and drawn ones of every length.
fn each_whole(mut check: impl FnMut(u64)) {
    for power in 0..64 {
        let n = 1u64 << power;
        [n - 1, n, n + 1, n | n >> 53, n | n >> 53 | n >> 52, !n].into_iter().for_each(&mut check);
    }
    [u64::MAX, u64::MAX - 1023, u64::MAX - 1024, u64::MAX - 2047].into_iter().for_each(&mut check);
    let mut random = Random::new(2);
    (0..DRAWS).for_each(|_| check(random.bits() >> (random.bits() % 64)));
}

#[track_caller]
fn same(ours: f64, theirs: f64, of: impl std::fmt::Debug) {
    let same = ours.to_bits() == theirs.to_bits() || ours.is_nan() && theirs.is_nan();
    assert!(same, "of {of:x?}: {ours:?} ({:016X}), and Rust's own is {theirs:?}", ours.to_bits());
}

#[test]
fn whole_powers_of_two() {
    for k in -1022..=1023 {
        let power = f64::from_bits(((k + 1023) as u64) << 52);
        same(exp2(k as f64), power, k);
    }
}

/// n / 2^53 by integer arithmetic alone, for an n of at most 53 digits.
fn share(n: i64) -> f64 {
    if n == 0 {
        return 0.0;
    }
    let zeros = n.unsigned_abs().leading_zeros();
    let sign = u64::from(n < 0);
    let exponent = u64::from(1023 + 63 - zeros - 53);
    let digits = n.unsigned_abs() << zeros << 1 >> 12; // the leading 1 isn't written
    f64::from_bits(sign << 63 | exponent << 52 | digits)
}

fn draw_is_exact(k: u64) {
    same(draw(k), share(k as i64), k);
    same(bipolar(k), share(2 * k as i64 - (1 << 53)), k);
}

#[test]
fn draws_are_exact() {
    for k in [0, 1, (1 << 52) - 1, 1 << 52, (1 << 52) + 1, (1 << 53) - 1] {
        draw_is_exact(k);
    }
    let mut random = Random::new(3);
    (0..DRAWS).for_each(|_| draw_is_exact(random.bits() >> 11));
    same(bipolar(0), -1.0, 0);
    same(bipolar(1 << 52), 0.0, 1u64 << 52);
    same(bipolar((1 << 53) - 1), 1.0 - f64::EPSILON, (1u64 << 53) - 1);
}

#[test]
fn draws_are_as_in_the_rust() {
    each_whole(|k| {
        let theirs = k as f64 * (1.0 / (1u64 << 53) as f64);
        same(draw(k), theirs, k);
        same(bipolar(k), theirs * 2.0 - 1.0, k);
    });
}

#[test]
fn finite_test() {
    each(|x| assert_eq!(is_finite(x), x.is_finite(), "{x:?}"));
}

#[test]
fn floors() {
    each(|x| same(floor(x), x.floor(), x));
}

#[test]
fn magnitudes() {
    each(|x| same(fabs(x), x.abs(), x));
}

#[test]
fn casts_to_whole_numbers() {
    each(|x| assert_eq!(to_u64(x), x as u64, "{x:?}"));
}

#[test]
fn casts_of_whole_numbers() {
    each_whole(|n| same(of_u64(n), n as f64, n));
}

#[test]
fn bits_of_numbers() {
    each(|x| {
        let theirs = if x.is_nan() { 0x7ff8_0000_0000_0000 } else { x.to_bits() };
        assert_eq!(bits(x), theirs, "{x:?}");
    });
}

#[test]
fn numbers_of_bits() {
    each(|x| same(of_bits(x.to_bits()), x, x.to_bits()));
    each_whole(|n| same(of_bits(n), f64::from_bits(n), n));
}

/// Compares `min` or `max` with Rust's. Rust leaves open which of two zeros comes out: then ours has to be one of the two.
/// It promises to take all NaNs alike, but Arm's instruction tells a signalling NaN apart, so Rust's is given a quiet one.
fn each_pair_alike(ours: fn(f64, f64) -> f64, theirs: fn(f64, f64) -> f64) {
    let quiet = |x: f64| if x.is_nan() { f64::NAN } else { x };
    each_pair(|a, b| {
        let answer = ours(a, b);
        if a == 0.0 && b == 0.0 {
            assert!([a, b].map(f64::to_bits).contains(&answer.to_bits()), "of {a:?} and {b:?}: {answer:?}");
        } else {
            same(answer, theirs(quiet(a), quiet(b)), (a, b));
        }
    });
}

#[test]
fn minima() {
    each_pair_alike(min, f64::min);
}

#[test]
fn maxima() {
    each_pair_alike(max, f64::max);
}

/// Rust's `clamp` panics where the ends are out of order or NaN; there ours is held to its contract.
fn clamp_is_right(x: f64, lo: f64, hi: f64) {
    let theirs = if lo <= hi {
        x.clamp(lo, hi)
    } else if x < lo {
        lo
    } else if x > hi {
        hi
    } else {
        x
    };
    same(clamp(x, lo, hi), theirs, (x, lo, hi));
}

#[test]
fn clamps() {
    for x in corners() {
        for lo in corners() {
            corners().into_iter().for_each(|hi| clamp_is_right(x, lo, hi));
        }
    }
    drawn(|draw| clamp_is_right(draw(), draw(), draw()));
}
