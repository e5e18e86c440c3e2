//! Sine, cosine and powers of our own, and the small functions on `f64` as Rust has them.
//!
//! Every function takes every input, and any NaN is the one NaN.

exported! {
    /// The sine of `x` radians: from -1 to 1 where |x| is at most 512, else NaN.
    fn sin(x: f64) -> f64;

    /// The cosine of `x` radians: from -1 to 1 where |x| is at most 512, else NaN.
    fn cos(x: f64) -> f64;

    /// 2^x: exact for a whole `x` from -1022 to 1023, infinity from 1024 on, 0 below -1022.
    fn exp2(x: f64) -> f64;

    /// 3000^r for an `r` from 0 to 1: exactly 1 at 0 and 3000 at 1.
    fn pow3000(r: f64) -> f64;

    /// The largest whole number that isn't above `x`.
    fn floor(x: f64) -> f64;

    /// `x` with its sign cleared.
    fn fabs(x: f64) -> f64;

    /// Whether `x` is neither an infinity nor a NaN.
    fn is_finite(x: f64) -> bool;

    /// `lo` where `x` is below it, else `hi` where `x` is above it, else `x`: a NaN passes.
    fn clamp(x: f64, lo: f64, hi: f64) -> f64;

    /// The smaller of the two; with one NaN the other.
    fn min(a: f64, b: f64) -> f64;

    /// The larger of the two; with one NaN the other.
    fn max(a: f64, b: f64) -> f64;

    /// `x as u64`: toward zero, a NaN to 0, the nearest end where `x` is out of range.
    fn to_u64(x: f64) -> u64;

    /// `n as f64`: the nearest float.
    fn of_u64(n: u64) -> f64;

    /// The bits of `x`, of any NaN 7FF8000000000000.
    fn bits(x: f64) -> u64;

    /// The number that the bits stand for.
    fn of_bits(b: u64) -> f64;

    /// k · 2^-53: exact for a `k` below 2^53.
    fn draw(k: u64) -> f64;

    /// Twice the draw less 1: exact for a `k` below 2^53.
    fn bipolar(k: u64) -> f64;
}
