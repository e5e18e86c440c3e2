//! Nanoseconds a call, ours and Rust's own in one run: `cargo run --release --offline -p bench`, and with names of
//! oscillators behind it, or `render`, those alone.
//!
//! Either side is a call that isn't inlined: ours into the archive, Rust's into the C library of the system. The two take
//! turns, and the best of many short runs counts, since whatever else the machine does only adds.
mod noise;
mod oscillators;
mod render;

use gruttisol::{common, numeric};
use random::Random;
use std::f64::consts::TAU;
use std::hint::black_box;
use std::ops::Range;
use std::process::ExitCode;
use std::time::Instant;

/// Arguments drawn for each row: too many for a branch to be foreseen by the last round.
const ARGUMENTS: usize = 4096;
/// Rounds over the arguments in a run.
const ROUNDS: usize = 32;
/// Runs of either side.
const RUNS: usize = 100;

fn main() -> ExitCode {
    let named: Vec<String> = std::env::args().skip(1).collect();
    if named == [render::RUST] {
        return reference::run();
    }
    if named.is_empty() {
        functions();
        println!();
    }
    oscillators::rows(&named);
    if named.is_empty() || named.iter().any(|word| word == "render") {
        println!();
        render::rows();
    }
    ExitCode::SUCCESS
}

fn functions() {
    println!("{:<8} {:<24} {:>7} {:>7} {:>7}  goal", "ns", "range", "ours", "Rust's", "ratio");
    row("sin", 0.0..TAU, numeric::sin, f64::sin, "below 1");
    row("sin", -512.0..512.0, numeric::sin, f64::sin, "below 1");
    row("cos", 0.0..TAU, numeric::cos, f64::cos, "below 1");
    row("cos", -512.0..512.0, numeric::cos, f64::cos, "below 1");
    row("2^x", -5.0..5.0, numeric::exp2, f64::exp2, "at most 2");
    row("2^x", -1022.0..1024.0, numeric::exp2, f64::exp2, "at most 2");
    row("3000^r", 0.0..1.0, numeric::pow3000, |r| 3000f64.powf(r), "at most 0.6");
    row("wrap", 0.0..2.0, common::wrap_phase, rust_wrap, "under 2 ns");
    row("wrap", -1.0..0.0, common::wrap_phase, rust_wrap, "");
    row("wrap", -1000.0..1000.0, common::wrap_phase, rust_wrap, "");
}

/// The Rust's `wrap_phase`, a call of its own as ours is.
#[inline(never)]
fn rust_wrap(x: f64) -> f64 {
    if !x.is_finite() {
        return 0.0;
    }
    let wrapped = x - x.floor();
    if wrapped >= 1.0 {
        0.0
    } else {
        wrapped
    }
}

/// Measures one function over a range, and prints its line.
fn row(name: &str, range: Range<f64>, ours: impl Fn(f64) -> f64, theirs: impl Fn(f64) -> f64, goal: &str) {
    let mut random = Random::new(1);
    let arguments: Vec<f64> = (0..ARGUMENTS).map(|_| random.between(range.start, range.end)).collect();
    let (mut ours_best, mut theirs_best) = (f64::INFINITY, f64::INFINITY);
    for _ in 0..RUNS {
        ours_best = ours_best.min(run(&arguments, &ours));
        theirs_best = theirs_best.min(run(&arguments, &theirs));
    }
    let range = format!("[{}, {})", range.start, range.end);
    println!("{name:<8} {range:<24} {ours_best:>7.2} {theirs_best:>7.2} {:>7.2}  {goal}", ours_best / theirs_best);
}

/// Nanoseconds a call in one run.
fn run(arguments: &[f64], f: impl Fn(f64) -> f64) -> f64 {
    let start = Instant::now();
    for _ in 0..ROUNDS {
        black_box(black_box(arguments).iter().map(|&x| f(x)).sum::<f64>());
    }
    start.elapsed().as_nanos() as f64 / (ROUNDS * arguments.len()) as f64
}
