//! The proved oscillators and the Rust's, run through the same calls and compared to the last bit.
//!
//! The Rust is compiled unchanged by the crate `quiver`, over the proved sine, cosine and powers, and once more by `quiver_low`, with the other
//! threshold of gates. Where its source isn't found, nothing can be compared: this crate is empty, and its tests are skipped.
#![cfg(quiver)]

pub mod common;
pub mod draw;
pub mod formant_osc;
pub mod gates;
pub mod karplus_strong;
pub mod lfo;
pub mod marked;
pub mod noise_generator;
mod pair;
pub mod rust;
pub mod script;
pub mod supersaw;
pub mod vco;
pub mod wavetable;

use draw::Draw;
use gruttisol::answer::Mark;
use script::{run, thresholds, ticks, title, Counts, Pair};
use std::thread;

/// The runs of an oscillator from a seed, each of so many ticks and with its title: one at each threshold where it has a gate, else one. An
/// error is the first difference.
pub type Runs = fn(u64, u64) -> Vec<(String, Result<Counts, String>)>;

/// Every oscillator.
pub const ALL: [(&str, Runs); 7] = [
    of::<vco::Vco>(),
    of::<lfo::Lfo>(),
    of::<supersaw::Supersaw>(),
    of::<wavetable::Wavetable>(),
    of::<formant_osc::FormantOsc>(),
    of::<karplus_strong::KarplusStrong>(),
    of::<noise_generator::NoiseGenerator>(),
];

const fn of<P: Pair>() -> (&'static str, Runs) {
    (P::NAME, runs::<P>)
}

/// Each run has a thread.
fn runs<P: Pair>(seed: u64, ticks: u64) -> Vec<(String, Result<Counts, String>)> {
    let started = thresholds::<P>()
        .into_iter()
        .map(|threshold| (title::<P>(threshold), thread::spawn(move || run::<P>(seed, ticks, threshold))));
    let started: Vec<_> = started.collect();
    started.into_iter().map(|(title, run)| (title, run.join().unwrap())).collect()
}

/// The list's lines of an oscillator, as `ticks` has them: so many of any mark, and some that are steered, which are rare among those.
fn lines<P: Pair>(n: usize) -> Result<String, String> {
    const STEERED: usize = 8;
    let told = |said| format!("{}: {said}", P::NAME);
    let any = ticks::<P>(&mut Draw::new(1), n, None).map_err(told)?;
    let steered = ticks::<P>(&mut Draw::of_one_nan(1), STEERED, Some(Mark::Steered)).map_err(told)?;
    let words = |case: &Vec<u64>| case.iter().map(|word| format!(" {word:016X}")).collect::<String>();
    Ok(any.iter().chain(&steered).map(|case| format!("{}_tick{}\n", P::NAME, words(case))).collect())
}

/// The Rust's ticks in the list that the program `replay` runs; ours were compared with them on the way.
pub fn stored() -> Result<String, String> {
    Ok([
        lines::<lfo::Lfo>(200)?,
        lines::<vco::Vco>(200)?,
        lines::<supersaw::Supersaw>(200)?,
        lines::<formant_osc::FormantOsc>(120)?,
        lines::<wavetable::Wavetable>(200)?,
        lines::<karplus_strong::KarplusStrong>(60)?,
        lines::<noise_generator::NoiseGenerator>(80)?,
    ]
    .concat())
}

/// The runs of the gate. It prints what was compared.
#[track_caller]
pub fn gate<P: Pair>() {
    for (title, ran) in runs::<P>(1, 2_000_000) {
        match ran {
            Ok(counts) => println!("{title}: {counts}; no difference"),
            Err(difference) => panic!("{difference}"),
        }
    }
}
