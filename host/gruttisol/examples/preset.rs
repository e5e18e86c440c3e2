//! Renders a preset by blocks and shows its tally: whether the render is finished, and so may be paid for.
//!
//!     cargo run --offline --release -p gruttisol --example preset -- ../presets/choir.score
//!
//! It prints the loudest sample of the first output, then what the program `render` prints at its end.
use gruttisol::answer::Refused;
use gruttisol::formant_osc::FormantOsc;
use gruttisol::lfo::Lfo;
use gruttisol::score::{Controls, Score};
use gruttisol::supersaw::Supersaw;
use gruttisol::tally::{Tally, NAMES};
use gruttisol::vco::Vco;
use std::process::ExitCode;
use std::{env, fs};

/// Ticks at once.
const BLOCK: usize = 256;

fn main() -> ExitCode {
    let Some(path) = env::args().nth(1) else {
        eprintln!("usage: preset SCORE");
        return ExitCode::FAILURE;
    };
    let text = match fs::read(&path) {
        Ok(text) => text,
        Err(error) => {
            eprintln!("{path}: {error}");
            return ExitCode::FAILURE;
        }
    };
    match Score::parse(&text).and_then(|score| render(&score).map(|rendered| (score, rendered))) {
        Ok((score, (loudest, tally))) => {
            let [begun, finished, ..] = *tally.counts();
            let claimed = if finished == begun && begun == score.frames() { "yes" } else { "no" };
            println!("loudest={loudest}");
            for (name, count) in NAMES.iter().zip(tally.counts()) {
                println!("{name}={count}");
            }
            println!("claimed={claimed}");
            ExitCode::SUCCESS
        }
        Err(refused) => {
            eprintln!("{path}: {refused}");
            ExitCode::FAILURE
        }
    }
}

/// The loudest finite sample of the first output, and the tally of all frames.
pub fn render(score: &Score) -> Result<(f64, Tally), Refused> {
    let (rate, threshold) = (f64::from(score.hz()), score.threshold());
    match &score.controls() {
        Controls::Vco(c) => {
            let mut vco = Vco::new(rate, threshold)?;
            blocks(score, 4, |tally, samples, marks| vco.block(c, Vco::WANT_ALL, tally, samples, marks))
        }
        Controls::Lfo(c) => {
            let mut lfo = Lfo::new(rate, threshold)?;
            blocks(score, 6, |tally, samples, marks| lfo.block(c, Lfo::WANT_ALL, tally, samples, marks))
        }
        Controls::Supersaw(c) => {
            let mut supersaw = Supersaw::new(rate)?;
            blocks(score, 2, |tally, samples, marks| supersaw.block(c, tally, samples, marks))
        }
        Controls::Formant(c) => {
            let mut formant = FormantOsc::new(rate)?;
            blocks(score, 1, |tally, samples, marks| formant.block(c, tally, samples, marks))
        }
    }
}

fn blocks(
    score: &Score,
    ports: usize,
    mut block: impl FnMut(&mut Tally, &mut [f64], &mut [u32]) -> Result<(), Refused>,
) -> Result<(f64, Tally), Refused> {
    let (mut samples, mut marks) = (vec![0.0; ports * BLOCK], [0; BLOCK]);
    let (mut tally, mut loudest) = (Tally::new(), 0.0);
    let mut left = score.frames() as usize;
    while left > 0 {
        let n = left.min(BLOCK);
        block(&mut tally, &mut samples[..ports * n], &mut marks[..n])?;
        let first = samples[..ports * n].iter().step_by(ports).filter(|x| x.is_finite());
        loudest = first.fold(loudest, |most: f64, x| most.max(x.abs()));
        left -= n;
    }
    Ok((loudest, tally))
}
