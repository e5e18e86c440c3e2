//! A score played, and the text of it.
use crate::score::{read, Score};
use compare::marked::Marked;
use compare::rust::{Lfo, Vco};
use compare::script::one_nan;
use gruttisol::answer::Mark;
use quiver::modules::oscillators::{FormantOsc, Supersaw};
use std::io::{self, Write};

/// What `render` must print for a score.
pub fn render(text: &[u8]) -> Vec<u8> {
    let mut said = vec![];
    write(text, &mut said).unwrap();
    said
}

/// Writes what `render` must print for a score.
pub fn write(text: &[u8], out: &mut impl Write) -> io::Result<()> {
    match read(text) {
        Ok(score) => play(&score, out),
        Err(refusal) => writeln!(out, "refused={}", refusal as u32),
    }
}

/// The Rust's new oscillator for a score.
fn voice(score: &Score) -> Box<dyn Marked> {
    let (rate, threshold) = (score.hz.into(), score.threshold());
    match score.osc.name {
        "vco" => Box::new(Vco::new(rate, threshold)),
        "lfo" => Box::new(Lfo::new(rate, threshold)),
        "supersaw" => Box::new(Supersaw::new(rate)),
        "formant" => Box::new(FormantOsc::new(rate)),
        name => unreachable!("{name} is no oscillator of a score"),
    }
}

fn play(score: &Score, out: &mut impl Write) -> io::Result<()> {
    let (mut voice, controls) = (voice(score), score.controls());
    let mut samples = vec![0.0; score.osc.outputs.len()];
    let mut marks = Marks::default();
    for n in 0..score.frames {
        let mark = voice.marked_tick(&controls, u32::MAX, &mut samples);
        marks.take(mark);
        writeln!(out, "n={n}\nmark={}", mark.word())?;
        for (name, sample) in score.osc.outputs.iter().zip(&samples) {
            writeln!(out, "{name}={:016X}", one_nan(sample.to_bits()))?;
        }
    }
    marks.write(score.frames, out)
}

/// How many ticks had each mark.
#[derive(Default)]
struct Marks {
    finished: u32,
    cleared: u32,
    notfinite: u32,
    lost: u32,
    steered: u32,
}

impl Marks {
    fn take(&mut self, mark: Mark) {
        *match mark {
            Mark::Clean => &mut self.finished,
            Mark::Cleared => &mut self.cleared,
            Mark::NotFinite => &mut self.notfinite,
            Mark::Lost => &mut self.lost,
            Mark::Steered => &mut self.steered,
        } += 1;
    }

    fn write(&self, frames: u32, out: &mut impl Write) -> io::Result<()> {
        let Marks { finished, cleared, notfinite, lost, steered } = self;
        let begun = finished + cleared + notfinite + lost + steered;
        let claimed = if *finished == begun && begun == frames { "yes" } else { "no" };
        writeln!(out, "begun={begun}\nfinished={finished}\ncleared={cleared}\nnotfinite={notfinite}\nlost={lost}")?;
        writeln!(out, "steered={steered}\nclaimed={claimed}")
    }
}
