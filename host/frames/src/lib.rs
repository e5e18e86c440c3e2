//! What no score can ask of `render`, over the safe crate, in the text that `render` prints: the three oscillators that it doesn't
//! play, and vowels that change. Each frame has its mark, and the tally stands at the end. It shows how a service drives an
//! oscillator, lends it a bank, a line or draws, and counts what is finished.
use gruttisol::answer::{Mark, Refused};
use gruttisol::formant_osc::{self, FormantOsc};
use gruttisol::gate::ISSUE_1;
use gruttisol::karplus_strong::{self, KarplusStrong};
use gruttisol::noise_generator::{self, NoiseGenerator};
use gruttisol::tally::{self, Tally};
use gruttisol::wavetable::{self, Wavetable};
use random::Random;
use std::fmt::Write;

/// Frames a second.
pub const HZ: u32 = 48000;
const RATE: f64 = HZ as f64;
/// What there is, as `text` names it.
pub const NAMES: [&str; 5] = ["wavetable", "string", "noise", "vowels", "vowels_begin"];

/// The text of a name; of another than `NAMES` there is none.
pub fn text(name: &str) -> Option<Result<String, Refused>> {
    match name {
        "wavetable" => Some(wavetable()),
        "string" => Some(string()),
        "noise" => Some(noise()),
        "vowels" => Some(vowels(20_000)),
        "vowels_begin" => Some(vowels(480)),
        _ => None,
    }
}

/// The frames so far and their tally.
#[derive(Default)]
struct Text {
    text: String,
    tally: Tally,
}

impl Text {
    /// Adds a frame of these outputs.
    fn frame(&mut self, mark: Mark, outputs: &[(&str, f64)]) -> Result<(), Refused> {
        let [begun, ..] = *self.tally.counts();
        write!(self.text, "n={begun}\nmark={}\n", mark.word()).unwrap();
        for (name, volts) in outputs {
            let bits = if volts.is_nan() { 0x7ff8_0000_0000_0000 } else { volts.to_bits() };
            writeln!(self.text, "{name}={bits:016X}").unwrap();
        }
        self.tally.take(Ok(mark))
    }

    /// The whole, of so many frames.
    fn end(mut self, frames: u32) -> String {
        let [begun, finished, ..] = *self.tally.counts();
        let claimed = if finished == begun && begun == frames { "yes" } else { "no" };
        for (name, count) in tally::NAMES.iter().zip(self.tally.counts()) {
            writeln!(self.text, "{name}={count}").unwrap();
        }
        writeln!(self.text, "claimed={claimed}").unwrap();
        self.text
    }
}

/// Middle C, gliding from the first table of the bank to the last.
fn wavetable() -> Result<String, Refused> {
    const FRAMES: u32 = 1920;
    let mut bank = vec![0.0; Wavetable::BANK];
    Wavetable::fill_bank(&mut bank)?;
    let mut oscillator = Wavetable::new(RATE, ISSUE_1)?;
    let mut text = Text::default();
    for frame in 0..FRAMES {
        let table = f64::from(frame) / f64::from(FRAMES);
        let controls = wavetable::Controls { v_oct: 0.0, table, morph: 0.0, sync: 0.0 };
        let ticked = oscillator.tick(&controls, &bank)?;
        text.frame(ticked.mark, &[("out", ticked.volts.out)])?;
    }
    Ok(text.end(FRAMES))
}

/// A string an octave above middle C, plucked in its first frame.
fn string() -> Result<String, Refused> {
    const FRAMES: u32 = 2400;
    let mut line = vec![0.0; KarplusStrong::cells(RATE)];
    let mut random = Random::new(1);
    let draws: Vec<u64> = line.iter().map(|_| random.bits() >> 11).collect();
    let mut string = KarplusStrong::new(RATE, ISSUE_1, &mut line)?;
    let mut text = Text::default();
    for frame in 0..FRAMES {
        let trigger = if frame == 0 { 5.0 } else { 0.0 };
        let controls = karplus_strong::Controls { voct: 1.0, trigger, damping: 0.2, brightness: 0.5, stretch: 0.0 };
        let ticked = string.tick(&controls, &mut line, &draws)?;
        text.frame(ticked.mark, &[("out", ticked.volts.out)])?;
    }
    Ok(text.end(FRAMES))
}

/// White and pink noise; the second of each turns from a noise of its own into the first.
fn noise() -> Result<String, Refused> {
    const FRAMES: u32 = 480;
    let mut random = Random::new(1);
    let mut noise = NoiseGenerator::new();
    let mut text = Text::default();
    for frame in 0..FRAMES {
        let controls = noise_generator::Controls { correlation: Some(f64::from(frame) / f64::from(FRAMES)) };
        let draws: Vec<u64> = (0..noise.needed()).map(|_| random.bits() >> 11).collect();
        let ticked = noise.tick(&controls, NoiseGenerator::WANT_ALL, &draws)?;
        let noise_generator::Volts { white, pink, white2, pink2 } = ticked.volts;
        text.frame(ticked.mark, &[("white", white), ("pink", pink), ("white2", white2), ("pink2", pink2)])?;
    }
    Ok(text.end(FRAMES))
}

/// So many frames of middle C, sung by turns on two vowels: six frames "see", eight frames "father". A resonator goes on with the
/// other vowel's coefficients from what it held, and grows.
fn vowels(frames: u32) -> Result<String, Refused> {
    let mut oscillator = FormantOsc::new(RATE)?;
    let mut text = Text::default();
    for frame in 0..frames {
        let vowel = if frame % 14 < 6 { 0.5 } else { 0.0 };
        let controls = formant_osc::Controls { v_oct: 0.0, vowel, formant_shift: 0.0, vibrato: 0.0 };
        let ticked = oscillator.tick(&controls)?;
        text.frame(ticked.mark, &[("out", ticked.volts.out)])?;
    }
    Ok(text.end(frames))
}
