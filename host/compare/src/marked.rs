//! The Rust's oscillators with the mark that the scope gives each of their ticks.
use crate::pair::{advanced, turned, wanted_of};
use crate::rust::{Lfo, Vco};
use crate::script::mark;
use gruttisol::answer::Mark;
use quiver::modules::oscillators::probe::Probe;
use quiver::modules::oscillators::{FormantOsc, Supersaw};

/// A tick and its mark, which is found from the states before and after it and from the controls.
pub trait Marked {
    /// Writes the wanted samples. There are as many controls and samples as the oscillator has ports.
    fn marked_tick(&mut self, controls: &[f64], wanted: u32, samples: &mut [f64]) -> Mark;
}

impl Marked for Vco {
    fn marked_tick(&mut self, controls: &[f64], wanted: u32, samples: &mut [f64]) -> Mark {
        let (before, _) = self.flat();
        self.body(controls.try_into().unwrap(), wanted, samples.try_into().unwrap());
        let (after, _) = self.flat();
        mark(wanted_of(samples, wanted), [], [advanced(before, controls[3], after)], controls)
    }
}

/// The bit of a mask that wants an Lfo's `eoc`.
pub const EOC: u32 = 1 << 5;

/// The Rust has five outputs. The sixth, `eoc`, is ours: it is found from the Rust's values.
impl Marked for Lfo {
    fn marked_tick(&mut self, controls: &[f64], wanted: u32, samples: &mut [f64]) -> Mark {
        let (before, _) = self.flat();
        let (eoc, five) = samples.split_last_mut().unwrap();
        self.body(controls.try_into().unwrap(), wanted, five.try_into().unwrap());
        let (after, _) = self.flat();
        let next = advanced(before, controls[2], after);
        if wanted & EOC != 0 {
            *eoc = if turned(next) { 5.0 } else { 0.0 };
        }
        mark(wanted_of(five, wanted), [], [next], controls)
    }
}

impl Marked for Supersaw {
    fn marked_tick(&mut self, controls: &[f64], wanted: u32, samples: &mut [f64]) -> Mark {
        let (before, _) = self.flat();
        self.body(controls.try_into().unwrap(), wanted, samples.try_into().unwrap());
        let (after, _) = self.flat();
        let (rate, freq, detune) = (after[8], after[9], controls[1].clamp(0.0, 1.0));
        let seven = (0..7).map(|i| before[i] + freq * (1.0 + Supersaw::DETUNES[i] * detune) / rate);
        mark(samples.iter().copied(), [], seven.chain([before[7] + freq / (2.0 * rate)]), controls)
    }
}

/// The sum is that of the five resonators as they stood, under the coefficients that the tick used.
impl Marked for FormantOsc {
    fn marked_tick(&mut self, controls: &[f64], wanted: u32, samples: &mut [f64]) -> Mark {
        let (before, _) = self.flat();
        self.body(controls.try_into().unwrap(), wanted, samples.try_into().unwrap());
        let (after, _) = self.flat();
        let (rate, freq, pulse) = (after[12], after[13], FormantOsc::pulse(before[0]));
        let sum =
            (0..5).fold(0.0, |sum, i| sum + (after[14 + 3 * i] * pulse + before[2 + 2 * i]) * FormantOsc::GAINS[i]);
        let phases = [before[0] + freq / rate, before[1] + FormantOsc::VIBRATO_HZ / rate];
        mark(samples.iter().copied(), [sum], phases, controls)
    }
}
