//! The formant oscillator: a glottal pulse through five resonators that sound like a vowel.
use crate::answer::{done, ticked, Refused, Ticked};
use crate::lent::{formant_osc_block, formant_osc_tick};
use crate::tally::Tally;

/// Inputs in port order.
#[derive(Clone, Copy, PartialEq, Debug)]
pub struct Controls {
    /// Pitch in volts per octave, 0 being middle C.
    pub v_oct: f64,
    /// From 0 to 1 over the vowels A, E, I, O, U.
    pub vowel: f64,
    /// Moves all formants: 5 V are an octave up.
    pub formant_shift: f64,
    /// Depth of the vibrato, from 0 to 1.
    pub vibrato: f64,
}

/// The output.
#[derive(Clone, Copy, PartialEq, Debug)]
pub struct Volts {
    pub out: f64,
}

oscillator! {
    /// Floats: phase, vibrato phase, two for each of the five resonators, sample rate, memo's frequency, and three
    /// coefficients for each resonator. Wholes: the frequency's key and whether it holds, then the coefficients' three
    /// keys and whether they hold.
    FormantOsc: [f64; 29], [u64; 6], formant_osc_new(), formant_osc_reset, formant_osc_set_sample_rate
}

impl FormantOsc {
    /// One sample; refused by 1 and 2.
    #[inline]
    pub fn tick(&mut self, c: &Controls) -> Result<Ticked<Volts>, Refused> {
        let mut samples = [0.0; 1];
        let (floats, wholes) = (&mut self.floats, &mut self.wholes);
        let code = formant_osc_tick(c.v_oct, c.vowel, c.formant_shift, c.vibrato, floats, wholes, &mut samples);
        let [out] = samples;
        ticked(code, Volts { out })
    }

    /// As many ticks with these controls as there are `marks`, and their tally: the same as so many calls of `tick`, in less
    /// time. `samples` takes one volt for each tick, one tick after another, and `marks` the number of a `Mark` for each.
    /// Refused by 52 where `samples` has another length, by what refuses the first tick, and by 7 where the tally doesn't add
    /// up or hasn't room for all of them; then nothing changes.
    pub fn block(
        &mut self,
        c: &Controls,
        tally: &mut Tally,
        samples: &mut [f64],
        marks: &mut [u32],
    ) -> Result<(), Refused> {
        let (floats, wholes, counts) = (&mut self.floats, &mut self.wholes, tally.counts_mut());
        done(formant_osc_block(c.v_oct, c.vowel, c.formant_shift, c.vibrato, floats, wholes, counts, samples, marks))
    }
}
