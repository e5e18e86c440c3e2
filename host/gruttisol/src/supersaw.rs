//! The supersaw: seven saws side by side, and one an octave below.
use crate::answer::{done, ticked, Refused, Ticked};
use crate::lent::{supersaw_block, supersaw_tick};
use crate::tally::Tally;

/// Inputs in port order.
#[derive(Clone, Copy, PartialEq, Debug)]
pub struct Controls {
    /// Pitch in volts per octave, 0 being middle C.
    pub voct: f64,
    /// How far the saws lie apart, from 0 to 1.
    pub detune: f64,
    /// From 0, the middle saw alone, to 1, all seven.
    pub mix: f64,
}

/// Outputs in port order.
#[derive(Clone, Copy, PartialEq, Debug)]
pub struct Volts {
    pub out: f64,
    pub sub: f64,
}

oscillator! {
    /// Floats: seven phases, sub phase, sample rate, memo's frequency. Wholes: the memo's key, and whether it holds.
    Supersaw: [f64; 10], [u64; 2], supersaw_new(), supersaw_reset, supersaw_set_sample_rate
}

impl Supersaw {
    /// One sample of both outputs; refused by 1 and 2.
    #[inline]
    pub fn tick(&mut self, c: &Controls) -> Result<Ticked<Volts>, Refused> {
        let mut samples = [0.0; 2];
        let code = supersaw_tick(c.voct, c.detune, c.mix, &mut self.floats, &mut self.wholes, &mut samples);
        let [out, sub] = samples;
        ticked(code, Volts { out, sub })
    }

    /// As many ticks with these controls as there are `marks`, and their tally: the same as so many calls of `tick`, in less
    /// time. `samples` takes two volts for each tick, one tick after another, and `marks` the number of a `Mark` for each.
    /// Refused by 52 where `samples` has another length, by what refuses the first tick, and by 7 where the tally doesn't add
    /// up or hasn't room for all of them; then nothing changes.
    pub fn block(
        &mut self,
        c: &Controls,
        tally: &mut Tally,
        samples: &mut [f64],
        marks: &mut [u32],
    ) -> Result<(), Refused> {
        let (floats, wholes, counts) = (&mut self.floats, &mut self.wholes, tally.counts_mut());
        done(supersaw_block(c.voct, c.detune, c.mix, floats, wholes, counts, samples, marks))
    }
}
