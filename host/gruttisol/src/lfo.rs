//! The low-frequency oscillator: sine, triangle, saw, square and a sine above zero of one slow phase, and a pulse at the end of each turn.
use crate::answer::{done, ticked, Refused, Ticked};
use crate::lent::{lfo_block, lfo_tick};
use crate::tally::Tally;

/// Inputs in port order.
#[derive(Clone, Copy, PartialEq, Debug)]
pub struct Controls {
    /// From 0, a turn in 100 seconds, to 1, thirty turns a second.
    pub rate: f64,
    /// Volts from peak to peak.
    pub depth: f64,
    /// A rise above the threshold starts the phase anew.
    pub reset: f64,
}

/// Outputs in port order; one that isn't wanted reads 0.0.
#[derive(Clone, Copy, PartialEq, Debug)]
pub struct Volts {
    pub sin: f64,
    pub tri: f64,
    pub saw: f64,
    pub sqr: f64,
    pub sin_uni: f64,
    /// End of cycle: 5.0 in the last tick of a turn, else 0.0, whatever the depth is. A turn that a reset cuts off has none.
    pub eoc: f64,
}

oscillator! {
    /// Floats: phase, sample rate, previous reset input, threshold, memo's frequency. Wholes: the memo's key, and whether it holds.
    Lfo: [f64; 5], [u64; 2], lfo_new(threshold), lfo_reset, lfo_set_sample_rate
}

impl Lfo {
    /// Bits of `wanted`; others do nothing.
    pub const WANT_SIN: u32 = 1 << 0;
    pub const WANT_TRI: u32 = 1 << 1;
    pub const WANT_SAW: u32 = 1 << 2;
    pub const WANT_SQR: u32 = 1 << 3;
    pub const WANT_SIN_UNI: u32 = 1 << 4;
    pub const WANT_EOC: u32 = 1 << 5;
    pub const WANT_ALL: u32 = u32::MAX;

    /// One sample of each wanted output; refused by 1 and 2.
    #[inline]
    pub fn tick(&mut self, c: &Controls, wanted: u32) -> Result<Ticked<Volts>, Refused> {
        let mut samples = [0.0; 6];
        let (floats, wholes) = (&mut self.floats, &mut self.wholes);
        let code = lfo_tick(c.rate, c.depth, c.reset, wanted, floats, wholes, &mut samples);
        let [sin, tri, saw, sqr, sin_uni, eoc] = samples;
        ticked(code, Volts { sin, tri, saw, sqr, sin_uni, eoc })
    }

    /// As many ticks with these controls as there are `marks`, and their tally: the same as so many calls of `tick`, in less
    /// time. `samples` takes six volts for each tick, one tick after another, and `marks` the number of a `Mark` for each.
    /// Refused by 52 where `samples` has another length, by what refuses the first tick, and by 7 where the tally doesn't add
    /// up or hasn't room for all of them; then nothing changes.
    pub fn block(
        &mut self,
        c: &Controls,
        wanted: u32,
        tally: &mut Tally,
        samples: &mut [f64],
        marks: &mut [u32],
    ) -> Result<(), Refused> {
        let (floats, wholes, counts) = (&mut self.floats, &mut self.wholes, tally.counts_mut());
        done(lfo_block(c.rate, c.depth, c.reset, wanted, floats, wholes, counts, samples, marks))
    }
}
