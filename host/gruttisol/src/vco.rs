//! The voltage-controlled oscillator: sine, triangle, saw and square of one phase.
use crate::answer::{done, ticked, Refused, Ticked};
use crate::lent::{vco_block, vco_tick};
use crate::tally::Tally;

/// Inputs in port order.
#[derive(Clone, Copy, PartialEq, Debug)]
pub struct Controls {
    /// Pitch in volts per octave, 0 being middle C.
    pub voct: f64,
    /// Exponential modulation, in volts per octave.
    pub fm: f64,
    /// Share of a turn that the square is high, from 0.05 to 0.95.
    pub pw: f64,
    /// A rise above the threshold starts the phase anew.
    pub sync: f64,
    /// Linear modulation through zero: 5 V add the pitch's frequency once more.
    pub fm_lin: f64,
}

/// Outputs in port order; one that isn't wanted reads 0.0.
#[derive(Clone, Copy, PartialEq, Debug)]
pub struct Volts {
    pub sin: f64,
    pub tri: f64,
    pub saw: f64,
    pub sqr: f64,
}

oscillator! {
    /// Floats: phase, sample rate, previous sync, threshold, memo's frequency. Wholes: the memo's three keys, and whether it holds.
    Vco: [f64; 5], [u64; 4], vco_new(threshold), vco_reset, vco_set_sample_rate
}

impl Vco {
    /// Bits of `wanted`; others do nothing.
    pub const WANT_SIN: u32 = 1 << 0;
    pub const WANT_TRI: u32 = 1 << 1;
    pub const WANT_SAW: u32 = 1 << 2;
    pub const WANT_SQR: u32 = 1 << 3;
    pub const WANT_ALL: u32 = u32::MAX;

    /// One sample of each wanted output; refused by 1 and 2.
    #[inline]
    pub fn tick(&mut self, c: &Controls, wanted: u32) -> Result<Ticked<Volts>, Refused> {
        let mut samples = [0.0; 4];
        let (floats, wholes) = (&mut self.floats, &mut self.wholes);
        let code = vco_tick(c.voct, c.fm, c.pw, c.sync, c.fm_lin, wanted, floats, wholes, &mut samples);
        let [sin, tri, saw, sqr] = samples;
        ticked(code, Volts { sin, tri, saw, sqr })
    }

    /// As many ticks with these controls as there are `marks`, and their tally: the same as so many calls of `tick`, in less
    /// time. `samples` takes four volts for each tick, one tick after another, and `marks` the number of a `Mark` for each.
    /// Refused by 52 where `samples` has another length, by what refuses the first tick, and by 7 where the tally doesn't add
    /// up or hasn't room for all of them; then nothing changes.
    pub fn block(
        &mut self,
        c: &Controls,
        wanted: u32,
        tally: &mut Tally,
        samples: &mut [f64],
        marks: &mut [u32],
    ) -> Result<(), Refused> {
        let (floats, wholes, counts) = (&mut self.floats, &mut self.wholes, tally.counts_mut());
        done(vco_block(c.voct, c.fm, c.pw, c.sync, c.fm_lin, wanted, floats, wholes, counts, samples, marks))
    }
}
