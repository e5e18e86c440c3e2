//! The wavetable oscillator: it reads tables from a bank that its caller keeps.
use crate::answer::{done, ticked, Refused, Ticked};
use crate::lent::{wavetable_block, wavetable_fill_bank, wavetable_fill_table, wavetable_tick};
use crate::tally::Tally;

/// Inputs in port order.
#[derive(Clone, Copy, PartialEq, Debug)]
pub struct Controls {
    /// Pitch in volts per octave, 0 being middle C.
    pub v_oct: f64,
    /// From 0, the first table, to 1, the last.
    pub table: f64,
    /// Leans towards the next table, from 0 to 1.
    pub morph: f64,
    /// A rise above the threshold starts the phase anew.
    pub sync: f64,
}

/// The output.
#[derive(Clone, Copy, PartialEq, Debug)]
pub struct Volts {
    pub out: f64,
}

oscillator! {
    /// Floats: phase, sample rate, previous sync, threshold, memo's frequency. Wholes: the memo's key, and whether it holds.
    Wavetable: [f64; 5], [u64; 2], wavetable_new(threshold), wavetable_reset, wavetable_set_sample_rate
}

impl Wavetable {
    /// Numbers in a bank: 8 tables, of each 8 levels, of each 256 numbers.
    pub const BANK: usize = 16_384;
    /// Numbers in the part of a bank that is one table.
    pub const TABLE: usize = 2_048;

    /// Fills a bank of `BANK` numbers with the eight tables; refused by 4.
    pub fn fill_bank(bank: &mut [f64]) -> Result<(), Refused> {
        done(wavetable_fill_bank(bank))
    }

    /// Fills a part of `TABLE` numbers with one table, from 0 to 7; refused by 4.
    pub fn fill_table(table: u64, part: &mut [f64]) -> Result<(), Refused> {
        done(wavetable_fill_table(table, part))
    }

    /// One sample; refused by 1, 2 and 4.
    #[inline]
    pub fn tick(&mut self, c: &Controls, bank: &[f64]) -> Result<Ticked<Volts>, Refused> {
        let mut samples = [0.0; 1];
        let (floats, wholes) = (&mut self.floats, &mut self.wholes);
        let code = wavetable_tick(c.v_oct, c.table, c.morph, c.sync, floats, wholes, bank, &mut samples);
        let [out] = samples;
        ticked(code, Volts { out })
    }

    /// As many ticks with these controls as there are `marks`, and their tally: the same as so many calls of `tick`, in less
    /// time. `samples` takes one volt for each tick, one tick after another, and `marks` the number of a `Mark` for each.
    /// Refused by 52 where `samples` has another length, by what refuses the first tick, and by 7 where the tally doesn't add
    /// up or hasn't room for all of them; then nothing changes.
    pub fn block(
        &mut self,
        c: &Controls,
        bank: &[f64],
        tally: &mut Tally,
        samples: &mut [f64],
        marks: &mut [u32],
    ) -> Result<(), Refused> {
        let (floats, wholes, counts) = (&mut self.floats, &mut self.wholes, tally.counts_mut());
        done(wavetable_block(c.v_oct, c.table, c.morph, c.sync, floats, wholes, bank, counts, samples, marks))
    }
}
