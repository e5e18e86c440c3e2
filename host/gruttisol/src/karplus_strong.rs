//! The plucked string: noise that goes round a line which its caller keeps.
use crate::answer::{done, ticked, Refused, Ticked};
use crate::exported::karplus_strong_cells;
use crate::lent::{
    karplus_strong_block, karplus_strong_new, karplus_strong_reset, karplus_strong_set_sample_rate, karplus_strong_tick,
};
use crate::tally::Tally;

/// Inputs in port order. One that isn't finite counts as its default, the trigger excepted; a tick given a NaN is steered, or cleared.
#[derive(Clone, Copy, PartialEq, Debug)]
pub struct Controls {
    /// Pitch in volts per octave, 0 being middle C.
    pub voct: f64,
    /// A rise above the threshold plucks the string.
    pub trigger: f64,
    /// From 0 to 1, a string that rings longer.
    pub damping: f64,
    /// From 0, plucked by a push, to 1, plucked by noise.
    pub brightness: f64,
    /// From -1 to 1: lays the partials closer, or further apart.
    pub stretch: f64,
}

/// The output.
#[derive(Clone, Copy, PartialEq, Debug)]
pub struct Volts {
    pub out: f64,
}

/// Floats: sample rate, lowpass, allpass input, allpass output, previous trigger, threshold, memo's frequency. Wholes: length,
/// write position, the memo's key, and whether it holds.
///
/// Every call is lent the line as the last call left it.
#[derive(Clone, Copy, Debug)]
pub struct KarplusStrong {
    floats: [f64; 7],
    wholes: [u64; 4],
}

impl KarplusStrong {
    /// The cells that a line needs at a sample rate, more being left alone; 0 of a rate that is refused by 1.
    pub fn cells(sample_rate: f64) -> usize {
        karplus_strong_cells(sample_rate) as usize
    }

    /// A new one, its line zeroed. Its trigger must rise above `threshold`, volts of an issue as `gate` has them, which a reset and a
    /// rate change keep. Refused by 1, by 2 where the threshold is no issue's, and by 3.
    pub fn new(sample_rate: f64, threshold: f64, line: &mut [f64]) -> Result<Self, Refused> {
        let mut made = KarplusStrong { floats: [0.0; 7], wholes: [0; 4] };
        done(karplus_strong_new(sample_rate, threshold, &mut made.floats, &mut made.wholes, line))?;
        Ok(made)
    }

    /// The state as it stands.
    pub fn parts(&self) -> (&[f64; 7], &[u64; 4]) {
        (&self.floats, &self.wholes)
    }

    /// A state of the caller's making. Calls refuse it by 1 where its sample rate isn't one and by 2 where its length or write
    /// position is out of range, its threshold is no issue's or the memo's frequency is NaN; all else of it they take as it stands,
    /// as a memo that doesn't fit its key.
    pub fn of_parts(floats: [f64; 7], wholes: [u64; 4]) -> Self {
        KarplusStrong { floats, wholes }
    }

    /// One sample. A trigger takes as many draws as the line gets cells, each below 2^53. Refused by 1, 2, 3, 5 and 6.
    #[inline]
    pub fn tick(&mut self, c: &Controls, line: &mut [f64], draws: &[u64]) -> Result<Ticked<Volts>, Refused> {
        let mut samples = [0.0; 1];
        let (floats, wholes) = (&mut self.floats, &mut self.wholes);
        let code = karplus_strong_tick(
            c.voct,
            c.trigger,
            c.damping,
            c.brightness,
            c.stretch,
            floats,
            wholes,
            line,
            draws,
            &mut samples,
        );
        let [out] = samples;
        ticked(code, Volts { out })
    }

    /// Silent, its length and threshold kept; refused by 1, 2 and 3.
    pub fn reset(&mut self, line: &mut [f64]) -> Result<(), Refused> {
        done(karplus_strong_reset(&mut self.floats, &mut self.wholes, line))
    }

    /// Goes on at another sample rate, the line cut or filled with 0.0; refused by 1, 2 and 3.
    pub fn set_sample_rate(&mut self, sample_rate: f64, line: &mut [f64]) -> Result<(), Refused> {
        done(karplus_strong_set_sample_rate(sample_rate, &mut self.floats, &mut self.wholes, line))
    }

    /// As many ticks with these controls as there are `marks`, and their tally: the same as so many calls of `tick`, in less
    /// time. `samples` takes one volt for each tick, one tick after another, and `marks` the number of a `Mark` for each.
    /// Refused by 52 where `samples` has another length, by what refuses the first tick, and by 7 where the tally doesn't add
    /// up or hasn't room for all of them; then nothing changes.
    pub fn block(
        &mut self,
        c: &Controls,
        line: &mut [f64],
        draws: &[u64],
        tally: &mut Tally,
        samples: &mut [f64],
        marks: &mut [u32],
    ) -> Result<(), Refused> {
        let (floats, wholes, counts) = (&mut self.floats, &mut self.wholes, tally.counts_mut());
        done(karplus_strong_block(
            c.voct,
            c.trigger,
            c.damping,
            c.brightness,
            c.stretch,
            floats,
            wholes,
            line,
            draws,
            counts,
            samples,
            marks,
        ))
    }
}

#[cfg(test)]
mod tests {
    use super::*;
    use crate::gate::ISSUE_1;

    #[test]
    fn so_many_cells_are_enough_and_fewer_are_not() {
        for rate in [1000.0, 8000.0, 44100.0, 48000.0, 191999.9, 192000.0] {
            let cells = KarplusStrong::cells(rate);
            assert_eq!(cells, (rate / 20.0) as usize + 12);
            assert!(KarplusStrong::new(rate, ISSUE_1, &mut vec![0.0; cells]).is_ok());
            assert_eq!(KarplusStrong::new(rate, ISSUE_1, &mut vec![0.0; cells - 1]).err(), Some(Refused(3)));
        }
    }

    #[test]
    fn a_rate_that_is_refused_has_no_cells() {
        for rate in [0.0, -1.0, 999.9, 192000.1, f64::MAX, f64::INFINITY, f64::NEG_INFINITY, f64::NAN] {
            assert_eq!(KarplusStrong::cells(rate), 0);
            assert_eq!(KarplusStrong::new(rate, ISSUE_1, &mut vec![0.0; 10000]).err(), Some(Refused(1)));
        }
    }
}
