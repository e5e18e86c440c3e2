//! The noise generator: white and pink noise, and a second of each that is more or less the first, of draws that its caller lends.
use crate::answer::{done, ticked, Refused, Ticked};
use crate::lent::{
    noise_generator_block, noise_generator_needed, noise_generator_needed_by, noise_generator_new,
    noise_generator_reset, noise_generator_set_sample_rate, noise_generator_tick, noise_generator_with_correlation,
};
use crate::tally::Tally;

/// The input.
#[derive(Clone, Copy, PartialEq, Debug)]
pub struct Controls {
    /// From 0, a second noise of its own, to 1, the first once more; where none is given, the generator's own counts.
    pub correlation: Option<f64>,
}

impl Controls {
    /// As the archive takes it: whether there is one, and a number that counts only if there is.
    fn given(&self) -> (u32, f64) {
        self.correlation.map_or((0, 0.0), |correlation| (1, correlation))
    }
}

/// Outputs in port order; one that isn't wanted reads 0.0.
#[derive(Clone, Copy, PartialEq, Debug)]
pub struct Volts {
    pub white: f64,
    pub pink: f64,
    pub white2: f64,
    pub pink2: f64,
}

/// Floats: sixteen rows and their sum of the first pink noise, the same of the second, correlation, last white sample. Wholes: the
/// counters of both, of which the low 32 bits count.
///
/// It makes no random numbers: each call is lent draws, whole numbers below 2^53, of which it takes the first so many. To render wind, ask
/// how many a block needs and lend them; the next block is lent those that follow.
///
/// ```
/// use gruttisol::noise_generator::{Controls, NoiseGenerator};
/// use gruttisol::tally::Tally;
///
/// const TICKS: usize = 256;
/// let mut seed: u64 = 1;
/// let mut draw = || {
///     seed = seed.wrapping_mul(0x5851_f42d_4c95_7f2d).wrapping_add(1);
///     seed >> 11
/// };
/// let (mut wind, mut tally) = (NoiseGenerator::with_correlation(0.6), Tally::new());
/// let (mut samples, mut marks) = ([0.0; 4 * TICKS], [0; TICKS]);
/// for _ in 0..10 {
///     let draws: Vec<u64> = (0..wind.needed_by(TICKS as u32)).map(|_| draw()).collect();
///     let wanted = NoiseGenerator::WANT_PINK | NoiseGenerator::WANT_PINK2;
///     wind.block(&Controls { correlation: None }, wanted, &draws, &mut tally, &mut samples, &mut marks)?;
///     // of each tick: white, pink, white2, pink2
///     assert!(samples.chunks(4).all(|tick| tick[0] == 0.0 && tick[1].abs() < 5.0));
/// }
/// assert_eq!(tally.counts(), &[2560, 2560, 0, 0, 0, 0]);
/// # Ok::<(), gruttisol::answer::Refused>(())
/// ```
#[derive(Clone, Copy, Debug)]
pub struct NoiseGenerator {
    floats: [f64; 36],
    wholes: [u64; 2],
}

/// The answer of a call that nothing but a length refuses, and every length here is right.
fn never_refused(code: u32) {
    done(code).expect("a state of the right lengths");
}

impl NoiseGenerator {
    /// Bits of `wanted`; others do nothing.
    pub const WANT_WHITE: u32 = 1 << 0;
    pub const WANT_PINK: u32 = 1 << 1;
    pub const WANT_WHITE2: u32 = 1 << 2;
    pub const WANT_PINK2: u32 = 1 << 3;
    pub const WANT_ALL: u32 = u32::MAX;

    /// Draws that are enough for any tick.
    pub const DRAWS: usize = 34;

    /// A new one, its correlation 0.3. It has no sample rate, and so is never refused.
    pub fn new() -> Self {
        let mut made = Self::of_parts([0.0; 36], [0; 2]);
        never_refused(noise_generator_new(&mut made.floats, &mut made.wholes));
        made
    }

    /// A new one of this correlation, clamped to 0 to 1; a NaN is kept.
    pub fn with_correlation(correlation: f64) -> Self {
        let mut made = Self::of_parts([0.0; 36], [0; 2]);
        never_refused(noise_generator_with_correlation(correlation, &mut made.floats, &mut made.wholes));
        made
    }

    /// The state as it stands.
    pub fn parts(&self) -> (&[f64; 36], &[u64; 2]) {
        (&self.floats, &self.wholes)
    }

    /// A state of the caller's making. No call refuses it, whatever it holds.
    pub fn of_parts(floats: [f64; 36], wholes: [u64; 2]) -> Self {
        NoiseGenerator { floats, wholes }
    }

    /// How many draws the next tick needs, from 4 to 34.
    #[inline]
    pub fn needed(&self) -> usize {
        noise_generator_needed(&self.wholes) as usize
    }

    /// How many draws the next so many ticks need together.
    pub fn needed_by(&self, ticks: u32) -> usize {
        noise_generator_needed_by(ticks, &self.wholes) as usize
    }

    /// One sample of each wanted output. It takes its draws in this order, whatever is wanted: for the white noise, for the second one's
    /// own, for the rows of the first pink noise that change, and for those of the second. Refused by 5 where they are fewer than
    /// needed, and by 6 where one of those isn't below 2^53.
    #[inline]
    pub fn tick(&mut self, c: &Controls, wanted: u32, draws: &[u64]) -> Result<Ticked<Volts>, Refused> {
        let mut samples = [0.0; 4];
        let (given, correlation) = c.given();
        let (floats, wholes) = (&mut self.floats, &mut self.wholes);
        let code = noise_generator_tick(given, correlation, wanted, floats, wholes, draws, &mut samples);
        let [white, pink, white2, pink2] = samples;
        ticked(code, Volts { white, pink, white2, pink2 })
    }

    /// As many ticks with these controls as there are `marks`, and their tally: the same as so many calls of `tick`, in less
    /// time, each lent the draws after those that the one before it took. `samples` takes four volts for each tick, one tick after
    /// another, and `marks` the number of a `Mark` for each. Refused by 52 where `samples` has another length, by 5 and 6 over the draws of
    /// all ticks, and by 7 where the tally doesn't add up or hasn't room for all of them; then nothing changes.
    pub fn block(
        &mut self,
        c: &Controls,
        wanted: u32,
        draws: &[u64],
        tally: &mut Tally,
        samples: &mut [f64],
        marks: &mut [u32],
    ) -> Result<(), Refused> {
        let (given, correlation) = c.given();
        let (floats, wholes, counts) = (&mut self.floats, &mut self.wholes, tally.counts_mut());
        done(noise_generator_block(given, correlation, wanted, floats, wholes, draws, counts, samples, marks))
    }

    /// Back to the start, the correlation kept; never refused.
    pub fn reset(&mut self) {
        never_refused(noise_generator_reset(&mut self.floats, &mut self.wholes));
    }

    /// Leaves it as it is, at any number: noise has no rate.
    pub fn set_sample_rate(&mut self, sample_rate: f64) {
        never_refused(noise_generator_set_sample_rate(sample_rate, &mut self.floats, &mut self.wholes));
    }
}

impl Default for NoiseGenerator {
    fn default() -> Self {
        Self::new()
    }
}

#[cfg(test)]
mod tests {
    use super::*;
    use crate::answer::Mark;
    use crate::numeric::bipolar;

    const STORED: Controls = Controls { correlation: None };
    const TOP: u64 = u32::MAX as u64;
    /// 2^53: the first number that is no draw.
    const NO_DRAW: u64 = 1 << 53;

    /// Draws of which no two are alike.
    fn draws(n: usize) -> Vec<u64> {
        (1..=n as u64).map(|k| k * 0x0012_3456_789a_bcdf % NO_DRAW).collect()
    }

    /// One with these counters, and as new else.
    fn at(counters: [u64; 2]) -> NoiseGenerator {
        NoiseGenerator::of_parts(*NoiseGenerator::new().parts().0, counters)
    }

    fn bits(noise: &NoiseGenerator) -> ([u64; 36], [u64; 2]) {
        (noise.floats.map(f64::to_bits), noise.wholes)
    }

    #[test]
    fn needed_from_new() {
        let (mut noise, mut all) = (NoiseGenerator::new(), 0);
        assert_eq!(noise.needed_by(0), 0);
        for (ticks, needed) in (1..).zip([4, 6, 4, 8, 4, 6, 4, 10]) {
            assert_eq!(noise.needed(), needed);
            all += needed;
            assert_eq!(NoiseGenerator::new().needed_by(ticks), all);
            noise.tick(&STORED, 0, &draws(needed)).unwrap();
        }
    }

    /// A counter before the tick, and how many rows it changes: all sixteen past its top, and at multiples of 32,768.
    #[test]
    fn needed_at_a_counter() {
        let low = [(0, 1), (1, 2), (2, 1), (3, 3), (16383, 15), (32766, 1), (32767, 16), (32768, 1), (65535, 16)];
        let high =
            [(98303, 16), (TOP - 1, 1), (TOP, 16), (TOP + 1, 1), (TOP + 2, 2), (TOP + 32768, 16), (u64::MAX, 16)];
        for (counter, rows) in low.into_iter().chain(high) {
            assert_eq!(at([counter, counter]).needed(), 2 + 2 * rows, "{counter}");
            assert_eq!(at([counter, 0]).needed(), 3 + rows, "{counter}");
            assert_eq!(at([1, counter]).needed(), 4 + rows, "{counter}");
            let next = at([counter.wrapping_add(1), 0]).needed();
            assert_eq!(at([counter, TOP]).needed_by(2), 2 + rows + 16 + next, "{counter}");
        }
        assert_eq!(NoiseGenerator::DRAWS, at([TOP, TOP]).needed());
    }

    #[test]
    fn needed_by_many_ticks() {
        for [a, b] in [[0, 0], [5, 70_000], [TOP - 40_000, 32_766], [u64::MAX, TOP - 99_999]] {
            let needed = |tick: u64| at([a.wrapping_add(tick), b.wrapping_add(tick)]).needed();
            assert_eq!(at([a, b]).needed_by(100_000), (0..100_000).map(needed).sum(), "{a} and {b}");
        }
        assert_eq!(NoiseGenerator::new().needed_by(u32::MAX) as u64, 25_769_541_598);
    }

    #[test]
    fn order_of_draws() {
        let (mut noise, draws) = (at([TOP, TOP]), draws(34));
        let controls = Controls { correlation: Some(0.0) };
        let volts = noise.tick(&controls, NoiseGenerator::WANT_ALL, &draws).unwrap().volts;
        let drawn: Vec<f64> = draws.into_iter().map(bipolar).collect();
        let (floats, wholes) = noise.parts();
        assert_eq!(wholes, &[0, 0]);
        assert_eq!((floats[35], &floats[..16], &floats[17..33]), (drawn[0], &drawn[2..18], &drawn[18..]));
        let sum = |rows: &[f64]| rows.iter().fold(0.0, |sum, row| sum + row);
        assert_eq!((floats[16], floats[33]), (sum(&drawn[2..18]), sum(&drawn[18..])));
        let Volts { white, pink, white2, pink2 } = volts;
        let due = [drawn[0], floats[16] / 16.0, drawn[1], floats[33] / 16.0];
        assert_eq!([white, pink, white2, pink2], due.map(|x| x * 5.0));
    }

    /// A block of so many ticks. Where it is refused, nothing has changed.
    fn played(counters: [u64; 2], ticks: u32, draws: &[u64]) -> Result<(), Refused> {
        let (mut noise, mut tally, n) = (at(counters), Tally::new(), ticks as usize);
        let (mut samples, mut marks) = (vec![-0.0; 4 * n], vec![77; n]);
        let answer = noise.block(&STORED, NoiseGenerator::WANT_ALL, draws, &mut tally, &mut samples, &mut marks);
        if answer.is_err() {
            assert_eq!((bits(&noise), tally), (bits(&at(counters)), Tally::new()));
            assert!(samples.iter().all(|x| x.to_bits() == 1 << 63) && marks.iter().all(|&mark| mark == 77));
        }
        answer
    }

    #[test]
    fn each_needed_draw_is_asked_and_no_other() {
        for counters in [[0, 0], [1, 6], [TOP - 5, 0], [32767, TOP]] {
            for ticks in [1, 2, 20] {
                let needed = at(counters).needed_by(ticks);
                let mut draws = draws(needed);
                assert_eq!(played(counters, ticks, &draws), Ok(()));
                assert_eq!(played(counters, ticks, &draws[1..]), Err(Refused(5)));
                for place in 0..needed {
                    let good = std::mem::replace(&mut draws[place], NO_DRAW);
                    assert_eq!(played(counters, ticks, &draws), Err(Refused(6)), "{place} of {needed}");
                    draws[place] = good;
                }
                draws.extend([NO_DRAW, u64::MAX]);
                assert_eq!(played(counters, ticks, &draws), Ok(()));
            }
            assert_eq!(played(counters, 0, &[]), Ok(()));
            assert_eq!(played(counters, 0, &[u64::MAX]), Ok(()));
        }
    }

    /// A tick clamps the one that it is given and the stored one alike, and stores nothing.
    #[test]
    fn correlations() {
        assert_eq!(NoiseGenerator::new().parts().0[34], 0.3);
        let ends = [(-1.0, 0.0), (2.0, 1.0), (f64::NEG_INFINITY, 0.0), (f64::INFINITY, 1.0)];
        for (asked, kept) in [(0.7, 0.7), (1.0, 1.0), (0.0, 0.0), (-0.0, -0.0)].into_iter().chain(ends) {
            let mut stored = NoiseGenerator::with_correlation(asked);
            assert_eq!(stored.parts().0[34].to_bits(), f64::to_bits(kept), "{asked}");
            let (mut given, draws) = (NoiseGenerator::new(), draws(4));
            let one = stored.tick(&STORED, NoiseGenerator::WANT_ALL, &draws).unwrap();
            let other = given.tick(&Controls { correlation: Some(asked) }, NoiseGenerator::WANT_ALL, &draws).unwrap();
            assert_eq!(one, other, "{asked}");
            assert_eq!(given.parts().0[34], 0.3, "{asked}");
        }
    }

    /// A NaN is told where it is heard; where it isn't, a given one is told all the same, and the generator's own isn't given.
    #[test]
    fn a_nan_is_told_where_it_is_wanted_or_given() {
        let (draws, nan) = (draws(4), Controls { correlation: Some(f64::NAN) });
        let spoiled = NoiseGenerator::with_correlation(f64::NAN);
        assert!(spoiled.parts().0[34].is_nan());
        for (mut noise, controls, unheard) in
            [(spoiled, STORED, Mark::Clean), (NoiseGenerator::new(), nan, Mark::Steered)]
        {
            for wanted in 0..16 {
                let heard = wanted & (NoiseGenerator::WANT_WHITE2 | NoiseGenerator::WANT_PINK2) != 0;
                let mark = if heard { Mark::NotFinite } else { unheard };
                noise.reset();
                assert_eq!(noise.tick(&controls, wanted, &draws).unwrap().mark, mark, "wanted {wanted}");
            }
        }
    }

    #[test]
    fn a_reset_keeps_the_correlation_and_a_rate_changes_nothing() {
        let mut noise = NoiseGenerator::with_correlation(0.7);
        noise.tick(&STORED, 0, &draws(4)).unwrap();
        let before = bits(&noise);
        for rate in [48000.0, 0.0, -1.0, f64::INFINITY, f64::NAN] {
            noise.set_sample_rate(rate);
            assert_eq!(bits(&noise), before, "{rate}");
        }
        noise.reset();
        assert_eq!(bits(&noise), bits(&NoiseGenerator::with_correlation(0.7)));
    }
}
