//! The functions of the archive that are lent slices, as safe functions that answer the archive's number.

/// Each line declares a function of the archive, under its own name after the project's prefix, and a Rust function that
/// calls it. A slice is two arguments there, its first cell's address and its length: `mut` ones are written. Where a line
/// doesn't say what is answered, it is a `u32`.
macro_rules! lent {
    ($(fn $name:ident($($plain:ident: $number:ty),*; $($slice:ident: $access:ident $cell:ty),*) $(-> $answer:ty)?;)*) => {
        mod linked {
            unsafe extern "C" {
                $(#[link_name = concat!("gruttisol_", stringify!($name))]
                pub fn $name($($plain: $number,)* $($slice: *$access $cell, _: usize),*) -> lent!(@answer $($answer)?);)*
            }
        }
        $(#[inline]
        pub fn $name($($plain: $number,)* $($slice: lent!(@slice $access $cell)),*) -> lent!(@answer $($answer)?) {
            // SAFETY: this is a proved function with these types. It has no `requires`, and so takes any numbers and
            // slices of any length and content; it reads and writes inside them alone, and keeps none.
            unsafe { linked::$name($($plain,)* $(lent!(@address $access $slice), $slice.len()),*) }
        })*
    };
    (@answer) => { u32 };
    (@answer $answer:ty) => { $answer };
    (@slice mut $cell:ty) => { &mut [$cell] };
    (@slice const $cell:ty) => { &[$cell] };
    (@address mut $slice:ident) => { $slice.as_mut_ptr() };
    (@address const $slice:ident) => { $slice.as_ptr() };
}

lent! {
    fn vco_new(sample_rate: f64, threshold: f64; floats: mut f64, wholes: mut u64);
    fn vco_tick(voct: f64, fm: f64, pw: f64, sync: f64, fm_lin: f64, wanted: u32; floats: mut f64, wholes: mut u64, samples: mut f64);
    fn vco_block(voct: f64, fm: f64, pw: f64, sync: f64, fm_lin: f64, wanted: u32; floats: mut f64, wholes: mut u64, counts: mut u32, samples: mut f64, marks: mut u32);
    fn vco_reset(; floats: mut f64, wholes: mut u64);
    fn vco_set_sample_rate(sample_rate: f64; floats: mut f64, wholes: mut u64);

    fn lfo_new(sample_rate: f64, threshold: f64; floats: mut f64, wholes: mut u64);
    fn lfo_tick(rate: f64, depth: f64, reset: f64, wanted: u32; floats: mut f64, wholes: mut u64, samples: mut f64);
    fn lfo_block(rate: f64, depth: f64, reset: f64, wanted: u32; floats: mut f64, wholes: mut u64, counts: mut u32, samples: mut f64, marks: mut u32);
    fn lfo_reset(; floats: mut f64, wholes: mut u64);
    fn lfo_set_sample_rate(sample_rate: f64; floats: mut f64, wholes: mut u64);

    fn supersaw_new(sample_rate: f64; floats: mut f64, wholes: mut u64);
    fn supersaw_tick(voct: f64, detune: f64, mix: f64; floats: mut f64, wholes: mut u64, samples: mut f64);
    fn supersaw_block(voct: f64, detune: f64, mix: f64; floats: mut f64, wholes: mut u64, counts: mut u32, samples: mut f64, marks: mut u32);
    fn supersaw_reset(; floats: mut f64, wholes: mut u64);
    fn supersaw_set_sample_rate(sample_rate: f64; floats: mut f64, wholes: mut u64);

    fn wavetable_new(sample_rate: f64, threshold: f64; floats: mut f64, wholes: mut u64);
    fn wavetable_tick(v_oct: f64, table: f64, morph: f64, sync: f64; floats: mut f64, wholes: mut u64, bank: const f64, samples: mut f64);
    fn wavetable_block(v_oct: f64, table: f64, morph: f64, sync: f64; floats: mut f64, wholes: mut u64, bank: const f64, counts: mut u32, samples: mut f64, marks: mut u32);
    fn wavetable_reset(; floats: mut f64, wholes: mut u64);
    fn wavetable_set_sample_rate(sample_rate: f64; floats: mut f64, wholes: mut u64);
    fn wavetable_fill_bank(; bank: mut f64);
    fn wavetable_fill_table(table: u64; part: mut f64);

    fn formant_osc_new(sample_rate: f64; floats: mut f64, wholes: mut u64);
    fn formant_osc_tick(v_oct: f64, vowel: f64, formant_shift: f64, vibrato: f64; floats: mut f64, wholes: mut u64, samples: mut f64);
    fn formant_osc_block(v_oct: f64, vowel: f64, formant_shift: f64, vibrato: f64; floats: mut f64, wholes: mut u64, counts: mut u32, samples: mut f64, marks: mut u32);
    fn formant_osc_reset(; floats: mut f64, wholes: mut u64);
    fn formant_osc_set_sample_rate(sample_rate: f64; floats: mut f64, wholes: mut u64);

    fn karplus_strong_new(sample_rate: f64, threshold: f64; floats: mut f64, wholes: mut u64, line: mut f64);
    fn karplus_strong_tick(voct: f64, trigger: f64, damping: f64, brightness: f64, stretch: f64; floats: mut f64, wholes: mut u64, line: mut f64, draws: const u64, samples: mut f64);
    fn karplus_strong_block(voct: f64, trigger: f64, damping: f64, brightness: f64, stretch: f64; floats: mut f64, wholes: mut u64, line: mut f64, draws: const u64, counts: mut u32, samples: mut f64, marks: mut u32);
    fn karplus_strong_reset(; floats: mut f64, wholes: mut u64, line: mut f64);
    fn karplus_strong_set_sample_rate(sample_rate: f64; floats: mut f64, wholes: mut u64, line: mut f64);

    fn noise_generator_new(; floats: mut f64, wholes: mut u64);
    fn noise_generator_with_correlation(correlation: f64; floats: mut f64, wholes: mut u64);
    fn noise_generator_needed(; wholes: const u64) -> u64;
    fn noise_generator_needed_by(ticks: u32; wholes: const u64) -> u64;
    fn noise_generator_tick(given: u32, correlation: f64, wanted: u32; floats: mut f64, wholes: mut u64, draws: const u64, samples: mut f64);
    fn noise_generator_block(given: u32, correlation: f64, wanted: u32;
        floats: mut f64, wholes: mut u64, draws: const u64, counts: mut u32, samples: mut f64, marks: mut u32);
    fn noise_generator_reset(; floats: mut f64, wholes: mut u64);
    fn noise_generator_set_sample_rate(sample_rate: f64; floats: mut f64, wholes: mut u64);

    fn tally_take(code: u32; counts: mut u32);

    fn score_read(; text: const u8, floats: mut f64, wholes: mut u64);
    fn score_values(; text: const u8, microvolts: mut i32, wholes: mut u64);
    fn score_write(; microvolts: const i32, wholes: const u64, text: mut u8, written: mut u64);
}

/// An oscillator whose state alone is lent to making, reset and rate change. One that has a gate is made with a threshold too, which
/// stands in brackets behind the function that makes it.
macro_rules! oscillator {
    (
        $(#[$doc:meta])*
        $name:ident: [f64; $floats:literal], [u64; $wholes:literal],
        $new:ident($($threshold:ident)?), $reset:ident, $set_sample_rate:ident
    ) => {
        $(#[$doc])*
        #[derive(Clone, Copy, Debug)]
        pub struct $name {
            floats: [f64; $floats],
            wholes: [u64; $wholes],
        }

        impl $name {
            /// A new one; refused by 1.
            $(#[doc = concat!(
                "Its gate must rise above `", stringify!($threshold), "`, volts of an issue as `gate` has them, which a reset and a ",
                "rate change keep; where it is no issue's, refused by 2."
            )])?
            pub fn new(sample_rate: f64 $(, $threshold: f64)?) -> Result<Self, $crate::answer::Refused> {
                let mut made = $name { floats: [0.0; $floats], wholes: [0; $wholes] };
                $crate::answer::done($crate::lent::$new(sample_rate, $($threshold,)? &mut made.floats, &mut made.wholes))?;
                Ok(made)
            }

            /// The state as it stands.
            pub fn parts(&self) -> (&[f64; $floats], &[u64; $wholes]) {
                (&self.floats, &self.wholes)
            }

            /// A state of the caller's making. Calls refuse it by 1 where its sample rate isn't one and by 2 where a phase isn't
            /// from 0 to below 1 or a threshold is no issue's; all else of it they take as it stands, as a memo that doesn't fit
            /// its key.
            pub fn of_parts(floats: [f64; $floats], wholes: [u64; $wholes]) -> Self {
                $name { floats, wholes }
            }

            /// Back to the start, memos and a threshold kept; refused by 1 and 2.
            pub fn reset(&mut self) -> Result<(), $crate::answer::Refused> {
                $crate::answer::done($crate::lent::$reset(&mut self.floats, &mut self.wholes))
            }

            /// Goes on at another sample rate; refused by 1 and 2.
            pub fn set_sample_rate(&mut self, sample_rate: f64) -> Result<(), $crate::answer::Refused> {
                $crate::answer::done($crate::lent::$set_sample_rate(sample_rate, &mut self.floats, &mut self.wholes))
            }
        }
    };
}

/// The boundary's own refusals, which the safe functions can't meet: they lend slices of the right length.
#[cfg(test)]
mod tests {
    use super::*;
    use crate::answer::Mark;
    use crate::gate::{ISSUE_1, ISSUE_2};
    use crate::tally::COUNTS;

    const UNTOUCHED: u64 = 0x7ff8_0bad_0bad_0bad;
    const RATE: f64 = 48000.0;
    const NO_RATE: f64 = 0.0;
    const NO_THRESHOLDS: [f64; 4] = [f64::NAN, -0.0, 1.5, ISSUE_1.next_up()];

    /// The right length of a slice and wrong ones; of none, which has the length 0, that alone.
    fn lengths(right: usize) -> Vec<usize> {
        if right == 0 {
            vec![0]
        } else {
            vec![0, right - 1, right, right + 1, 64]
        }
    }

    /// Makes a call with slices of many lengths: by its first wrong length it is refused, by 50, 51 or 52, and where all
    /// are right by `last`; 0 says that then nothing refuses it. Not a bit may change. A call without samples says that it takes none.
    fn refuses_by(
        last: u32,
        [floats, wholes, samples]: [usize; 3],
        call: impl Fn(&mut [f64], &mut [u64], &mut [f64]) -> u32,
    ) {
        for f in lengths(floats) {
            for w in lengths(wholes) {
                for s in lengths(samples) {
                    let mut lent = (vec![f64::from_bits(UNTOUCHED); f], vec![UNTOUCHED; w], vec![-0.0; s]);
                    let number = match (f == floats, w == wholes, s == samples) {
                        (false, _, _) => 50,
                        (_, false, _) => 51,
                        (_, _, false) => 52,
                        _ if last == 0 => continue,
                        _ => last,
                    };
                    assert_eq!(call(&mut lent.0, &mut lent.1, &mut lent.2), number, "of {f}, {w} and {s}");
                    assert!(lent.0.iter().all(|x| x.to_bits() == UNTOUCHED));
                    assert!(lent.1.iter().all(|&n| n == UNTOUCHED));
                    assert!(lent.2.iter().all(|x| x.to_bits() == 1 << 63));
                }
            }
        }
    }

    /// A call that is refused by 1, since neither the state's rate nor one that is given is a rate.
    fn refuses(lengths: [usize; 3], call: impl Fn(&mut [f64], &mut [u64], &mut [f64]) -> u32) {
        refuses_by(1, lengths, call);
    }

    /// One that makes an oscillator with a gate: lengths come first, then 1, whatever the threshold is, then 2 for one that is no
    /// issue's.
    fn refuses_thresholds(lengths: [usize; 3], new: impl Fn(f64, f64, &mut [f64], &mut [u64]) -> u32) {
        for threshold in [ISSUE_1, ISSUE_2].into_iter().chain(NO_THRESHOLDS) {
            refuses(lengths, |f, w, _| new(NO_RATE, threshold, f, w));
        }
        for threshold in NO_THRESHOLDS {
            refuses_by(2, lengths, |f, w, _| new(RATE, threshold, f, w));
        }
    }

    /// The same of a block, whose counts are tried too, and whose samples must be so many for each mark: then by 50, 51, 53
    /// or 52, in this order. `last` is told how many marks there are.
    fn refuses_block_by(
        last: impl Fn(usize) -> u32,
        [floats, wholes, ports]: [usize; 3],
        call: impl Fn(&mut [f64], &mut [u64], &mut [u32], &mut [f64], &mut [u32]) -> u32,
    ) {
        for f in [0, floats - 1, floats, floats + 1] {
            for w in [0, wholes - 1, wholes, wholes + 1] {
                for k in [0, COUNTS - 1, COUNTS, COUNTS + 1] {
                    for (s, m) in
                        [(0, 0), (ports, 1), (ports * 7, 7), (ports * 7 + 1, 7), (ports * 7, 8), (1, 0), (0, 1)]
                    {
                        let mut lent = (vec![f64::from_bits(UNTOUCHED); f], vec![UNTOUCHED; w], vec![3; k]);
                        let (mut samples, mut marks) = (vec![-0.0; s], vec![77; m]);
                        let number = match (f == floats, w == wholes, k == COUNTS, s == ports * m) {
                            (false, ..) => 50,
                            (_, false, ..) => 51,
                            (_, _, false, _) => 53,
                            (_, _, _, false) => 52,
                            _ => last(m),
                        };
                        let answer = call(&mut lent.0, &mut lent.1, &mut lent.2, &mut samples, &mut marks);
                        assert_eq!(answer, number, "of {f}, {w}, {k}, {s} and {m}");
                        assert!(lent.0.iter().all(|x| x.to_bits() == UNTOUCHED));
                        assert!(lent.1.iter().all(|&n| n == UNTOUCHED));
                        assert!(lent.2.iter().all(|&n| n == 3));
                        assert!(samples.iter().all(|x: &f64| x.to_bits() == 1 << 63));
                        assert!(marks.iter().all(|&n| n == 77));
                    }
                }
            }
        }
    }

    fn refuses_block(
        lengths: [usize; 3],
        call: impl Fn(&mut [f64], &mut [u64], &mut [u32], &mut [f64], &mut [u32]) -> u32,
    ) {
        refuses_block_by(|_| 1, lengths, call);
    }

    #[test]
    fn blocks() {
        refuses_block([5, 4, 4], |f, w, k, s, m| vco_block(0.0, 0.0, 0.5, 0.0, 0.0, u32::MAX, f, w, k, s, m));
        refuses_block([5, 2, 6], |f, w, k, s, m| lfo_block(0.5, 10.0, 0.0, u32::MAX, f, w, k, s, m));
        refuses_block([10, 2, 2], |f, w, k, s, m| supersaw_block(0.0, 0.5, 0.5, f, w, k, s, m));
        refuses_block([5, 2, 1], |f, w, k, s, m| wavetable_block(0.0, 0.0, 0.0, 0.0, f, w, &[], k, s, m));
        refuses_block([29, 6, 1], |f, w, k, s, m| formant_osc_block(0.0, 0.0, 0.0, 0.0, f, w, k, s, m));
        refuses_block([7, 4, 1], |f, w, k, s, m| {
            karplus_strong_block(0.0, 5.0, 0.5, 0.5, 0.0, f, w, &mut [], &[], k, s, m)
        });
    }

    #[test]
    fn vco() {
        refuses([5, 4, 4], |f, w, s| vco_tick(0.0, 0.0, 0.5, 0.0, 0.0, u32::MAX, f, w, s));
        refuses_thresholds([5, 4, 0], vco_new);
        refuses([5, 4, 0], |f, w, _| vco_reset(f, w));
        refuses([5, 4, 0], |f, w, _| vco_set_sample_rate(RATE, f, w));
    }

    #[test]
    fn lfo() {
        refuses([5, 2, 6], |f, w, s| lfo_tick(0.5, 10.0, 0.0, u32::MAX, f, w, s));
        refuses_thresholds([5, 2, 0], lfo_new);
        refuses([5, 2, 0], |f, w, _| lfo_reset(f, w));
        refuses([5, 2, 0], |f, w, _| lfo_set_sample_rate(RATE, f, w));
    }

    #[test]
    fn supersaw() {
        refuses([10, 2, 2], |f, w, s| supersaw_tick(0.0, 0.5, 0.5, f, w, s));
        refuses([10, 2, 0], |f, w, _| supersaw_new(NO_RATE, f, w));
        refuses([10, 2, 0], |f, w, _| supersaw_reset(f, w));
        refuses([10, 2, 0], |f, w, _| supersaw_set_sample_rate(RATE, f, w));
    }

    #[test]
    fn wavetable() {
        refuses([5, 2, 1], |f, w, s| wavetable_tick(0.0, 0.0, 0.0, 0.0, f, w, &[], s));
        refuses_thresholds([5, 2, 0], wavetable_new);
        refuses([5, 2, 0], |f, w, _| wavetable_reset(f, w));
        refuses([5, 2, 0], |f, w, _| wavetable_set_sample_rate(RATE, f, w));
    }

    #[test]
    fn formant_osc() {
        refuses([29, 6, 1], |f, w, s| formant_osc_tick(0.0, 0.0, 0.0, 0.0, f, w, s));
        refuses([29, 6, 0], |f, w, _| formant_osc_new(NO_RATE, f, w));
        refuses([29, 6, 0], |f, w, _| formant_osc_reset(f, w));
        refuses([29, 6, 0], |f, w, _| formant_osc_set_sample_rate(RATE, f, w));
    }

    #[test]
    fn karplus_strong() {
        refuses([7, 4, 1], |f, w, s| karplus_strong_tick(0.0, 5.0, 0.5, 0.5, 0.0, f, w, &mut [], &[], s));
        refuses_thresholds([7, 4, 0], |rate, threshold, f, w| karplus_strong_new(rate, threshold, f, w, &mut []));
        for threshold in [ISSUE_1, ISSUE_2] {
            refuses_by(3, [7, 4, 0], |f, w, _| karplus_strong_new(RATE, threshold, f, w, &mut []));
        }
        refuses([7, 4, 0], |f, w, _| karplus_strong_reset(f, w, &mut []));
        refuses([7, 4, 0], |f, w, _| karplus_strong_set_sample_rate(RATE, f, w, &mut []));
    }

    #[test]
    fn noise_generator() {
        const NO_DRAW: u64 = 1 << 53;
        for given in [0, 1] {
            for (number, draws) in [(5, &[NO_DRAW; 3][..]), (6, &[NO_DRAW; 34])] {
                refuses_by(number, [36, 2, 4], |f, w, s| noise_generator_tick(given, 0.5, u32::MAX, f, w, draws, s));
            }
            // counts of 3 don't add up; of no ticks the draws aren't looked at
            for (number, draws) in [(5, &[NO_DRAW; 3][..]), (6, &[NO_DRAW; 34 * 7]), (7, &[0; 34 * 7])] {
                let last = |marks: usize| if marks == 0 { 7 } else { number };
                refuses_block_by(last, [36, 2, 4], |f, w, k, s, m| {
                    noise_generator_block(given, 0.5, u32::MAX, f, w, draws, k, s, m)
                });
            }
        }
        refuses_by(0, [36, 2, 0], |f, w, _| noise_generator_new(f, w));
        refuses_by(0, [36, 2, 0], |f, w, _| noise_generator_with_correlation(0.5, f, w));
        refuses_by(0, [36, 2, 0], |f, w, _| noise_generator_reset(f, w));
        refuses_by(0, [36, 2, 0], |f, w, _| noise_generator_set_sample_rate(NO_RATE, f, w));
    }

    /// Wholes of another length are no state's, and need no draws.
    #[test]
    fn noise_of_no_state() {
        for n in [0, 1, 3, 64] {
            assert_eq!(noise_generator_needed(&vec![UNTOUCHED; n]), 0, "{n}");
            assert_eq!(noise_generator_needed_by(1000, &vec![UNTOUCHED; n]), 0, "{n}");
        }
    }

    #[test]
    fn tally() {
        for n in [0, 1, COUNTS - 1, COUNTS + 1, 64] {
            let mut counts = vec![0; n];
            assert_eq!(tally_take(Mark::Clean as u32, &mut counts), 53);
            assert!(counts.iter().all(|&count| count == 0));
        }
    }

    /// The five numbers of marks, and no other.
    #[test]
    fn numbers_that_count() {
        for number in (0..100).chain([u32::MAX]) {
            let mut counts = [0; COUNTS];
            assert_eq!(tally_take(number, &mut counts), 0);
            assert_eq!(counts[0] == 1, (11..=15).contains(&number), "{number}");
        }
    }

    /// Texts that are no scores, and what they are refused by.
    fn no_scores() -> [(u32, String); 6] {
        let after_hz = |line: &str| format!("osc=lfo\nhz=1000\n{line}\n");
        [
            (20, "x".repeat(1025)),
            (21, "osc=\n".into()),
            (22, "osc=lfo\nhz=x\n".into()),
            (23, "osc=lfo\nhz=1\n".into()),
            (22, after_hz("gate=nan")),
            (23, after_hz("gate=3")),
        ]
    }

    #[test]
    fn score() {
        for (number, text) in no_scores() {
            refuses_by(number, [5, 4, 0], |f, w, _| score_read(text.as_bytes(), f, w));
        }
    }

    /// The lines of `gate` that a score may have, with the boundary's numbers of them; first of all none.
    const GATES: [(&str, u64); 3] = [("", 0), ("gate=1\n", 1), ("gate=2\n", 2)];

    /// Cells past the last input are written too.
    #[test]
    fn score_that_is_read() {
        for (line, gate) in GATES {
            let (mut floats, mut wholes) = ([f64::NAN; 5], [UNTOUCHED; 4]);
            let text = format!("osc=lfo\nhz=48000\n{line}frames=7\nrate=500000\ndepth=-1\nreset=nan\n");
            assert_eq!(score_read(text.as_bytes(), &mut floats, &mut wholes), 0);
            assert!(floats[2].is_nan());
            floats[2] = 1.0;
            assert_eq!(floats.map(f64::to_bits), [0.5, -1e-6, 1.0, 0.0, 0.0].map(f64::to_bits));
            assert_eq!(wholes, [1, 48000, 7, gate]);
        }
    }

    /// States without a threshold and scores without an issue, as there were once, though all else is right.
    #[test]
    fn lengths_of_an_earlier_header() {
        assert_eq!(vco_new(RATE, ISSUE_1, &mut [0.0; 4], &mut [0; 4]), 50);
        assert_eq!(lfo_new(RATE, ISSUE_1, &mut [0.0; 4], &mut [0; 2]), 50);
        assert_eq!(wavetable_new(RATE, ISSUE_1, &mut [0.0; 4], &mut [0; 2]), 50);
        assert_eq!(karplus_strong_new(RATE, ISSUE_1, &mut [0.0; 6], &mut [0; 4], &mut [0.0; 9612]), 50);
        let (text, mut lent) = (b"osc=lfo\nhz=48000\nframes=7\nrate=0\ndepth=0\nreset=0\n", [0; 117]);
        assert_eq!(score_read(text, &mut [0.0; 5], &mut [0; 3]), 51);
        assert_eq!(score_values(text, &mut [0; 5], &mut [0; 3]), 51);
        assert_eq!(score_write(&[0; 5], &[1, 48000, 7], &mut lent, &mut [0]), 51);
        assert_eq!(score_write(&[0; 5], &[1, 48000, 7, 0], &mut lent, &mut [0]), 0);
    }

    /// In whole numbers: microvolts of another length by 54, then wholes by 51, then by what the text is refused by.
    #[test]
    fn score_in_whole_numbers() {
        for (number, text) in no_scores() {
            for m in lengths(5) {
                for w in lengths(4) {
                    let (mut microvolts, mut wholes) = (vec![7; m], vec![UNTOUCHED; w]);
                    let number = match (m == 5, w == 4) {
                        (false, _) => 54,
                        (_, false) => 51,
                        _ => number,
                    };
                    assert_eq!(score_values(text.as_bytes(), &mut microvolts, &mut wholes), number, "of {m} and {w}");
                    assert!(microvolts.iter().all(|&n| n == 7));
                    assert!(wholes.iter().all(|&n| n == UNTOUCHED));
                }
            }
        }
    }

    /// The mark of `nan` is this number, and cells past the last input are written too.
    #[test]
    fn score_that_is_read_in_whole_numbers() {
        for (line, gate) in GATES {
            let (mut microvolts, mut wholes) = ([7; 5], [UNTOUCHED; 4]);
            let text = format!("osc=supersaw\nhz=192000\n{line}frames=480000\nvoct=-10000000\ndetune=nan\nmix=1\n");
            assert_eq!(score_values(text.as_bytes(), &mut microvolts, &mut wholes), 0);
            assert_eq!(microvolts, [-10_000_000, i32::MIN, 1, 0, 0]);
            assert_eq!(wholes, [2, 192_000, 480_000, gate]);
        }
    }

    /// A writing into a text of so many bytes: what it answers. A refused one may change nothing.
    fn writes(microvolts: &[i32], wholes: &[u64], room: usize, cells: usize) -> u32 {
        let (mut text, mut written) = (vec![b'~'; room], vec![UNTOUCHED; cells]);
        let answer = score_write(microvolts, wholes, &mut text, &mut written);
        if answer != 0 {
            assert!(text.iter().all(|&byte| byte == b'~'), "{microvolts:?} {wholes:?}");
            assert!(written.iter().all(|&n| n == UNTOUCHED), "{microvolts:?} {wholes:?}");
        }
        answer
    }

    /// Microvolts of another length by 54, then wholes by 51, then the cell for the text's length by 55; then values by 23, and last of
    /// all a text without room by 24.
    #[test]
    fn order_of_what_refuses_a_writing() {
        for (hz, last) in [(u64::MAX, 23), (48000, 24)] {
            for m in lengths(5) {
                for w in lengths(4) {
                    for cells in lengths(1) {
                        let number = match (m == 5, w == 4, cells == 1) {
                            (false, ..) => 54,
                            (_, false, _) => 51,
                            (_, _, false) => 55,
                            _ => last,
                        };
                        let wholes: Vec<u64> = [1, hz, 480, 2].into_iter().cycle().take(w).collect();
                        assert_eq!(writes(&vec![0; m], &wholes, 0, cells), number, "of {m}, {w} and {cells}");
                    }
                }
            }
        }
    }

    /// What the safe functions can't hand over: numbers of no oscillator or issue, wholes of more than 32 bits, whose low ones would
    /// do, and cells past the last input, of which the mark isn't 0 either.
    #[test]
    fn values_of_no_score() {
        const HIGH: u64 = 1 << 32;
        let refused = |microvolts: [i32; 5], wholes: [u64; 4]| writes(&microvolts, &wholes, 117, 1) == 23;
        for osc in 0..4 {
            for (_, gate) in GATES {
                assert_eq!(writes(&[0; 5], &[osc, 48000, 480, gate], 117, 1), 0, "{osc}, gate {gate}");
            }
            for hz in [48000 + HIGH, 48000 + (1 << 63), u64::MAX] {
                assert!(refused([0; 5], [osc, hz, 480, 0]), "{osc}, {hz} Hz");
            }
            for frames in [480 + HIGH, 480 + (1 << 63), u64::MAX] {
                assert!(refused([0; 5], [osc, 48000, frames, 0]), "{osc}, {frames} frames");
            }
            for gate in [3, 255, HIGH, HIGH + 1, HIGH + 2, 1 << 63, u64::MAX] {
                assert!(refused([0; 5], [osc, 48000, 480, gate]), "{osc}, gate {gate}");
            }
            let inputs = [5, 3, 3, 4][osc as usize];
            for past in inputs..5 {
                for cell in [1, -1, 500_000, i32::MIN, i32::MAX] {
                    let mut microvolts = [0; 5];
                    microvolts[past] = cell;
                    assert!(refused(microvolts, [osc, 48000, 480, 0]), "{osc}, cell {past} is {cell}");
                }
            }
        }
        for osc in [4, 5, 255, HIGH, HIGH + 3, u64::MAX] {
            assert!(refused([0; 5], [osc, 48000, 480, 0]), "{osc}");
        }
    }
}
