//! What the pairs of both sides have in common.
use crate::draw::Draw;
use crate::script::{bad_phase, bad_rate, bad_threshold};

/// The parts of a pair that are the same for every oscillator whose state alone is lent.
macro_rules! both {
    ($ours:ty, $floats:literal, $wholes:literal) => {
        type Floats = [f64; $floats];
        type Wholes = [u64; $wholes];

        fn ours(&self) -> (Self::Floats, Self::Wholes) {
            let (floats, wholes) = self.ours.parts();
            (*floats, *wholes)
        }

        fn theirs(&self) -> (Self::Floats, Self::Wholes) {
            self.theirs.flat()
        }

        fn put_ours(&mut self, floats: &Self::Floats, wholes: &Self::Wholes) {
            self.ours = <$ours>::of_parts(*floats, *wholes);
        }

        fn put_theirs(&mut self, floats: &Self::Floats, wholes: &Self::Wholes, _draw: &mut Draw) {
            self.theirs.put_flat(floats, wholes);
        }

        fn ours_reset(&mut self) -> Result<(), Refused> {
            self.ours.reset()
        }

        fn theirs_reset(&mut self) {
            self.theirs.reset();
        }

        fn ours_set_sample_rate(&mut self, sample_rate: f64) -> Result<(), Refused> {
            self.ours.set_sample_rate(sample_rate)
        }

        fn theirs_set_sample_rate(&mut self, sample_rate: f64, _counts: &mut Counts) {
            self.theirs.set_sample_rate(sample_rate);
        }
    };
}

pub(crate) use both;

/// Ours by blocks: the controls' names in port order, and what a block of this oscillator takes between its controls and the tally.
macro_rules! block {
    ($pair:ident, $wanted:ident, [$($control:ident),*] $(, $lent:expr)*) => {
        fn ours_block(
            &mut $pair,
            controls: &[f64],
            $wanted: u32,
            tally: &mut gruttisol::tally::Tally,
            samples: &mut [f64],
            marks: &mut [u32],
        ) -> Result<(), Refused> {
            let [$($control),*] = *controls else { unreachable!() };
            $pair.ours.block(&ours::Controls { $($control),* } $(, $lent)*, tally, samples, marks)
        }
    };
}

pub(crate) use block;

/// The number that a state is refused by, of its rate, its phases and, where it has a gate, its threshold.
pub fn refusal(rate: f64, phases: &[f64], threshold: Option<f64>) -> u32 {
    if bad_rate(rate) {
        1
    } else if phases.iter().any(|&phase| bad_phase(phase)) || threshold.is_some_and(bad_threshold) {
        2
    } else {
        0
    }
}

/// Whether a gate rises, as the scope has it.
pub fn rises(previous: f64, v: f64, threshold: f64) -> bool {
    v > threshold && previous <= threshold
}

/// What a tick wraps, of the floats before it and after it, which are phase, rate, previous gate, threshold and frequency: the phase, 0
/// where its gate rises, plus the increment.
pub fn advanced([phase, _, previous, threshold, _]: [f64; 5], gate: f64, [_, rate, .., freq]: [f64; 5]) -> f64 {
    let used = if rises(previous, gate, threshold) { 0.0 } else { phase };
    used + freq / rate
}

/// Whether a wrap passes a whole turn, by Rust's own floor.
pub fn turned(x: f64) -> bool {
    x.is_finite() && x.floor() != 0.0
}

/// The outputs that a mask wants.
pub fn wanted_of(samples: &[f64], wanted: u32) -> impl Iterator<Item = f64> + '_ {
    samples.iter().enumerate().filter(move |(port, _)| wanted >> port & 1 == 1).map(|(_, &x)| x)
}

/// 2^53: the first number that is no draw.
pub const NO_DRAW: u64 = 1 << 53;

/// Another place for the Rust's stream: of zeros for ever, a corner, any; or none, so that it goes on.
pub fn stream_place(draw: &mut Draw) -> Option<(u64, u64)> {
    match draw.below(8) {
        0 => Some((0, 0)),
        1 => {
            let first: u64 = draw.of(&[0, 1, 1 << 52, (1 << 52) - 1, (1 << 53) - 1]);
            Some((first << 11, 0))
        }
        2 => None,
        _ => Some((draw.bits(), draw.bits())),
    }
}
