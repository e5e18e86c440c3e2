//! The Rust's oscillators that have a gate. Its threshold is a constant of the Rust's, so each is compiled twice: as it is, and with the
//! threshold of issue 2. Which of the two one is, its state decides.
use crate::draw::{HIGH, LOW};
use quiver::modules::oscillators as high;
use quiver::modules::oscillators::probe::{Bank, Probe as _};
use quiver::port::GraphModule as _;
use quiver_low::modules::oscillators as low;
use quiver_low::modules::oscillators::probe::Probe as _;
use quiver_low::port::GraphModule as _;

/// What an expression is of whichever it is.
macro_rules! either {
    ($theirs:expr, $it:ident => $value:expr) => {
        match $theirs {
            Self::High($it) => $value,
            Self::Low($it) => $value,
        }
    };
}

/// Each line is an oscillator with its numbers of controls, outputs, floats and whole numbers, and the place of its threshold among the
/// floats.
macro_rules! gated {
    ($($name:ident: $controls:literal, $ports:literal, $floats:literal, $wholes:literal, $threshold:literal;)*) => {$(
        pub enum $name {
            High(high::$name),
            Low(low::$name),
        }

        impl $name {
            /// The place of the threshold among a state's floats.
            pub const THRESHOLD: usize = $threshold;

            /// A new one with one of the two thresholds.
            pub fn new(sample_rate: f64, threshold: f64) -> Self {
                if threshold == HIGH {
                    Self::High(high::$name::new(sample_rate))
                } else {
                    assert_eq!(threshold, LOW, "the Rust isn't compiled with this threshold");
                    Self::Low(low::$name::new(sample_rate))
                }
            }

            #[inline]
            pub fn body(&mut self, controls: &[f64; $controls], wanted: u32, samples: &mut [f64; $ports]) {
                either!(self, it => it.body(controls, wanted, samples))
            }

            pub fn flat(&self) -> ([f64; $floats], [u64; $wholes]) {
                either!(self, it => it.flat())
            }

            /// A state with the other threshold is one of the other Rust's: it becomes that, and of what isn't in the state it is new.
            pub fn put_flat(&mut self, floats: &[f64; $floats], wholes: &[u64; $wholes]) {
                let threshold = floats[Self::THRESHOLD];
                if threshold != self.flat().0[Self::THRESHOLD] {
                    const ANY_RATE: f64 = 48000.0;
                    *self = Self::new(ANY_RATE, threshold);
                }
                either!(self, it => it.put_flat(floats, wholes))
            }

            pub fn reset(&mut self) {
                either!(self, it => it.reset())
            }

            pub fn set_sample_rate(&mut self, sample_rate: f64) {
                either!(self, it => it.set_sample_rate(sample_rate))
            }
        }
    )*};
}

gated! {
    Vco: 5, 4, 5, 4, 3;
    Lfo: 3, 5, 5, 2, 3;
    Wavetable: 4, 1, 5, 2, 3;
    KarplusStrong: 5, 1, 7, 4, 5;
}

impl Wavetable {
    /// The bank that it reads, and has it read another from now on.
    pub fn bank(&self) -> &'static Bank {
        either!(self, it => it.bank())
    }

    pub fn lend(&mut self, bank: &'static Bank) {
        either!(self, it => it.lend(bank))
    }
}

impl KarplusStrong {
    pub fn line(&self) -> &[f64] {
        either!(self, it => it.line())
    }

    pub fn line_mut(&mut self) -> &mut [f64] {
        either!(self, it => it.line_mut())
    }

    pub fn put_write_pos(&mut self, write_pos: usize) {
        either!(self, it => it.put_write_pos(write_pos))
    }

    /// Puts the random stream to a place.
    pub fn put_stream(&mut self, (s0, s1): (u64, u64)) {
        match self {
            Self::High(it) => *it.stream() = quiver::rng::ModuleRng::at(s0, s1),
            Self::Low(it) => *it.stream() = quiver_low::rng::ModuleRng::at(s0, s1),
        }
    }

    /// What it will draw next.
    pub fn draws(&mut self, n: usize) -> Vec<u64> {
        either!(self, it => it.stream().draws(n))
    }

    /// A string in the same state.
    pub fn twin(&self) -> Self {
        match self {
            Self::High(it) => Self::High(it.twin()),
            Self::Low(it) => Self::Low(it.twin()),
        }
    }
}
