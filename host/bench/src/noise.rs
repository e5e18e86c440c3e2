//! The noise generator's rows. Both sides are lent the same draws, and start anew with each run of `TICKS` ticks.
use crate::oscillators::{blocks, row, BLOCK, TICKS};
use gruttisol::noise_generator::{Controls, NoiseGenerator};
use gruttisol::tally::Tally;
use random::Random;
use std::hint::black_box;

/// More than a run needs.
type Draws = [u64; 1 << 16];

/// Ours is lent the draws of each call; the second lines are of a caller that asks before each call how many these are.
pub fn rows() {
    let mut random = Random::new(1);
    let draws: &Draws = Box::leak(Box::new(std::array::from_fn(|_| random.bits() >> 11)));
    let held = [0.3];
    for (name, asks) in [("noise_generator", false), ("noise, asked", true)] {
        let mut noise = Noise::new(draws, 1);
        let ours = |&[correlation]: &[f64; 1]| {
            let (state, lent) = noise.next();
            assert!(!asks || state.needed() == lent.len());
            let controls = Controls { correlation: Some(correlation) };
            state.tick(&controls, NoiseGenerator::WANT_ALL, lent).unwrap().volts
        };
        row(name, held, [true], ours, theirs::body(draws));
        let (mut noise, controls) = (Noise::new(draws, BLOCK), Controls { correlation: Some(held[0]) });
        let ours = |tally: &mut Tally, samples: &mut [f64], marks: &mut [u32]| {
            let (state, lent) = noise.next();
            assert!(!asks || state.needed_by(BLOCK as u32) == lent.len());
            state.block(black_box(&controls), NoiseGenerator::WANT_ALL, lent, tally, samples, marks).unwrap()
        };
        blocks(name, 4, held, ours, theirs::body(draws), theirs::block(draws));
    }
}

struct Noise<'a> {
    state: NoiseGenerator,
    /// The draws of each call in a run.
    lent: Vec<&'a [u64]>,
    calls: usize,
}

impl<'a> Noise<'a> {
    /// For calls of so many ticks.
    fn new(draws: &'a Draws, ticks: usize) -> Self {
        let state = NoiseGenerator::new();
        let needed = |ticks: usize| state.needed_by(ticks as u32);
        let lent = (0..TICKS).step_by(ticks).map(|tick| &draws[needed(tick)..needed(tick + ticks)]).collect();
        Noise { state, lent, calls: 0 }
    }

    /// The state, and the draws of the next call.
    fn next(&mut self) -> (&mut NoiseGenerator, &'a [u64]) {
        if self.calls == self.lent.len() {
            self.calls = 0;
            self.state.reset();
        }
        self.calls += 1;
        (&mut self.state, self.lent[self.calls - 1])
    }
}

/// The Rust's, where its source is found.
#[cfg(quiver)]
mod theirs {
    use super::{black_box, Draws, BLOCK, TICKS};
    use quiver_lent::modules::oscillators::{probe::Probe, NoiseGenerator};
    use quiver_lent::port::{BlockPortValues, GraphModule};
    use quiver_lent::rng::ModuleRng;

    struct Noise {
        state: NoiseGenerator,
        ticks: usize,
    }

    impl Noise {
        fn new(draws: &'static Draws) -> Self {
            let mut state = NoiseGenerator::new();
            *state.stream() = ModuleRng::of(draws);
            Noise { state, ticks: 0 }
        }

        /// The state before the next so many ticks. A reset takes the stream back to its first draw.
        #[inline(always)]
        fn next(&mut self, ticks: usize) -> &mut NoiseGenerator {
            if self.ticks == TICKS {
                self.ticks = 0;
                self.state.reset();
            }
            self.ticks += ticks;
            &mut self.state
        }
    }

    /// The bare body of a tick.
    pub fn body(draws: &'static Draws) -> Option<impl FnMut(&[f64; 1]) -> [f64; 4]> {
        let mut noise = Noise::new(draws);
        Some(move |controls: &[f64; 1]| {
            let mut samples = [0.0; 4];
            noise.next(1).body(controls, u32::MAX, &mut samples);
            samples
        })
    }

    /// Its own block call.
    pub fn block(draws: &'static Draws) -> Option<impl FnMut(&[f64; 1])> {
        let mut noise = Noise::new(draws);
        let (mut inputs, mut outputs) = (BlockPortValues::new(BLOCK), BlockPortValues::new(BLOCK));
        Some(move |controls: &[f64; 1]| {
            inputs.get_buffer_mut(0).fill(controls[0]);
            noise.next(BLOCK).process_block(&inputs, &mut outputs, BLOCK);
            black_box(&outputs);
        })
    }
}

#[cfg(not(quiver))]
mod theirs {
    use super::Draws;

    pub fn body(_draws: &'static Draws) -> Option<fn(&[f64; 1]) -> [f64; 4]> {
        None
    }

    pub fn block(_draws: &'static Draws) -> Option<fn(&[f64; 1])> {
        None
    }
}
