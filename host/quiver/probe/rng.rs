//! Child of `rng.rs`: a random stream from any place on, and what it is about to give.
use super::{ModuleRng, Rng};

impl ModuleRng {
    /// The stream whose next 64 bits are `s0 + s1`. From 0 and 0 it is 0 for ever, which no seed gives.
    pub fn at(s0: u64, s1: u64) -> Self {
        ModuleRng { owned: Some((0, Rng { s0, s1 })) }
    }

    /// Where an owned stream stands.
    pub fn place(&self) -> Option<(u64, u64)> {
        self.owned.map(|(_, Rng { s0, s1 })| (s0, s1))
    }

    /// The next `n` draws, 53 bits each, as an oscillator will draw them.
    pub fn draws(mut self, n: usize) -> Vec<u64> {
        (0..n).map(|_| self.next_u64() >> 11).collect()
    }
}
