//! Stand-in for `rng.rs`: a stream of draws that were lent, made into numbers as the Rust makes them of its own. It is inlined and
//! keeps no more than a place, so that the Rust is measured without the work of drawing, as ours is.

/// Whole numbers below 2^53. There are as many as 16 bits tell apart, so that a place needs no test: that would cost the Rust a
/// tenth of a tick.
pub type Draws = [u64; 1 << 16];

#[derive(Clone, Copy)]
pub struct ModuleRng {
    lent: &'static Draws,
    taken: usize,
}

impl ModuleRng {
    /// A stream of zeros.
    pub const fn new() -> Self {
        Self::of(&[0; 1 << 16])
    }

    pub const fn of(lent: &'static Draws) -> Self {
        ModuleRng { lent, taken: 0 }
    }

    pub fn seed(&mut self, _seed: u64) {}

    /// Back to the first draw.
    pub fn reset(&mut self) {
        self.taken = 0;
    }

    pub fn is_seeded(&self) -> bool {
        true
    }

    #[inline(always)]
    pub fn next_bipolar(&mut self) -> f64 {
        let draw = self.lent[self.taken % self.lent.len()];
        self.taken += 1;
        draw as f64 * (1.0 / (1u64 << 53) as f64) * 2.0 - 1.0
    }
}
