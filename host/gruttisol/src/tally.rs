//! The tally of a run: how many ticks began, and how each went.
use crate::answer::{done, Mark, Refused};
use crate::lent::tally_take;

/// How many counts a tally has.
pub const COUNTS: usize = 6;

/// What they are called, in their order. Finished are the clean ones.
pub const NAMES: [&str; COUNTS] = ["begun", "finished", "cleared", "notfinite", "lost", "steered"];

/// Counts, as `NAMES` has them.
#[derive(Clone, Copy, PartialEq, Eq, Debug, Default)]
pub struct Tally {
    counts: [u32; COUNTS],
}

impl Tally {
    /// A tally that has counted nothing.
    pub fn new() -> Self {
        Tally { counts: [0; COUNTS] }
    }

    /// Counts of the caller's making; where the first isn't the sum of the others, nothing is taken any more.
    pub fn of_counts(counts: [u32; COUNTS]) -> Self {
        Tally { counts }
    }

    pub fn counts(&self) -> &[u32; COUNTS] {
        &self.counts
    }

    /// For calls that count their own ticks.
    pub(crate) fn counts_mut(&mut self) -> &mut [u32; COUNTS] {
        &mut self.counts
    }

    /// Takes a tick's answer, which is counted by its mark; a refused tick counts nowhere, whatever number it carries. Refused
    /// by 7.
    pub fn take(&mut self, answer: Result<Mark, Refused>) -> Result<(), Refused> {
        // to the archive any number that is no mark's is a refused tick
        const NO_MARK: u32 = 0;
        done(tally_take(answer.map_or(NO_MARK, |mark| mark as u32), &mut self.counts))
    }
}
