//! What a run must meet of gates, so that none misses an edge in silence.
use crate::draw::{HIGH, LOW};
use crate::pair::rises;
use crate::script::Pair;

/// A gate in a tick.
pub struct Gate {
    previous: f64,
    now: f64,
    pub threshold: f64,
}

impl Gate {
    /// That of an oscillator which has one, of the floats before a tick and the tick's controls.
    pub fn of<P: Pair>(floats: &P::Floats, controls: &[f64]) -> Option<Gate> {
        let (floats, place) = (floats.as_ref(), P::THRESHOLD?);
        let now = P::CONTROLS.iter().zip(controls).find(|(of, _)| of.gate).map(|(_, &now)| now)?;
        Some(Gate { previous: floats[place - 1], now, threshold: floats[place] })
    }

    fn rises(&self) -> bool {
        rises(self.previous, self.now, self.threshold)
    }

    /// Whether it would rise above the other threshold.
    fn rises_above_other(&self) -> bool {
        rises(self.previous, self.now, if self.threshold == HIGH { LOW } else { HIGH })
    }
}

/// What is of a kind, and how it is called.
type Kind = (&'static str, fn(&Gate) -> bool);

/// Kinds of ticks, all at the run's own threshold.
pub const KINDS: [Kind; 8] = [
    ("edges", Gate::rises),
    ("edges of its threshold alone", |gate| gate.rises() && !gate.rises_above_other()),
    ("edges of the other threshold alone", |gate| !gate.rises() && gate.rises_above_other()),
    ("edges from exactly the threshold", |gate| gate.rises() && gate.previous == gate.threshold),
    ("edges to the number above it", |gate| gate.rises() && gate.now == gate.threshold.next_up()),
    ("gates of exactly the threshold", |gate| gate.now == gate.threshold),
    ("gates of the number below it", |gate| gate.now == gate.threshold.next_down()),
    ("gates after a NaN", |gate| gate.previous.is_nan() && gate.now > gate.threshold),
];

/// Kinds of calls. What is refused here is refused for its threshold alone.
pub const CALLS: [&str; 3] = [NOT_MADE, NOT_TAKEN, OTHER_PUT_IN];
pub const NOT_MADE: &str = "new ones refused for their threshold";
pub const NOT_TAKEN: &str = "states refused for their threshold";
pub const OTHER_PUT_IN: &str = "states put in with the other threshold";
