//! Child of `common.rs`: reads and writes the private fields of a memo and an edge detector.
use super::{EdgeDetector, Memo, GATE_THRESHOLD_V};

impl<const N: usize, V: Copy> Memo<N, V> {
    /// Keys, then 1 where the memo holds a value.
    pub(crate) fn words(&self) -> ([u64; N], u64) {
        (self.keys, self.valid.into())
    }

    pub(crate) fn val(&self) -> V {
        self.val
    }

    /// A memo of any fields; it holds a value where `valid` isn't 0.
    pub(crate) fn of(keys: [u64; N], val: V, valid: u64) -> Self {
        Memo { keys, val, valid: valid != 0 }
    }
}

impl EdgeDetector {
    /// The previous sample, and the threshold that this crate is compiled with.
    pub(crate) fn flat(&self) -> [f64; 2] {
        [self.prev, GATE_THRESHOLD_V]
    }

    /// One of that threshold; of no other there is one here.
    pub(crate) fn of(prev: f64, threshold: f64) -> Self {
        assert_eq!(threshold, GATE_THRESHOLD_V);
        EdgeDetector { prev }
    }
}
