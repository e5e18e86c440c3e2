//! The Rust's oscillators, unchanged, over stand-ins for what they lean on. Empty where the source isn't found.
//!
//! The stand-ins: `libm` calls the proved sine, cosine and powers, so that two sides which do the same operations agree to
//! the last bit; `serde` derives nothing; `graph` below answers what no oscillator asks. For measurements `quiver_system` has the system's
//! functions instead of the proved ones, and `quiver_lent` also a stream of lent draws. `quiver_low` is the same text but for the one
//! line that says what a gate must rise above.
#![allow(dead_code, unused_imports, clippy::all)]
extern crate alloc;

include!(concat!(env!("OUT_DIR"), "/modules.rs"));

pub type StdMap<K, V> = std::collections::HashMap<K, V>;

/// `port.rs` asks the graph whether two ports fit; no oscillator does.
#[cfg(found)]
pub mod graph {
    pub struct Verdict {
        pub warning: Option<String>,
    }

    impl crate::port::SignalKind {
        pub fn is_compatible_with(&self, _other: &Self) -> Verdict {
            Verdict { warning: None }
        }
    }
}
