//! Stand-in for the registry's `serde`: nothing that an oscillator does is written out.
pub use serde_derive::{Deserialize, Serialize};
