//! Gruttisol for Rust programs: the functions of the proved library, as safe functions.
//!
//! What each function answers, for every input, is the contract of its Rattle function, which is proved. Not proved are
//! this crate's declarations and the compiler that made the archive; the tests hold both to Rust's own functions.
//!
//! A build proves the crates and makes the archive by the kit's `rt`; GRUTTISOL_ARCHIVE names an archive made before.
#[macro_use]
mod exported;
#[macro_use]
mod lent;
pub mod answer;
pub mod common;
pub mod formant_osc;
pub mod gate;
pub mod karplus_strong;
pub mod lfo;
pub mod noise_generator;
pub mod numeric;
pub mod score;
pub mod supersaw;
pub mod tally;
pub mod vco;
pub mod wavetable;
