//! Prints what `render` must print, by the Rust's oscillators: `cargo run --offline --release --bin reference < SCORE`
use std::process::ExitCode;

fn main() -> ExitCode {
    reference::run()
}
