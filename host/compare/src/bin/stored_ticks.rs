//! Writes the Rust's ticks in the list that the program `replay` runs; `stored` writes the lines before them.
//!
//! `(cargo run --offline --release -p stored; cargo run --offline --release -p compare --bin stored_ticks) > ../crates/replay/stdin`
use std::process::ExitCode;

#[cfg(quiver)]
fn main() -> ExitCode {
    match compare::stored() {
        Ok(lines) => print!("{lines}"),
        Err(difference) => {
            eprintln!("{difference}");
            return ExitCode::FAILURE;
        }
    }
    ExitCode::SUCCESS
}

#[cfg(not(quiver))]
fn main() -> ExitCode {
    eprintln!("skipped: QUIVER_SRC not found");
    ExitCode::from(2)
}
