//! What the program `render` must print: the score and its rules written from the scope, over the Rust's oscillators.
//!
//! Nothing here is taken from the proved program, so that a difference between the two is a fault of one of them. The Rust
//! runs over the proved sine, cosine and powers, so that both can agree to the last bit. Where its source isn't found,
//! scores are read and not played.
pub mod ours;
pub mod score;

#[cfg(quiver)]
pub mod fuzz;
#[cfg(quiver)]
mod play;
#[cfg(quiver)]
pub mod scores;
#[cfg(quiver)]
pub mod soak;

#[cfg(quiver)]
pub use play::{render, write};

/// The reference as a program: a score from standard input, its text to standard output.
#[cfg(quiver)]
pub fn run() -> std::process::ExitCode {
    use std::io::{self, Read, Write};
    use std::process::ExitCode;

    let (mut score, mut out) = (vec![], io::BufWriter::new(io::stdout().lock()));
    let read = io::stdin().read_to_end(&mut score);
    match read.and_then(|_| write(&score, &mut out)).and_then(|_| out.flush()) {
        Ok(()) => ExitCode::SUCCESS,
        Err(e) => {
            eprintln!("{e}");
            ExitCode::FAILURE
        }
    }
}

#[cfg(not(quiver))]
pub fn run() -> std::process::ExitCode {
    eprintln!("skipped: QUIVER_SRC not found");
    std::process::ExitCode::from(2)
}
