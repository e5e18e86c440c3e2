//! The proved reader and writer of scores against the reference's for as long as one likes, from a seed, on one core:
//!
//! `cargo run --offline --release --bin fuzz_scores -- SEED TEXTS`
//!
//! So many texts are read and written back; then as many values are written and read back. The status is 0 only when there was no
//! difference, and scores, every refusal and every kind of values were met.
use std::process::ExitCode;

#[cfg(quiver)]
fn main() -> ExitCode {
    use reference::fuzz::{texts, values, Run};
    use std::{env, time::Instant};

    let words: Option<Vec<u64>> = env::args().skip(1).map(|word| word.parse().ok()).collect();
    let Some(&[seed, n]) = words.as_deref() else {
        eprintln!("usage: fuzz_scores SEED TEXTS");
        return ExitCode::from(2);
    };
    let mut status = ExitCode::SUCCESS;
    for run in [texts as Run, values] {
        let start = Instant::now();
        match run(seed, n) {
            Ok(counts) => {
                println!("{counts}; no difference; {:.0} s", start.elapsed().as_secs_f64());
                let unmet = counts.unmet();
                if !unmet.is_empty() {
                    println!("never met: {}", unmet.join(", "));
                    status = ExitCode::FAILURE;
                }
            }
            Err(difference) => {
                println!("{difference}");
                status = ExitCode::FAILURE;
            }
        }
    }
    status
}

#[cfg(not(quiver))]
fn main() -> ExitCode {
    eprintln!("skipped: QUIVER_SRC not found");
    ExitCode::from(2)
}
