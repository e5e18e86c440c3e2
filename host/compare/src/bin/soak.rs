//! All seven oscillators, or those that are named, against the Rust's for as long as one likes, from a seed:
//!
//! `cargo run --offline --release -p compare --bin soak -- SEED TICKS [NAME..]`
//!
//! Each has a thread, one with a gate two, and each thread is given TICKS accepted ticks, all at one threshold. The status is 0 only when there
//! was no difference.
use std::process::ExitCode;

#[cfg(quiver)]
fn main() -> ExitCode {
    let mut words = std::env::args().skip(1);
    let (seed, ticks) = (number(words.next()), number(words.next()));
    let (Some(seed), Some(ticks)) = (seed, ticks) else {
        eprintln!("usage: soak SEED TICKS [NAME..]");
        return ExitCode::from(2);
    };
    let named: Vec<String> = words.collect();
    let wanted = |name: &str| named.is_empty() || named.iter().any(|word| word == name);
    let runs: Vec<_> = compare::ALL
        .into_iter()
        .filter(|(name, _)| wanted(name))
        .map(|(_, runs)| std::thread::spawn(move || runs(seed, ticks)))
        .collect();
    let mut differences = 0;
    for (title, ran) in runs.into_iter().flat_map(|runs| runs.join().unwrap()) {
        match ran {
            Ok(counts) => println!("{title}: {counts}; no difference"),
            Err(difference) => {
                println!("{difference}");
                differences += 1;
            }
        }
    }
    println!("differences: {differences}");
    ExitCode::from(u8::from(differences > 0))
}

#[cfg(quiver)]
fn number(word: Option<String>) -> Option<u64> {
    word?.parse().ok()
}

#[cfg(not(quiver))]
fn main() -> ExitCode {
    eprintln!("skipped: QUIVER_SRC not found");
    ExitCode::from(2)
}
