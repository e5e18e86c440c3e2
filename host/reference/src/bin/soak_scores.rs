//! The program `render` against the reference for as long as one likes, from a seed:
//!
//! `cargo run --offline --release --bin soak_scores -- SEED SCORES`
//!
//! Of ten scores one is good and nine are damaged. Each core has a share of them. The status is 0 only when there was no
//! difference, and a pulse and every gate, mark, claim and refusal were met.
use std::process::ExitCode;

#[cfg(quiver)]
fn main() -> ExitCode {
    use reference::{scores, soak};
    use std::{env, thread, time::Instant};

    let words: Option<Vec<u64>> = env::args().skip(1).map(|word| word.parse().ok()).collect();
    let Some(&[seed, scores]) = words.as_deref() else {
        eprintln!("usage: soak_scores SEED SCORES");
        return ExitCode::from(2);
    };
    let drawn: soak::Drawn = |draw| if draw.one_in(10) { scores::good(draw) } else { scores::damaged(draw) };
    let start = Instant::now();
    let cores = thread::available_parallelism().map_or(1, |n| n.get() as u64);
    let shares = (0..cores).map(|i| {
        let share = scores / cores + u64::from(i < scores % cores);
        thread::spawn(move || soak::run(seed.wrapping_add(i << 32), share, drawn, program::render))
    });
    let shares: Vec<_> = shares.collect();
    let (mut differences, mut all) = (0, soak::Counts::default());
    for share in shares {
        match share.join().unwrap() {
            Ok(counts) => {
                println!("{counts}; no difference");
                all = all.with(&counts);
            }
            Err(difference) => {
                println!("{difference}");
                differences += 1;
            }
        }
    }
    let seconds = start.elapsed().as_secs_f64();
    println!("differences: {differences}; {seconds:.0} s, {:.0} scores a second", scores as f64 / seconds);
    let unmet = [all.unplayed(), all.unrefused()].concat();
    if !unmet.is_empty() {
        println!("never met: {}", unmet.join(", "));
    }
    ExitCode::from(u8::from(differences > 0 || !unmet.is_empty()))
}

#[cfg(not(quiver))]
fn main() -> ExitCode {
    eprintln!("skipped: QUIVER_SRC not found");
    ExitCode::from(2)
}
