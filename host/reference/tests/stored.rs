//! Scores with what the reference makes of them over the Rust, stored, so that `render` is held to that where the Rust's source isn't found.
//!
//! The texts are made from the scores, in host/, by the Rust over the proved sine, cosine and powers:
//! `for s in reference/stored/*.score; do cargo run --offline --release --bin reference < $s > ${s%.score}.text; done`
use std::fs;
use std::path::Path;

/// Each stored score, with its text and its name.
fn stored() -> Vec<(Vec<u8>, Vec<u8>, String)> {
    let folder = Path::new(env!("CARGO_MANIFEST_DIR")).join("stored");
    let files = fs::read_dir(folder).unwrap().map(|file| file.unwrap().path());
    let scores = files.filter(|file| file.extension().is_some_and(|ending| ending == "score"));
    scores
        .map(|file| {
            let text = fs::read(file.with_extension("text")).unwrap();
            (fs::read(&file).unwrap(), text, file.file_stem().unwrap().to_str().unwrap().to_owned())
        })
        .collect()
}

/// Three of each oscillator, at least.
#[test]
fn every_oscillator_is_there() {
    let stored = stored();
    for osc in &reference::score::ALL {
        let line = format!("osc={}\n", osc.name);
        assert!(stored.iter().filter(|(score, ..)| score.starts_with(line.as_bytes())).count() >= 3, "{}", osc.name);
    }
}

#[test]
fn render_prints_the_stored_texts() {
    let stored = stored();
    for (score, text, name) in &stored {
        assert!(program::render(score) == *text, "{name}: render prints another text");
    }
    println!("{} stored scores", stored.len());
}

#[test]
#[cfg_attr(not(quiver), ignore = "skipped: QUIVER_SRC not found")]
fn the_stored_texts_are_the_rusts() {
    #[cfg(quiver)]
    for (score, text, name) in stored() {
        assert!(reference::render(&score) == text, "{name}: the Rust's text is another");
    }
}
