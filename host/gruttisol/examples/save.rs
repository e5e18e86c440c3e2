//! Opens a preset, changes one value and saves it:
//!
//!     cargo run --offline --release -p gruttisol --example save -- ../presets/choir.score vowel 250000 target/mine.score
//!
//! KEY is `hz`, `gate`, `frames` or an input of the preset's oscillator, VALUE a whole number, which for an input is microvolts, or `nan`. A
//! `gate` is 1 or 2, or `none`, which takes its line away. OUT may be the preset itself. What stood there stays until the new text is written
//! as a whole, and for good where anything fails.
use gruttisol::gate::Issue;
use gruttisol::score::{Control, Inputs, Score};
use std::error::Error;
use std::ffi::OsString;
use std::fs::{self, File};
use std::io::{self, Write};
use std::path::{Path, PathBuf};
use std::process::{self, ExitCode};

fn main() -> ExitCode {
    let words: Vec<OsString> = std::env::args_os().skip(1).collect();
    let [preset, key, value, out] = words.as_slice() else {
        eprintln!("usage: save SCORE KEY VALUE OUT");
        return ExitCode::FAILURE;
    };
    match run(preset.as_ref(), &key.to_string_lossy(), &value.to_string_lossy(), out.as_ref()) {
        Ok(()) => ExitCode::SUCCESS,
        Err(error) => {
            eprintln!("{error}");
            ExitCode::FAILURE
        }
    }
}

/// All of it; the error says where it failed, and why.
pub fn run(preset: &Path, key: &str, value: &str, out: &Path) -> Result<(), String> {
    let text = fs::read(preset).map_err(|error| format!("{}: {error}", preset.display()))?;
    let score = Score::parse(&text).map_err(|refused| format!("{}: {refused}", preset.display()))?;
    let changed = changed(&score, key, value).map_err(|error| format!("{key}={value}: {error}"))?;
    save(&changed, out).map_err(|error| format!("{}: {error}", out.display()))
}

/// The score with another value.
fn changed(score: &Score, key: &str, value: &str) -> Result<Score, Box<dyn Error>> {
    let (mut hz, mut gate, mut frames, mut inputs) = (score.hz(), score.gate(), score.frames(), score.inputs());
    match (key, input(&mut inputs, key)) {
        ("hz", _) => hz = value.parse()?,
        ("gate", _) => gate = issue(value)?,
        ("frames", _) => frames = value.parse()?,
        (_, Some(control)) if value == "nan" => *control = Control::Nan,
        (_, Some(control)) => *control = Control::Microvolts(value.parse()?),
        (_, None) => return Err("neither hz, gate, frames nor an input of this oscillator".into()),
    }
    Ok(Score::new(hz, gate, frames, inputs)?)
}

/// What a line of `gate` says, or that there is to be none.
fn issue(value: &str) -> Result<Option<Issue>, Box<dyn Error>> {
    if value == "none" {
        return Ok(None);
    }
    let issue = Issue::of_number(value.parse()?).ok_or("neither issue 1 nor 2")?;
    Ok(Some(issue))
}

/// The input of this key, if the oscillator has one.
fn input<'a>(inputs: &'a mut Inputs, key: &str) -> Option<&'a mut Control> {
    Some(match (inputs, key) {
        (Inputs::Vco(i), "voct") => &mut i.voct,
        (Inputs::Vco(i), "fm") => &mut i.fm,
        (Inputs::Vco(i), "pw") => &mut i.pw,
        (Inputs::Vco(i), "sync") => &mut i.sync,
        (Inputs::Vco(i), "fm_lin") => &mut i.fm_lin,
        (Inputs::Lfo(i), "rate") => &mut i.rate,
        (Inputs::Lfo(i), "depth") => &mut i.depth,
        (Inputs::Lfo(i), "reset") => &mut i.reset,
        (Inputs::Supersaw(i), "voct") => &mut i.voct,
        (Inputs::Supersaw(i), "detune") => &mut i.detune,
        (Inputs::Supersaw(i), "mix") => &mut i.mix,
        (Inputs::Formant(i), "v_oct") => &mut i.v_oct,
        (Inputs::Formant(i), "vowel") => &mut i.vowel,
        (Inputs::Formant(i), "formant_shift") => &mut i.formant_shift,
        (Inputs::Formant(i), "vibrato") => &mut i.vibrato,
        _ => return None,
    })
}

/// Puts the score's text into a new file, which takes the other's name only when all of it is on the disk.
fn save(score: &Score, out: &Path) -> io::Result<()> {
    let mut beside = out.as_os_str().to_owned();
    beside.push(format!(".{}", process::id()));
    let beside = PathBuf::from(beside);
    // a file that has this name already isn't ours to replace
    let mut file = File::create_new(&beside)?;
    let saved = write!(file, "{score}").and_then(|()| file.sync_all()).and_then(|()| fs::rename(&beside, out));
    if saved.is_err() {
        // what went wrong first is what is said
        let _ = fs::remove_file(&beside);
    }
    saved
}
