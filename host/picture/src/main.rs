//! Draws what `render` prints as an SVG picture. HZ is the score's `hz`, which the text doesn't say:
//!
//! `render < SCORE | cargo run --offline --release -p picture -- HZ > PICTURE`, or with the text's file after it.
use std::process::ExitCode;
use std::{env, fs, io};

fn main() -> ExitCode {
    let words: Vec<_> = env::args_os().skip(1).collect();
    let (hz, file) = match &words[..] {
        [hz] => (hz, None),
        [hz, file] => (hz, Some(file)),
        _ => {
            eprintln!("usage: picture HZ [FILE]");
            return ExitCode::from(2);
        }
    };
    let Some(hz) = hz.to_str().and_then(|hz| hz.parse().ok()) else {
        eprintln!("picture: {} isn't a whole number of Hz\nusage: picture HZ [FILE]", hz.to_string_lossy());
        return ExitCode::from(2);
    };
    let text = match file {
        None => io::read_to_string(io::stdin()).map_err(|e| e.to_string()),
        Some(file) => fs::read_to_string(file).map_err(|e| format!("{}: {e}", file.to_string_lossy())),
    };
    match text.and_then(|text| picture::svg(&text, hz)) {
        Ok(svg) => {
            print!("{svg}");
            ExitCode::SUCCESS
        }
        Err(why) => {
            eprintln!("picture: {why}");
            ExitCode::FAILURE
        }
    }
}
