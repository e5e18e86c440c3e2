//! Prints frames that no score can ask of `render`: `cargo run --offline --release -q -p frames -- NAME`, the NAME being one of `frames::NAMES`.
use std::process::ExitCode;

fn main() -> ExitCode {
    let words: Vec<_> = std::env::args_os().skip(1).collect();
    let text = match &words[..] {
        [name] => name.to_str().and_then(frames::text),
        _ => None,
    };
    match text {
        Some(Ok(text)) => {
            print!("{text}");
            ExitCode::SUCCESS
        }
        Some(Err(refused)) => {
            eprintln!("{refused}");
            ExitCode::FAILURE
        }
        None => {
            eprintln!("usage: frames {}", frames::NAMES.join("|"));
            ExitCode::from(2)
        }
    }
}
