//! The proved program `render`, built for this machine, as tests and measurements run it.
use std::io::{ErrorKind, Write};
use std::process::{Command, Stdio};

/// Where it stands.
pub const PATH: &str = env!("RENDER");

/// What it prints for a score.
///
/// # Panics
/// Where it can't be run, or says by its status that it failed.
#[track_caller]
pub fn render(score: &[u8]) -> Vec<u8> {
    let mut run = Command::new(PATH).stdin(Stdio::piped()).stdout(Stdio::piped()).spawn().unwrap();
    match run.stdin.take().unwrap().write_all(score) {
        // a score that is too long need not be read to its end
        Err(e) if e.kind() == ErrorKind::BrokenPipe => {}
        written => written.unwrap(),
    }
    let run = run.wait_with_output().unwrap();
    assert!(run.status.success(), "render: {}, after {} bytes", run.status, run.stdout.len());
    run.stdout
}
