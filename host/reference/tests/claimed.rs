//! The command `tools/claimed`: its status for each way that a run of `render` can end, and that it passes the text on.
use std::fs::{self, File, OpenOptions};
use std::io::Write;
use std::os::unix::fs::PermissionsExt;
use std::path::{Path, PathBuf};
use std::process::{Command, Output, Stdio};

const CLAIMED: &str = concat!(env!("CARGO_MANIFEST_DIR"), "/../tools/claimed");
const SCORE: &str = "osc=lfo\nhz=48000\nframes=1000\nrate=500000\ndepth=10000000\nreset=0\n";

/// A run of the command over this program, with this input and output.
fn run(render: impl AsRef<Path>, input: impl Into<Stdio>, out: impl Into<Stdio>) -> Output {
    let mut command = Command::new(CLAIMED);
    command
        .arg(render.as_ref())
        .stdin(input)
        .stdout(out)
        .stderr(Stdio::piped())
        .spawn()
        .unwrap()
        .wait_with_output()
        .unwrap()
}

/// A file of this content.
fn file(name: &str, content: &str) -> PathBuf {
    let path = Path::new(env!("CARGO_TARGET_TMPDIR")).join(name);
    fs::write(&path, content).unwrap();
    path
}

/// A program in the place of `render`.
fn stand_in(name: &str, script: &str) -> PathBuf {
    let path = file(name, &format!("#!/bin/sh\n{script}\n"));
    fs::set_permissions(&path, fs::Permissions::from_mode(0o755)).unwrap();
    path
}

/// The status over `render` itself of a score, whose text must have been passed on.
fn status_of(name: &str, score: &str) -> Option<i32> {
    let ended = run(program::PATH, File::open(file(name, score)).unwrap(), Stdio::piped());
    assert!(ended.stdout == program::render(score.as_bytes()), "{name}: another text");
    assert_eq!(ended.stderr, b"", "{name}");
    ended.status.code()
}

#[test]
fn claimed_not_claimed_and_refused() {
    assert_eq!(status_of("claimed", SCORE), Some(0));
    assert_eq!(status_of("not_claimed", &SCORE.replace("500000", "nan")), Some(1));
    assert_eq!(status_of("steered", &SCORE.replace("reset=0", "reset=nan")), Some(1));
    assert_eq!(status_of("refused_20", &SCORE.repeat(20)), Some(2));
    assert_eq!(status_of("refused_21", ""), Some(2));
    assert_eq!(status_of("refused_22", &SCORE.replace("48000", "x")), Some(2));
    assert_eq!(status_of("refused_23", &SCORE.replace("48000", "1")), Some(2));
}

#[track_caller]
fn fails(ended: Output) -> Vec<u8> {
    assert_eq!(ended.status.code(), Some(3));
    assert!(!ended.stderr.is_empty());
    ended.stdout
}

#[test]
fn reads_and_writes_that_fail() {
    assert_eq!(fails(run(program::PATH, File::open("/").unwrap(), Stdio::piped())), b"refused=21\n");
    let score = || File::open(file("score", SCORE)).unwrap();
    fails(run(program::PATH, score(), OpenOptions::new().write(true).open("/dev/full").unwrap()));
    fails(run(program::PATH, score(), File::open("/dev/null").unwrap()));
}

#[test]
fn programs_that_fail() {
    let of = |program: &Path| fails(run(program, Stdio::null(), Stdio::piped()));
    assert_eq!(of(Path::new("/no/such/program")), b"");
    assert_eq!(of(&file("no_program", "")), b"");
    assert_eq!(of(&stand_in("killed", "echo claimed=yes; kill -9 $$")), b"claimed=yes\n");
    assert_eq!(of(&stand_in("ended", "echo claimed=yes; exit 1")), b"claimed=yes\n");
    assert_eq!(of(&stand_in("complaining", "echo claimed=yes; echo render: a write failed >&2")), b"claimed=yes\n");
    fails(Command::new(CLAIMED).stdin(Stdio::null()).output().unwrap());
}

/// A text that is cut off anywhere is no refusal and no claim.
#[test]
fn texts_without_an_end() {
    let cut = |name: &str, text: &str| {
        let program = stand_in(name, &format!("printf '{text}'"));
        assert_eq!(fails(run(program, Stdio::null(), Stdio::piped())), text.replace("\\n", "\n").as_bytes());
    };
    cut("nothing", "");
    cut("cut_claim", "steered=0\\nclaimed=yes");
    cut("cut_word", "steered=0\\nclaimed=y");
    cut("cut_frame", "n=0\\nmark=clean\\n");
    cut("cut_refusal", "refused=2");
    cut("cut_feed", "refused=21");
    cut("other_refusal", "refused=7\\n");
    cut("late_refusal", "n=0\\nrefused=21\\n");
}

/// The text is passed on to the last byte: one that is longer than any pipe, too.
#[test]
fn a_long_text() {
    let score = SCORE.replace("frames=1000", "frames=100000");
    let mut command = Command::new(CLAIMED);
    let mut run = command.arg(program::PATH).stdin(Stdio::piped()).stdout(Stdio::piped()).spawn().unwrap();
    run.stdin.take().unwrap().write_all(score.as_bytes()).unwrap();
    let run = run.wait_with_output().unwrap();
    assert_eq!(run.status.code(), Some(0));
    assert!(run.stdout == program::render(score.as_bytes()));
}
