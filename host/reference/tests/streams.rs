//! The program's standard input and output in other shapes than a whole text at once: in pieces, and failing.
use std::fs::{self, File, OpenOptions};
use std::io::{Read, Write};
use std::os::fd::OwnedFd;
use std::os::unix::net::UnixStream;
use std::path::Path;
use std::process::{Command, Output, Stdio};
use std::thread::sleep;
use std::time::Duration;

const SCORE: &str = "osc=lfo\nhz=48000\nframes=3\nrate=500000\ndepth=10000000\nreset=0\n";
const READ_FAILED: &[u8] = b"render: a read of standard input failed\n";
const WRITE_FAILED: &[u8] = b"render: a write to standard output failed\n";

/// A score whose text no pipe holds at once.
fn long() -> String {
    SCORE.replace("frames=3", "frames=480000")
}

fn of(input: impl Into<Stdio>) -> Output {
    Command::new(program::PATH).stdin(input).output().unwrap()
}

fn of_file(path: &str) -> Vec<u8> {
    of(File::open(path).unwrap()).stdout
}

/// What it prints for a text that comes in pieces, each after a while.
fn of_pieces<'a>(pieces: impl Iterator<Item = &'a [u8]>) -> Vec<u8> {
    let mut run = Command::new(program::PATH).stdin(Stdio::piped()).stdout(Stdio::piped()).spawn().unwrap();
    let mut input = run.stdin.take().unwrap();
    for piece in pieces {
        sleep(Duration::from_millis(2));
        input.write_all(piece).unwrap();
    }
    drop(input);
    run.wait_with_output().unwrap().stdout
}

/// An input that gives these bytes and then fails: the other end of a socket is closed with something unread in it.
fn failing_after(bytes: &[u8]) -> OwnedFd {
    let (mut ours, mut theirs) = UnixStream::pair().unwrap();
    theirs.write_all(b"unread").unwrap();
    ours.write_all(bytes).unwrap();
    theirs.into()
}

#[test]
fn a_score_in_pieces() {
    let whole = program::render(SCORE.as_bytes());
    assert!(whole.starts_with(b"n=0\n"));
    for size in [1, 7, 40] {
        assert_eq!(of_pieces(SCORE.as_bytes().chunks(size)), whole, "pieces of {size}");
    }
}

/// The byte that is one too many may come alone.
#[test]
fn a_long_text_in_pieces() {
    let text = [b'x'; 1025];
    assert_eq!(of_pieces(text[..1024].chunks(512)), b"refused=21\n");
    assert_eq!(of_pieces(text.chunks(1024)), b"refused=20\n");
}

#[test]
fn files_that_are_empty_or_never_end() {
    assert_eq!(of_file("/dev/null"), b"refused=21\n");
    assert_eq!(of_file("/dev/zero"), b"refused=20\n");
}

/// A failure is told apart from the end, though both are refused by 21.
#[test]
fn an_input_that_fails_at_once() {
    let unreadable = OpenOptions::new().write(true).open("/dev/null").unwrap();
    for input in [Stdio::from(File::open("/").unwrap()), unreadable.into(), failing_after(b"").into()] {
        let run = of(input);
        assert_eq!((&run.stdout[..], &run.stderr[..]), (&b"refused=21\n"[..], READ_FAILED));
        assert!(run.status.success());
    }
    assert_eq!(of(File::open("/dev/null").unwrap()).stderr, b"");
}

/// A failure isn't the end of the text: what came before it isn't played, be it a whole score.
#[test]
fn an_input_that_fails_after_a_while() {
    let score = SCORE.as_bytes();
    for n in [1, score.len() / 2, score.len() - 1, score.len()] {
        let run = of(failing_after(&score[..n]));
        assert_eq!((&run.stdout[..], &run.stderr[..]), (&b"refused=21\n"[..], READ_FAILED), "after {n} bytes");
    }
    // of a text that is too long no more is read
    let run = of(failing_after(&[b'x'; 1025]));
    assert_eq!((&run.stdout[..], &run.stderr[..]), (&b"refused=20\n"[..], &b""[..]));
}

/// A run on a score with this output; what it says on standard error, and whether it ended by itself.
fn into(score: &str, out: Stdio) -> (Vec<u8>, bool) {
    let mut command = Command::new(program::PATH);
    let mut run = command.stdin(Stdio::piped()).stdout(out).stderr(Stdio::piped()).spawn().unwrap();
    run.stdin.take().unwrap().write_all(score.as_bytes()).unwrap();
    let run = run.wait_with_output().unwrap();
    (run.stderr, run.status.success())
}

/// Where nobody takes its output it ends all the same, and says so. A pipe that nobody reads any more is such an output: no signal kills it.
#[test]
fn an_output_that_takes_nothing() {
    for score in [&long(), SCORE, "no score\n"] {
        let full = OpenOptions::new().write(true).open("/dev/full").unwrap();
        assert_eq!(into(score, full.into()), (WRITE_FAILED.to_vec(), true));
        let unwritable = File::open("/dev/null").unwrap();
        assert_eq!(into(score, unwritable.into()), (WRITE_FAILED.to_vec(), true));
    }
    let mut run = Command::new(program::PATH).stdin(Stdio::piped()).stdout(Stdio::piped()).stderr(Stdio::piped()).spawn().unwrap();
    drop(run.stdout.take());
    run.stdin.take().unwrap().write_all(long().as_bytes()).unwrap();
    let run = run.wait_with_output().unwrap();
    assert_eq!((run.stderr, run.status.success()), (WRITE_FAILED.to_vec(), true));
}

/// Whether a text that came out is the beginning of the whole one, and not all of it.
fn is_cut(text: &[u8], whole: &[u8]) -> bool {
    !text.is_empty() && text.len() < whole.len() && whole.starts_with(text)
}

/// After a write that failed nothing is written, though there is room again: the output is full now and then, and fails at once
/// when it is.
#[test]
fn an_output_that_fails_in_its_middle() {
    let (score, whole) = (long(), program::render(long().as_bytes()));
    let (mut ours, theirs) = UnixStream::pair().unwrap();
    theirs.set_nonblocking(true).unwrap();
    let run = std::thread::spawn(move || into(&score, OwnedFd::from(theirs).into()));
    let (mut text, mut piece) = (vec![], [0; 4096]);
    loop {
        sleep(Duration::from_micros(100));
        match ours.read(&mut piece).unwrap() {
            0 => break,
            n => text.extend_from_slice(&piece[..n]),
        }
    }
    assert_eq!(run.join().unwrap(), (WRITE_FAILED.to_vec(), true));
    assert!(is_cut(&text, &whole), "{} bytes of {}", text.len(), whole.len());
    println!("{} bytes of {}, and nothing after them", text.len(), whole.len());
}

/// The same of a file that may not grow beyond a size, at which no write of the rest succeeds.
#[test]
fn a_file_that_may_not_grow() {
    let path = Path::new(env!("CARGO_TARGET_TMPDIR")).join("cut");
    let mut command = Command::new("sh");
    command.args(["-c", "trap '' XFSZ; ulimit -f 100; exec \"$0\"", program::PATH]);
    let mut run =
        command.stdin(Stdio::piped()).stdout(File::create(&path).unwrap()).stderr(Stdio::piped()).spawn().unwrap();
    run.stdin.take().unwrap().write_all(long().as_bytes()).unwrap();
    let run = run.wait_with_output().unwrap();
    assert_eq!(run.stderr, WRITE_FAILED);
    assert!(is_cut(&fs::read(&path).unwrap(), &program::render(long().as_bytes())));
}
