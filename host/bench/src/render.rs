//! The longest render of a Vco, by the proved program and by the Rust: seconds, and memory at its peak.
//!
//! Both are programs that read a score and print the same bytes, the Rust's through a buffered writer; the Rust's is this
//! program itself, given `RUST`. The Rust runs over our sine and powers here, or the bytes would differ.
use std::io::{Read, Write};
use std::process::{Child, Command, Stdio};
use std::time::Instant;
use std::{env, fs};

/// The argument that has this program render as the Rust does.
pub const RUST: &str = "--as-the-rust";

const SCORE: &str = "osc=vco\nhz=48000\nframes=480000\nvoct=250000\nfm=0\npw=500000\nsync=0\nfm_lin=0\n";
/// Runs of either side; the best counts.
const RUNS: usize = 16;

pub fn rows() {
    println!("{:<34} {:>7} {:>7} {:>7}", "render of 480,000 vco frames", "ours", "Rust's", "ratio");
    let (ours, theirs) = both();
    let row = |what: &str, ours: f64, theirs: Option<f64>| match theirs {
        Some(theirs) => println!("{what:<34} {ours:>7.3} {theirs:>7.3} {:>7.2}", ours / theirs),
        None => println!("{what:<34} {ours:>7.3} (QUIVER_SRC not found)"),
    };
    row("seconds, to /dev/null", ours.seconds, theirs.as_ref().map(|run| run.seconds));
    row("seconds, through a pipe", ours.piped, theirs.as_ref().map(|run| run.piped));
    row("peak memory, MB", ours.megabytes, theirs.as_ref().map(|run| run.megabytes));
}

/// The best times of a side's runs, and the most memory of any.
struct Best {
    seconds: f64,
    piped: f64,
    megabytes: f64,
}

impl Best {
    fn none() -> Self {
        Best { seconds: f64::INFINITY, piped: f64::INFINITY, megabytes: 0.0 }
    }

    fn take(&mut self, command: &mut Command) {
        let start = Instant::now();
        assert!(started(command, Stdio::null()).wait().unwrap().success());
        self.seconds = self.seconds.min(start.elapsed().as_secs_f64());
        let start = Instant::now();
        let megabytes = drained(command, |_| {});
        self.piped = self.piped.min(start.elapsed().as_secs_f64());
        self.megabytes = self.megabytes.max(megabytes);
    }
}

fn both() -> (Best, Option<Best>) {
    let mut ours = Command::new(program::PATH);
    let mut theirs = Command::new(env::current_exe().unwrap());
    theirs.arg(RUST);
    let (mut ours_best, mut theirs_best) = (Best::none(), cfg!(quiver).then(Best::none));
    if theirs_best.is_some() {
        assert!(text(&mut ours) == text(&mut theirs), "the Rust prints another text");
    }
    for _ in 0..RUNS {
        ours_best.take(&mut ours);
        if let Some(best) = &mut theirs_best {
            best.take(&mut theirs);
        }
    }
    (ours_best, theirs_best)
}

fn started(command: &mut Command, out: Stdio) -> Child {
    let mut run = command.stdin(Stdio::piped()).stdout(out).spawn().unwrap();
    run.stdin.take().unwrap().write_all(SCORE.as_bytes()).unwrap();
    run
}

fn text(command: &mut Command) -> Vec<u8> {
    let mut text = vec![];
    drained(command, |part| text.extend_from_slice(part));
    text
}

/// Reads all that a program prints, and asks now and then for the most memory that it had until then.
fn drained(command: &mut Command, mut take: impl FnMut(&[u8])) -> f64 {
    let mut run = started(command, Stdio::piped());
    let (mut out, mut part) = (run.stdout.take().unwrap(), vec![0; 1 << 16]);
    let mut megabytes = 0.0;
    for i in 0.. {
        if i % 64 == 0 {
            megabytes = peak(run.id()).unwrap_or(megabytes);
        }
        match out.read(&mut part).unwrap() {
            0 => break,
            n => take(&part[..n]),
        }
    }
    assert!(run.wait().unwrap().success());
    megabytes
}

/// The most memory that a process had, while it runs.
fn peak(id: u32) -> Option<f64> {
    let status = fs::read_to_string(format!("/proc/{id}/status")).ok()?;
    let line = status.lines().find_map(|line| line.strip_prefix("VmHWM:"))?;
    Some(line.trim().strip_suffix(" kB")?.parse::<f64>().ok()? / 1024.0)
}
