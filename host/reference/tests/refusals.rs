//! Scores and the number that each is refused by, written by hand from the scope; 0 says that it is played.
use reference::score::read;
use std::ops::RangeBounds;

/// The number by what the program prints.
fn printed(score: &[u8]) -> u32 {
    let text = program::render(score);
    match text.strip_prefix(b"refused=") {
        Some(number) => std::str::from_utf8(number).unwrap().strip_suffix('\n').unwrap().parse().unwrap(),
        None => {
            assert!(text.starts_with(b"n=0\nmark="), "{}", text.escape_ascii());
            0
        }
    }
}

/// Holds the program and the reference to the number.
#[track_caller]
fn is(score: impl AsRef<[u8]>, number: u32) {
    let score = score.as_ref();
    assert_eq!(printed(score), number, "render, of {}", score.escape_ascii());
    assert_eq!(read(score).map_or_else(|refusal| refusal as u32, |_| 0), number, "{}", score.escape_ascii());
}

const VCO: &str = "osc=vco\nhz=48000\nframes=2\nvoct=0\nfm=0\npw=500000\nsync=0\nfm_lin=0\n";
const LFO: &str = "osc=lfo\nhz=48000\nframes=2\nrate=500000\ndepth=10000000\nreset=0\n";
const SUPERSAW: &str = "osc=supersaw\nhz=48000\nframes=2\nvoct=0\ndetune=500000\nmix=500000\n";
const FORMANT: &str = "osc=formant\nhz=48000\nframes=2\nv_oct=0\nvowel=0\nformant_shift=0\nvibrato=0\n";
const ALL: [&str; 4] = [VCO, LFO, SUPERSAW, FORMANT];

/// A score with this line after `hz`, where one of `gate` may stand.
fn gated(score: &str, line: &str) -> String {
    score.replace("\nframes=", &format!("\n{line}\nframes="))
}

/// The score of the Vco with one piece of it, which it has once, replaced.
fn with(old: &str, new: &str) -> String {
    assert_eq!(VCO.matches(old).count(), 1, "{old}");
    VCO.replace(old, new)
}

#[test]
fn good_ones_are_played() {
    for score in ALL {
        is(score, 0);
        is(gated(score, "gate=1"), 0);
        is(gated(score, "gate=2"), 0);
    }
}

#[test]
fn whole_texts() {
    let cases: [(u32, &[u8]); 27] = [
        (21, b""),
        (21, b"\n"),
        (21, b"\n\n"),
        (21, b"\r\n"),
        (21, b"\0"),
        (21, b"\0\0\0\n"),
        (21, b"="),
        (21, b"=\n"),
        (21, b"osc"),
        (21, b"osc\n"),
        (21, b"osc=\n"),
        (21, b"osc=vco"),
        (21, b"osc=vco\n"),
        (21, b"osc=vco\nhz=48000"),
        (22, b"osc=vco\nhz=48000 \n"),
        (23, b"osc=vco\nhz=1\n"),
        (21, b"osc=vco\nhz=1"),
        (21, b"osc=vco\nhz=48000\n"),
        (21, b"osc=vco\nhz=48000\ngate=1"),
        (21, b"osc=vco\nhz=48000\ngate=3"),
        (21, b"osc=vco\nhz=48000\ngate=1\n"),
        (22, b"osc=vco\nhz=48000\ngate=nan\n"),
        (23, b"osc=vco\nhz=48000\ngate=3\n"),
        (21, b"osc=vco\nhz=48000\nframes=1\n"),
        (21, b"osc=vco\nhz=48000\nframes=1\nvoct=0\nfm=0\npw=0\nsync=0\n"),
        (21, b"\xff\xfe"),
        (21, b"hz=48000\n"),
    ];
    for (number, text) in cases {
        is(text, number);
    }
    println!("{} texts", cases.len());
}

#[test]
fn around_a_good_score() {
    let mut n = 0;
    for score in ALL {
        let cases = [
            (21, score[..score.len() - 1].to_owned()), // without its last line feed
            (21, score[1..].to_owned()),
            (21, format!("{score}\n")),
            (21, format!("{score}\r")),
            (21, format!("{score} ")),
            (21, format!("{score}\0")),
            (21, format!("{score}x=1\n")),
            (21, format!("{score}{score}")),
            (21, format!("\n{score}")),
            (21, format!(" {score}")),
            (21, format!("\u{feff}{score}")), // a byte order mark
            (21, format!("# a note\n{score}")),
            (21, score.replace('\n', "\r\n")),
            (21, score.replace('\n', "\r")),
            (21, score.replace('\n', "\n\n")),
            (21, score.replace('\n', " ")),
            (21, score.replace('=', " = ")),
            (21, score.replace('=', ":")),
            (21, score.to_uppercase()),
            (21, score.replace("osc=", "OSC=")),
            (21, score.replace("osc=", "osc= ")),
            (21, score.replace("osc=", "osc==")),
            (21, score.replace("osc=", "name=")),
        ];
        n += cases.len();
        cases.into_iter().for_each(|(number, text)| is(text, number));
    }
    println!("{n} texts");
}

#[test]
fn names_of_oscillators() {
    let names = "|VCO|Vco|vc|vco |vco\r|vco\0|vcoo|\"vco\"|vco=vco|noise|string|wavetable|karplus|karplus_strong\
                 |formant_osc|saw|nan|0";
    for name in names.split('|') {
        is(with("osc=vco", &format!("osc={name}")), 21);
    }
    // another oscillator's name over these inputs: 21 at the first that isn't its own, and a bad line before it goes first
    for name in ["lfo", "supersaw", "formant"] {
        is(with("osc=vco", &format!("osc={name}")), 21);
        is(with("osc=vco\nhz=48000", &format!("osc={name}\nhz=999")), 23);
        is(with("osc=vco\nhz=48000\nframes=2", &format!("osc={name}\nhz=48000\nframes=02")), 22);
    }
    is(with("osc=vco\nhz=48000\nframes=2\nvoct=0", "osc=supersaw\nhz=48000\nframes=2\nvoct=10000001"), 23);
    is(FORMANT.replace("v_oct", "voct"), 21);
    is(SUPERSAW.replace("voct", "v_oct"), 21);
    println!("{} names", names.split('|').count());
}

#[test]
fn lines() {
    let cases = [
        // missing, doubled, swapped, extra
        (21, "hz=48000\n", ""),
        (21, "frames=2\n", ""),
        (21, "voct=0\n", ""),
        (21, "\nfm=0", ""),
        (21, "fm_lin=0\n", ""),
        (21, "hz=48000\n", "hz=48000\nhz=48000\n"),
        (21, "sync=0\n", "sync=0\nsync=0\n"),
        (21, "hz=48000\nframes=2\n", "frames=2\nhz=48000\n"),
        (21, "voct=0\nfm=0\n", "fm=0\nvoct=0\n"),
        (21, "sync=0\nfm_lin=0\n", "fm_lin=0\nsync=0\n"),
        (21, "frames=2\n", "frames=2\n\n"),
        (21, "frames=2\n", "frames=2\n# a note\n"),
        // keys
        (21, "hz=", "Hz="),
        (21, "hz=", "HZ="),
        (21, "hz=", " hz="),
        (21, "hz=", "hz ="),
        (21, "hz=", "h="),
        (21, "hz=", "hzz="),
        (21, "hz=", "\0hz="),
        (21, "hz=", "hz\0="),
        (21, "hz=", "="),
        (21, "hz=", "hz"),
        (21, "hz=", "hz:"),
        (21, "hz=48000", "48000"),
        (21, "voct=", "rate="),
        (21, "voct=", "v_oct="),
        (21, "fm_lin=", "fmlin="),
        (21, "\nfm=", "\nfm_lin="),
        (21, "pw=", "p\u{200b}w="),
        // line feeds in the wrong place, or none
        (21, "osc=vco\n", "osc=vco"),
        (22, "hz=48000\n", "hz=48000"),
        (22, "pw=500000\n", "pw=500000"),
        (21, "hz=48000\n", "hz\n=48000\n"),
        (22, "hz=48000\n", "hz=\n48000\n"),
        (23, "hz=48000\n", "hz=480\n00\n"),
        (22, "hz=48000\n", "hz=48000\r\n"),
        (22, "fm_lin=0\n", "fm_lin=0\r\n"),
        // the first wrong line decides, whatever its number and those after it
        (23, "hz=48000\nframes=2", "hz=999\nframes=x"),
        (22, "hz=48000\nframes=2", "hz=x\nframes=0"),
        (23, "hz=48000\nframes=2\n", "hz=999\n"),
        (22, "hz=48000\nframes=2\n", "hz=\n"),
        (21, "hz=48000\nframes=2", "hertz=x\nframes=0"),
        (23, "sync=0\nfm_lin=0\n", "sync=10000001\nfm_lin=0"),
        (22, "sync=0\nfm_lin=0\n", "sync=00\nfm_lin=0\nx=1\n"),
        // a gate in another place, or twice
        (21, "osc=vco\n", "gate=1\nosc=vco\n"),
        (21, "osc=vco\n", "osc=vco\ngate=1\n"),
        (21, "frames=2\n", "frames=2\ngate=1\n"),
        (21, "voct=0\n", "voct=0\ngate=2\n"),
        (21, "sync=0\n", "gate=2\nsync=0\n"),
        (21, "fm_lin=0\n", "fm_lin=0\ngate=1\n"),
        (21, "hz=48000\n", "gate=1\n"),
        (21, "frames=2\n", "gate=1\n"),
        (21, "hz=48000\n", "hz=48000\ngate=1\ngate=1\n"),
        (21, "hz=48000\n", "hz=48000\ngate=1\ngate=2\n"),
        (21, "hz=48000\n", "hz=48000\ngate=2\ngate=nan\n"),
        (21, "hz=48000\n", "hz=48000\ngate=2\nhz=48000\n"),
        (21, "hz=48000\n", "hz=48000\ngate=2\n\n"),
        // its key
        (21, "hz=48000\n", "hz=48000\nGate=1\n"),
        (21, "hz=48000\n", "hz=48000\nGATE=1\n"),
        (21, "hz=48000\n", "hz=48000\n gate=1\n"),
        (21, "hz=48000\n", "hz=48000\ngate =1\n"),
        (21, "hz=48000\n", "hz=48000\ngates=1\n"),
        (21, "hz=48000\n", "hz=48000\ngat=1\n"),
        (21, "hz=48000\n", "hz=48000\ngate:1\n"),
        (21, "hz=48000\n", "hz=48000\ngate\n"),
        (21, "hz=48000\n", "hz=48000\nissue=1\n"),
        // among lines that are wrong, or without its line feed
        (23, "hz=48000\n", "hz=48000\ngate=3\ngate=1\n"),
        (22, "hz=48000\n", "hz=48000\ngate=\ngate=1\n"),
        (23, "hz=48000\n", "hz=999\ngate=nan\n"),
        (22, "hz=48000\nframes=2", "hz=48000\ngate=01\nframes=0"),
        (23, "hz=48000\nframes=2", "hz=48000\ngate=2\nframes=0"),
        (22, "hz=48000\n", "hz=48000\ngate=1"),
        (22, "hz=48000\n", "hz=48000\ngate=1\r\n"),
        // a line without its feed is no line, whatever its number
        (21, "fm_lin=0\n", "fm_lin=00"),
        (21, "fm_lin=0\n", "fm_lin=10000001"),
        (21, "fm_lin=0\n", "fm_lin="),
        (22, "fm_lin=0\n", "fm_lin=\n"),
    ];
    for (number, old, new) in cases {
        is(with(old, new), number);
    }
    println!("{} scores", cases.len());
}

/// Values that no line of a number takes, between bars.
const BAD_FORMS: &[u8] =
    b"| |-|+|--1|-+1|+-1|+1|+0|-0|00|-00|01|-01|048000|1-|1 | 1|1\t|1\r|1\0|\0|1\x80|\xff|\xef\xbc\x91\
    |1.0|1,000|1_000|1e3|0x10|1e|=1|1=1|NaN|NAN|nan | nan|-nan|nan0|na|nann|inf\
    |1000000000000|-1000000000000|000000000000|0000000048000|18446744073709551616|18446744073709599616";

/// Values, and the numbers that they are refused by as `hz`, `gate`, `frames` and an input.
const RANGES: [(&str, [u32; 4]); 20] = [
    ("nan", [22, 22, 22, 0]),
    ("0", [23, 23, 23, 0]),
    ("1", [23, 0, 0, 0]),
    ("2", [23, 0, 0, 0]),
    ("3", [23, 23, 0, 0]),
    ("-1", [23, 23, 23, 0]),
    ("-5", [23, 23, 23, 0]),
    ("7", [23, 23, 0, 0]),
    ("999", [23, 23, 0, 0]),
    ("1000", [0, 23, 0, 0]),
    ("-1000", [23, 23, 23, 0]),
    ("192000", [0, 23, 0, 0]),
    ("192001", [23, 23, 0, 0]),
    ("480001", [23, 23, 23, 0]),
    ("10000000", [23, 23, 23, 0]),
    ("-10000000", [23, 23, 23, 0]),
    ("10000001", [23, 23, 23, 23]),
    ("-10000001", [23, 23, 23, 23]),
    ("999999999999", [23, 23, 23, 23]),
    ("-999999999999", [23, 23, 23, 23]),
];

/// Every line of every oscillator's score with another value; of one with a gate the two lines from there on.
#[test]
fn values() {
    let n: usize =
        ALL.into_iter().map(|score| other_values(score, 1..) + other_values(&gated(score, "gate=1"), 2..4)).sum();
    println!("{n} scores");
}

/// Tries other values for these lines of a score, and says how many.
fn other_values(score: &str, tried: impl RangeBounds<usize>) -> usize {
    let mut n = 0;
    let lines: Vec<&str> = score.split_inclusive('\n').collect();
    for (i, line) in lines.iter().enumerate().filter(|(i, _)| tried.contains(i)) {
        let key = line.split_inclusive('=').next().unwrap();
        let column = ["hz=", "gate=", "frames="].iter().position(|its| *its == key).unwrap_or(3);
        let (before, after) = (lines[..i].concat(), lines[i + 1..].concat());
        let mut put = |value: &[u8], number| {
            is([before.as_bytes(), key.as_bytes(), value, b"\n", after.as_bytes()].concat(), number);
            n += 1;
        };
        BAD_FORMS.split(|&byte| byte == b'|').for_each(|value| put(value, 22));
        RANGES.iter().for_each(|(value, numbers)| put(value.as_bytes(), numbers[column]));
    }
    n
}

/// 1,024 bytes are read and refused for what they say; 1,025 are too many, whatever they say.
#[test]
fn lengths() {
    let mut n = 0;
    // what a score is filled up with, and what it is refused by before it is too long
    let cases = [
        (21, VCO, "\n"),
        (21, VCO, "x"),
        (21, VCO, "\0"),
        (21, "", "\0"),
        (21, "", "\n"),
        (21, "", "x"),
        (21, "osc=", "vco"),
        (22, "osc=vco\nhz=48000 \n", "0"),
        (23, "osc=vco\nhz=999\n", "0"),
        (21, "osc=vco\nhz=48000", "0"), // the line never ends
    ];
    for (number, start, fill) in cases {
        let long = format!("{start}{}", fill.repeat(200_000));
        for (length, number) in [(1023, number), (1024, number), (1025, 20), (1026, 20), (65536, 20), (200_000, 20)] {
            is(&long[..length], number);
            n += 1;
        }
    }
    println!("{n} texts");
}
