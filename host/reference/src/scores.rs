//! Scores drawn from a seed: good ones, damaged ones, and texts that are hardly scores; and values for scores, good and out of range.
use crate::score::{write, Score, ALL, FRAMES, HZ, LARGEST, LIMIT, MICROVOLTS};
use compare::draw::Draw;
use std::ops::RangeInclusive;

/// A whole number from `lo` to `hi`.
fn whole(draw: &mut Draw, lo: i64, hi: i64) -> i64 {
    lo + draw.below((hi - lo + 1) as u64) as i64
}

/// An input: mostly a number from a usual range, else a place where some rule changes, or `nan`.
fn control(draw: &mut Draw) -> Option<i32> {
    const CORNERS: [i64; 13] =
        [0, 1, -1, 50_000, 500_000, 950_000, 1_000_000, 1_000_001, 1_500_000, 2_500_000, 2_500_001, 5_000_000, LARGEST];
    let microvolts = match draw.below(12) {
        0 => return None,
        1..=3 => draw.of(&CORNERS),
        4 => -draw.of(&CORNERS),
        5..=7 => whole(draw, 0, 1_000_000),
        8 => whole(draw, -1_000_000, 1_000_000),
        _ => whole(draw, -LARGEST, LARGEST),
    };
    Some(microvolts as i32)
}

/// What a line of `gate` says; as often there is none.
fn gate(draw: &mut Draw) -> Option<u32> {
    draw.of(&[None, None, Some(1), Some(2)])
}

/// A score that isn't refused: mostly of few frames, now and then of some thousand.
pub fn good(draw: &mut Draw) -> Vec<u8> {
    let frames = match draw.below(200) {
        0 => whole(draw, 1000, 5000),
        1..=20 => whole(draw, 9, 300),
        _ => whole(draw, 1, 8),
    };
    of_frames(frames, draw)
}

fn of_frames(frames: i64, draw: &mut Draw) -> Vec<u8> {
    let osc = &ALL[draw.below(4) as usize];
    let hz = match draw.below(6) {
        0 => 1000,
        1 => 192_000,
        2 => 44_100,
        3 => 48_000,
        _ => whole(draw, 1000, 192_000),
    };
    let gate = gate(draw);
    let microvolts = osc.inputs.iter().map(|_| control(draw)).collect();
    let score = Score { osc, hz: hz as u32, gate, frames: frames as u32, microvolts };
    write(&score).expect("numbers in their ranges").into_bytes()
}

/// Values for a score, of which most are in their ranges.
pub fn values(draw: &mut Draw) -> Score {
    let osc = &ALL[draw.below(4) as usize];
    let unsigned = u32::MIN.into()..=u32::MAX.into();
    let hz = odd(HZ, &unsigned, draw) as u32;
    let gate = gate(draw);
    let frames = odd(FRAMES, &unsigned, draw) as u32;
    let mut input = || {
        let microvolts = odd(MICROVOLTS, &(i32::MIN.into()..=i32::MAX.into()), draw) as i32;
        (!draw.one_in(8)).then_some(microvolts)
    };
    let microvolts = osc.inputs.iter().map(|_| input()).collect();
    Score { osc, hz, gate, frames, microvolts }
}

/// A number: mostly in its range, now and then of few digits, or an end of it; else one past an end, or any that its type can hold.
fn odd(range: RangeInclusive<i64>, of_type: &RangeInclusive<i64>, draw: &mut Draw) -> i64 {
    let ((lo, hi), (least, most)) = (range.into_inner(), of_type.clone().into_inner());
    match draw.below(40) {
        0 => draw.of(&[lo - 1, hi + 1]),
        1 => draw.of(&[least, 0, most]),
        2 => whole(draw, least, most),
        3..=8 => draw.of(&[lo, hi]),
        9..=20 => (whole(draw, lo, hi) / 10_i64.pow(draw.below(8) as u32)).clamp(lo, hi),
        _ => whole(draw, lo, hi),
    }
}

/// A score of one frame with some damage, mostly at one place. A few are good all the same.
pub fn damaged(draw: &mut Draw) -> Vec<u8> {
    let mut text = of_frames(1, draw);
    let times = if draw.one_in(4) { 3 } else { 1 };
    for _ in 0..times {
        damage(&mut text, draw);
    }
    text
}

/// Values that a score refuses, or nearly, between bars.
const VALUES: &str = "|-|-0|+1|00|01|-01|1e3|0x10|1.0| 1|1 |1\r|nan|NaN|-nan|nan |999|480001\
                      |10000001|-10000001|999999999999|1000000000000";

/// Values of a line of `gate`: both issues, numbers that are none, and no numbers.
const GATES: &str = "1|2|0|3|-1|nan||01|0000000000001|1000000000000";

/// One of those between bars.
fn between_bars(values: &'static str, draw: &mut Draw) -> &'static str {
    let values: Vec<&str> = values.split('|').collect();
    draw.of(&values)
}

fn damage(text: &mut Vec<u8>, draw: &mut Draw) {
    let place = |draw: &mut Draw, text: &Vec<u8>| draw.below(text.len() as u64 + 1) as usize;
    let at = place(draw, text);
    match draw.below(12) {
        0 | 1 if at < text.len() => text[at] ^= 1 << draw.below(8),
        2 if at < text.len() => text[at] = draw.bits() as u8,
        3 if at < text.len() => drop(text.remove(at)),
        4 => text.truncate(at),
        5 => text.insert(at, draw.bits() as u8),
        6 => text.insert(at, draw.of(b"\n\r \t=-+.0159nan\0\xef")),
        7 => {
            // from a few bytes short of the limit to a few beyond it
            let length = LIMIT as u64 - 4 + draw.below(9);
            let byte = draw.of(b"0 \n=");
            text.resize(length as usize, byte);
        }
        _ => lines(text, draw),
    }
}

/// Doubles, drops, swaps or moves lines, puts one of `gate` anywhere, or changes a value.
fn lines(text: &mut Vec<u8>, draw: &mut Draw) {
    let mut lines: Vec<Vec<u8>> = text.split_inclusive(|&byte| byte == b'\n').map(<[u8]>::to_vec).collect();
    if lines.is_empty() {
        return;
    }
    let any = |draw: &mut Draw| draw.below(lines.len() as u64) as usize;
    let (i, j) = (any(draw), any(draw));
    match draw.below(8) {
        0 => lines.insert(i, lines[j].clone()),
        1 => drop(lines.remove(i)),
        2 => lines.swap(i, j),
        3 | 4 => {
            // where it belongs as often as elsewhere
            let at = draw.of(&[i, lines.len(), 2.min(lines.len()), 2.min(lines.len())]);
            lines.insert(at, format!("gate={}\n", between_bars(GATES, draw)).into_bytes());
        }
        _ => {
            if let Some(equals) = lines[i].iter().position(|&byte| byte == b'=') {
                lines[i].truncate(equals + 1);
                lines[i].extend(between_bars(VALUES, draw).bytes());
                lines[i].push(b'\n');
            }
        }
    }
    *text = lines.concat();
}

/// Any text: a good score, a damaged one, one with odd numbers, one that is changed as a whole, or bytes that are no score.
pub fn any(draw: &mut Draw) -> Vec<u8> {
    match draw.below(16) {
        0 | 1 => of_any_frames(draw),
        2..=5 => damaged(draw),
        6..=11 => renumbered(draw),
        12..=14 => reshaped(draw),
        _ => noise(draw),
    }
}

fn of_any_frames(draw: &mut Draw) -> Vec<u8> {
    let frames = whole(draw, 1, 480_000);
    of_frames(frames, draw)
}

/// A score with one or two other values.
fn renumbered(draw: &mut Draw) -> Vec<u8> {
    let mut text = of_any_frames(draw);
    for _ in 0..=draw.below(2) {
        let equals: Vec<usize> = (0..text.len()).filter(|&i| text[i] == b'=').collect();
        let start = draw.of(&equals) + 1;
        let end = start + text[start..].iter().position(|&byte| byte == b'\n').unwrap_or(0);
        text.splice(start..end, odd_number(draw));
    }
    text
}

/// A number at an end of a range, of 12 digits or of a machine's word, or one beside it, or any; mostly as a score writes it, else
/// with signs, zeros or bytes that don't belong to it.
fn odd_number(draw: &mut Draw) -> Vec<u8> {
    const ENDS: [u64; 11] =
        [0, 1, 2, 1000, 192_000, 480_000, LARGEST as u64, 1_000_000_000_000, 1 << 31, 1 << 32, 1 << 63];
    let size = match draw.below(5) {
        0 => draw.bits() >> draw.below(64),
        _ => draw.of(&ENDS).wrapping_add(draw.below(3)).wrapping_sub(1),
    };
    let before: &[u8] = match draw.below(8) {
        0 | 1 => b"-",
        2 => draw.of(&[b"+".as_slice(), b"--", b"-+", b"0", b"00", b"-0", b" ", b"\0", b"\xef\xbb\xbf"]),
        _ => b"",
    };
    let after: &[u8] = match draw.below(16) {
        0 => draw.of(&[b"\r".as_slice(), b" ", b"\0", b"\x80", b".0", b"e3", b"=", b"-", b"nan"]),
        _ => b"",
    };
    [before, size.to_string().as_bytes(), after].concat()
}

/// A score whose lines, line ends, names or length are changed as a whole.
fn reshaped(draw: &mut Draw) -> Vec<u8> {
    let mut text = of_any_frames(draw);
    let replaced = |text: &[u8], old: u8, new: &[u8]| -> Vec<u8> {
        text.iter().flat_map(|&byte| if byte == old { new.to_vec() } else { vec![byte] }).collect()
    };
    match draw.below(9) {
        0 => text = replaced(&text, b'\n', draw.of(&[b"\r\n".as_slice(), b"\n\n", b"\r", b" \n", b"\n\0", b"\0\n"])),
        1 => text = replaced(&text, b'=', draw.of(&[b"==".as_slice(), b" =", b"= ", b":", b""])),
        2 => drop(text.pop()),
        3 => text.make_ascii_uppercase(),
        4 => text.extend(of_any_frames(draw)),
        5 => {
            // another oscillator's name over these inputs
            let end = text.iter().position(|&byte| byte == b'\n').unwrap();
            let name = ALL[draw.below(4) as usize].name;
            text.splice(4..end, name.bytes());
        }
        6 => {
            // bytes put in somewhere, from a few short of the limit to a few beyond it
            let length = LIMIT - 4 + draw.below(9) as usize;
            let at = draw.below(text.len() as u64 + 1) as usize;
            let byte = draw.of(b"0 \n=x\0\xff");
            text.splice(at..at, vec![byte; length - text.len()]);
        }
        7 => {
            let mut lines: Vec<&[u8]> = text.split_inclusive(|&byte| byte == b'\n').collect();
            let first = draw.below(lines.len() as u64) as usize;
            lines.rotate_left(first);
            text = lines.concat();
        }
        _ => text.clear(),
    }
    text
}

/// Any bytes, or letters of scores, up to the limit or a few beyond it.
fn noise(draw: &mut Draw) -> Vec<u8> {
    let length = match draw.below(4) {
        0 => LIMIT as u64 - 4 + draw.below(9),
        1 => draw.below(1100),
        _ => draw.below(64),
    };
    let letters = draw.one_in(2);
    let byte = |draw: &mut Draw| {
        if letters {
            draw.of(b"osc=vco\nhz=48000\ngate=2\nframes=1\nnan-0")
        } else {
            draw.bits() as u8
        }
    };
    (0..length).map(|_| byte(draw)).collect()
}
