//! A score: `osc`, `hz`, `gate`, which may be left out, `frames` and the oscillator's inputs, a line each.
use std::ops::RangeInclusive;
use Refusal::{Form, Line, Long, Range};

/// Bytes that a score may have.
pub const LIMIT: usize = 1024;

/// Microvolts either way that an input may have.
pub const LARGEST: i64 = 10_000_000;

/// What numbers may be.
pub const HZ: RangeInclusive<i64> = 1000..=192_000;
pub const GATE: RangeInclusive<i64> = 1..=2;
pub const FRAMES: RangeInclusive<i64> = 1..=480_000;
pub const MICROVOLTS: RangeInclusive<i64> = -LARGEST..=LARGEST;

/// Why a score is refused, by the scope's numbers.
#[derive(Clone, Copy, PartialEq, Eq, Debug)]
pub enum Refusal {
    /// More than `LIMIT` bytes.
    Long = 20,
    /// A wrong, missing or extra line, or an oscillator that isn't known.
    Line = 21,
    /// No number as a score writes it.
    Form = 22,
    /// A number out of its range.
    Range = 23,
}

/// An oscillator's name in a score, and its ports in the Rust's order; behind these stands `eoc`, which the Rust hasn't.
#[derive(PartialEq, Debug)]
pub struct Osc {
    pub name: &'static str,
    pub inputs: &'static [&'static str],
    pub outputs: &'static [&'static str],
}

pub const VCO: Osc =
    Osc { name: "vco", inputs: &["voct", "fm", "pw", "sync", "fm_lin"], outputs: &["sin", "tri", "saw", "sqr"] };
pub const LFO: Osc =
    Osc { name: "lfo", inputs: &["rate", "depth", "reset"], outputs: &["sin", "tri", "saw", "sqr", "sin_uni", "eoc"] };
pub const SUPERSAW: Osc = Osc { name: "supersaw", inputs: &["voct", "detune", "mix"], outputs: &["out", "sub"] };
pub const FORMANT: Osc =
    Osc { name: "formant", inputs: &["v_oct", "vowel", "formant_shift", "vibrato"], outputs: &["out"] };

/// The oscillators that a score can name.
pub static ALL: [Osc; 4] = [VCO, LFO, SUPERSAW, FORMANT];

#[derive(Clone, PartialEq, Debug)]
pub struct Score {
    pub osc: &'static Osc,
    pub hz: u32,
    /// The issue of the bank that it is from; none where no line says it.
    pub gate: Option<u32>,
    pub frames: u32,
    /// In the order of the inputs; none where one is `nan`.
    pub microvolts: Vec<Option<i32>>,
}

impl Score {
    /// Volts that a gate must rise above. Where no line says it, issue 1 holds.
    pub fn threshold(&self) -> f64 {
        match self.gate {
            Some(2) => 1.0,
            _ => 2.5,
        }
    }

    /// Volts, in the order of the inputs.
    pub fn controls(&self) -> Vec<f64> {
        let volts = |microvolts| f64::from(microvolts) / 1_000_000.0;
        self.microvolts.iter().map(|input| input.map_or(f64::NAN, volts)).collect()
    }
}

/// Reads a score. The first line that is wrong decides the refusal.
pub fn read(text: &[u8]) -> Result<Score, Refusal> {
    if text.len() > LIMIT {
        return Err(Long);
    }
    let mut lines = Lines(text);
    let name = lines.value("osc")?;
    let osc = ALL.iter().find(|osc| osc.name.as_bytes() == name).ok_or(Line)?;
    let hz = within(HZ, number(lines.value("hz")?)?)? as u32;
    let gate = lines.value_if("gate").map(|value| within(GATE, number(value)?)).transpose()?;
    let frames = within(FRAMES, number(lines.value("frames")?)?)? as u32;
    let microvolts = osc.inputs.iter().map(|key| microvolts(lines.value(key)?)).collect::<Result<_, _>>()?;
    if lines.0.is_empty() {
        Ok(Score { osc, hz, gate: gate.map(|issue| issue as u32), frames, microvolts })
    } else {
        Err(Line)
    }
}

/// The text that is read as a score. A number out of its range is refused.
pub fn write(score: &Score) -> Result<String, Refusal> {
    let (hz, frames) = (within(HZ, score.hz.into())?, within(FRAMES, score.frames.into())?);
    let gate = match score.gate {
        Some(issue) => format!("gate={}\n", within(GATE, issue.into())?),
        None => String::new(),
    };
    let mut text = format!("osc={}\nhz={hz}\n{gate}frames={frames}\n", score.osc.name);
    for (key, input) in score.osc.inputs.iter().zip(&score.microvolts) {
        let value = match *input {
            Some(microvolts) => within(MICROVOLTS, microvolts.into())?.to_string(),
            None => "nan".into(),
        };
        text += &format!("{key}={value}\n");
    }
    Ok(text)
}

/// What is left of a score.
struct Lines<'a>(&'a [u8]);

impl<'a> Lines<'a> {
    /// The value of the next line, which must have this key and its line feed.
    fn value(&mut self, key: &str) -> Result<&'a [u8], Refusal> {
        let end = self.0.iter().position(|&byte| byte == b'\n').ok_or(Line)?;
        let (line, rest) = self.0.split_at(end);
        self.0 = &rest[1..];
        line.strip_prefix(key.as_bytes()).and_then(|line| line.strip_prefix(b"=")).ok_or(Line)
    }

    /// The same, if the next line has this key; else it is still the next.
    fn value_if(&mut self, key: &str) -> Option<&'a [u8]> {
        let mut lines = Lines(self.0);
        let value = lines.value(key).ok()?;
        *self = lines;
        Some(value)
    }
}

/// A number of at most 12 digits, written in the one way that it has.
fn number(value: &[u8]) -> Result<i64, Refusal> {
    let (sign, digits) = match value.strip_prefix(b"-") {
        Some(digits) => (-1, digits),
        None => (1, value),
    };
    let said = matches!(digits.len(), 1..=12) && digits.iter().all(u8::is_ascii_digit);
    if !said || (digits[0] == b'0' && value != b"0") {
        return Err(Form);
    }
    Ok(sign * digits.iter().fold(0, |n, digit| 10 * n + i64::from(digit - b'0')))
}

fn within(range: RangeInclusive<i64>, n: i64) -> Result<i64, Refusal> {
    if range.contains(&n) {
        Ok(n)
    } else {
        Err(Range)
    }
}

/// An input: microvolts, or `nan`.
fn microvolts(value: &[u8]) -> Result<Option<i32>, Refusal> {
    if value == b"nan" {
        return Ok(None);
    }
    let microvolts = within(MICROVOLTS, number(value)?)?;
    Ok(Some(microvolts as i32))
}
