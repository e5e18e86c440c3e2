//! Drawn texts and values given to the proved reader and writer of scores and to the reference's own, which must find the same.
use crate::score::{read, write, Refusal, Score, FRAMES, HZ, MICROVOLTS};
use crate::{ours, scores};
use compare::draw::Draw;
use compare::script::alike;
use gruttisol::answer::Refused;
use gruttisol::score::Score as Ours;
use std::fmt;

/// So many of something drawn from a seed. The error is the first difference.
pub type Run = fn(u64, u64) -> Result<Counts, String>;

/// What is of a kind, and how it is called.
type Kind<T> = (&'static str, fn(&T) -> bool);

/// How much of each kind was compared.
pub struct Counts(Vec<(&'static str, u64)>);

impl Counts {
    fn of<T>(kinds: &[Kind<T>]) -> Self {
        Counts(kinds.iter().map(|&(name, _)| (name, 0)).collect())
    }

    fn take<T>(&mut self, kinds: &[Kind<T>], it: &T) {
        for ((_, n), (_, is)) in self.0.iter_mut().zip(kinds) {
            *n += u64::from(is(it));
        }
    }

    /// The kinds that were never met.
    pub fn unmet(&self) -> Vec<&'static str> {
        self.0.iter().filter(|(_, n)| *n == 0).map(|(name, _)| *name).collect()
    }
}

impl fmt::Display for Counts {
    fn fmt(&self, f: &mut fmt::Formatter<'_>) -> fmt::Result {
        let counts: Vec<String> = self.0.iter().map(|(name, n)| format!("{n} {name}")).collect();
        f.write_str(&counts.join(", "))
    }
}

/// A run of the gate. It prints what was compared.
#[track_caller]
pub fn gate(run: Run, n: u64) {
    match run(1, n) {
        Ok(counts) => {
            println!("{counts}; no difference");
            assert_eq!(counts.unmet(), [""; 0], "never met");
        }
        Err(difference) => panic!("{difference}"),
    }
}

/// A drawn text, by what the reference reads.
struct Text {
    score: Result<Score, Refusal>,
    /// Whether it is refused for a line of `gate`: without such lines it is a score.
    for_gate: bool,
}

impl Text {
    fn of(text: &[u8]) -> Self {
        let lines = text.split_inclusive(|&byte| byte == b'\n');
        let without_gate: Vec<u8> = lines.filter(|line| !line.starts_with(b"gate=")).flatten().copied().collect();
        let score = read(text);
        Text { for_gate: score.is_err() && read(&without_gate).is_ok(), score }
    }

    fn says(&self, gate: Option<u32>) -> bool {
        self.score.as_ref().is_ok_and(|score| score.gate == gate)
    }

    fn is_refused_by(&self, refusal: Refusal) -> bool {
        self.score == Err(refusal)
    }
}

const TEXTS: [Kind<Text>; 12] = [
    ("texts", |_| true),
    ("read and written back", |text| text.score.is_ok()),
    ("without a gate", |text| text.says(None)),
    ("with gate=1", |text| text.says(Some(1))),
    ("with gate=2", |text| text.says(Some(2))),
    ("refused by 20", |text| text.is_refused_by(Refusal::Long)),
    ("by 21", |text| text.is_refused_by(Refusal::Line)),
    ("by 22", |text| text.is_refused_by(Refusal::Form)),
    ("by 23", |text| text.is_refused_by(Refusal::Range)),
    ("for a line of gate by 21", |text| text.for_gate && text.is_refused_by(Refusal::Line)),
    ("for it by 22", |text| text.for_gate && text.is_refused_by(Refusal::Form)),
    ("for it by 23", |text| text.for_gate && text.is_refused_by(Refusal::Range)),
];

/// Drawn texts: both read the same of each, and what ours read it writes back as the same bytes.
pub fn texts(seed: u64, texts: u64) -> Result<Counts, String> {
    let (mut draw, mut counts) = (Draw::new(seed), Counts::of(&TEXTS));
    for _ in 0..texts {
        let text = scores::any(&mut draw);
        let (ours, theirs) = (Ours::parse(&text), Text::of(&text));
        let same = match (&ours, &theirs.score) {
            (Ok(ours), Ok(theirs)) => says(ours, theirs) && ours.to_string().as_bytes() == text,
            (Err(Refused(number)), Err(refusal)) => *number == *refusal as u32,
            _ => false,
        };
        if !same {
            return Err(format!("text {}: {ours:?}, and the reference has {:?}", text.escape_ascii(), theirs.score));
        }
        counts.take(&TEXTS, &theirs);
    }
    Ok(counts)
}

/// Whether ours says the same: whole numbers, the threshold, and volts to the last bit.
fn says(ours: &Ours, theirs: &Score) -> bool {
    let volts = ours::volts(ours).into_iter().zip(theirs.controls());
    ours::values(ours) == *theirs
        && ours.threshold() == theirs.threshold()
        && volts.into_iter().all(|(a, b)| alike(a, b))
}

/// Drawn values, and what came of them.
struct Tried {
    values: Score,
    written: bool,
    in_every_room: bool,
}

impl Tried {
    fn is_of(&self, osc: &str) -> bool {
        self.written && self.values.osc.name == osc
    }

    fn says(&self, gate: Option<u32>) -> bool {
        self.written && self.values.gate == gate
    }

    /// Whether this holds of one of its numbers, given between the ends of its range.
    fn one(&self, holds: impl Fn(i64, i64, i64) -> bool) -> bool {
        let inputs = self.values.microvolts.iter().flatten().map(|&n| (MICROVOLTS, n.into()));
        let mut numbers = [(HZ, self.values.hz.into()), (FRAMES, self.values.frames.into())].into_iter().chain(inputs);
        numbers.any(|(range, n)| holds(*range.start(), n, *range.end()))
    }
}

const VALUES: [Kind<Tried>; 21] = [
    ("values", |_| true),
    ("written", |tried| tried.written),
    ("of vco", |tried| tried.is_of("vco")),
    ("of lfo", |tried| tried.is_of("lfo")),
    ("of supersaw", |tried| tried.is_of("supersaw")),
    ("of formant", |tried| tried.is_of("formant")),
    ("without a gate", |tried| tried.says(None)),
    ("with gate=1", |tried| tried.says(Some(1))),
    ("with gate=2", |tried| tried.says(Some(2))),
    ("with nan", |tried| tried.written && tried.values.microvolts.contains(&None)),
    ("with an end of a range", |tried| tried.written && tried.one(|lo, n, hi| n == lo || n == hi)),
    ("in texts of every length", |tried| tried.written && tried.in_every_room),
    ("refused by 23", |tried| !tried.written),
    ("with hz out of range", |tried| !HZ.contains(&tried.values.hz.into())),
    ("with frames", |tried| !FRAMES.contains(&tried.values.frames.into())),
    ("with microvolts", |tried| tried.values.microvolts.iter().flatten().any(|&n| !MICROVOLTS.contains(&n.into()))),
    ("one past an end", |tried| tried.one(|lo, n, hi| n == lo - 1 || n == hi + 1)),
    ("farther out", |tried| tried.one(|lo, n, hi| n < lo - 1 || n > hi + 1)),
    ("of i32::MIN", |tried| tried.values.microvolts.contains(&Some(i32::MIN))),
    ("of i32::MAX", |tried| tried.values.microvolts.contains(&Some(i32::MAX))),
    ("of u32::MAX", |tried| [tried.values.hz, tried.values.frames].contains(&u32::MAX)),
];

/// Drawn values: both refuse the same and write all others as the same text, which both read as these values. For some, texts of every
/// length are lent.
pub fn values(seed: u64, values: u64) -> Result<Counts, String> {
    let (mut draw, mut counts) = (Draw::new(seed), Counts::of(&VALUES));
    for _ in 0..values {
        let (values, in_every_room) = (scores::values(&mut draw), draw.one_in(32));
        let written = tried(&values, in_every_room).map_err(|difference| format!("{values:?}: {difference}"))?;
        counts.take(&VALUES, &Tried { values, written, in_every_room });
    }
    Ok(counts)
}

/// Whether the values are written; else both refuse them by 23.
fn tried(values: &Score, in_every_room: bool) -> Result<bool, String> {
    match (ours::of(values), write(values)) {
        (Ok(ours), Ok(text)) => {
            let written = ours.to_string();
            let (our_values, their_values) = (Ours::parse(text.as_bytes()), read(text.as_bytes()));
            if written != text || our_values != Ok(ours) || their_values.as_ref() != Ok(values) {
                return Err(format!("{written:?}, and the reference has {text:?}: {our_values:?}, {their_values:?}"));
            }
            if in_every_room {
                ours::written_in_every_room(&ours, &text)?;
            }
            Ok(true)
        }
        (Err(Refused(23)), Err(Refusal::Range)) => Ok(false),
        (ours, theirs) => Err(format!("{ours:?}, and the reference has {theirs:?}")),
    }
}
