//! Drawn scores given to the reference and to another renderer, whose texts must be the same to the last byte.
use crate::score::{read, Score};
use compare::draw::Draw;
use std::fmt;

/// How a score is drawn.
pub type Drawn = fn(&mut Draw) -> Vec<u8>;

/// What was compared.
#[derive(Clone, Default, Debug)]
pub struct Counts {
    /// Scores played, of them claimed, and their frames.
    pub played: u64,
    pub claimed: u64,
    pub frames: u64,
    /// Frames of each mark that a score can get.
    pub marks: [u64; MARKS.len()],
    /// Frames that end a turn of an Lfo.
    pub pulses: u64,
    /// Scores played without a line of `gate`, of issue 1 and of issue 2; and those of issue 2 whose gate is low for issue 1.
    pub gates: [u64; 3],
    pub low_gates: u64,
    /// Scores refused by 20, 21, 22 and 23.
    pub refused: [u64; 4],
}

/// The marks that a score can get; only the string clears its line, and no score plays it.
const MARKS: [&str; 4] = ["notfinite", "lost", "steered", "clean"];

/// The line of a pulse: 5 V.
const PULSE: &str = "eoc=4014000000000000";

impl Counts {
    fn take(&mut self, score: &[u8], text: &[u8]) {
        if let Ok(score) = read(score) {
            self.gates[score.gate.unwrap_or(0) as usize] += 1;
            self.low_gates += u64::from(has_low_gate(&score));
        }
        if let Some(number) = text.strip_prefix(b"refused=2") {
            self.refused[(number[0] - b'0') as usize] += 1;
        } else {
            self.played += 1;
            self.claimed += u64::from(text.ends_with(b"claimed=yes\n"));
            let said = |part: &str| text.windows(part.len()).filter(|start| start == &part.as_bytes()).count() as u64;
            self.frames += said("\nn=") + 1;
            for (n, mark) in self.marks.iter_mut().zip(MARKS) {
                *n += said(&format!("\nmark={mark}\n"));
            }
            self.pulses += said(&format!("\n{PULSE}\n"));
        }
    }

    /// Both counts as one.
    pub fn with(self, other: &Counts) -> Counts {
        Counts {
            played: self.played + other.played,
            claimed: self.claimed + other.claimed,
            frames: self.frames + other.frames,
            marks: std::array::from_fn(|i| self.marks[i] + other.marks[i]),
            pulses: self.pulses + other.pulses,
            gates: std::array::from_fn(|i| self.gates[i] + other.gates[i]),
            low_gates: self.low_gates + other.low_gates,
            refused: std::array::from_fn(|i| self.refused[i] + other.refused[i]),
        }
    }

    /// What scores that are played must meet and haven't met once: claims of both kinds, a pulse, gates, and marks.
    pub fn unplayed(&self) -> Vec<String> {
        let claims = [("claimed=yes", self.claimed), ("claimed=no", self.played - self.claimed), (PULSE, self.pulses)];
        let gates = ["no gate", "gate=1", "gate=2"].into_iter().zip(self.gates).chain([("low gates", self.low_gates)]);
        let met = claims.into_iter().chain(gates).chain(MARKS.into_iter().zip(self.marks));
        met.filter(|&(_, n)| n == 0).map(|(what, _)| what.to_string()).collect()
    }

    /// The refusals that were never met.
    pub fn unrefused(&self) -> Vec<String> {
        (20..).zip(self.refused).filter(|&(_, n)| n == 0).map(|(number, _)| format!("refused={number}")).collect()
    }
}

impl fmt::Display for Counts {
    fn fmt(&self, f: &mut fmt::Formatter<'_>) -> fmt::Result {
        let Counts { played, claimed, frames, pulses, gates: [_, one, two], low_gates, refused: [a, b, c, d], .. } =
            self;
        let all = played + a + b + c + d;
        write!(f, "{all} scores: {played} played ({claimed} claimed, {frames} frames, {pulses} pulses, ")?;
        write!(f, "{one} with gate=1, {two} with gate=2, {low_gates} of these with a gate that issue 1 has low), ")?;
        write!(f, "refused by 20 {a}, by 21 {b}, by 22 {c}, by 23 {d}")
    }
}

/// Whether a score of issue 2 has a gate that is low for issue 1.
fn has_low_gate(score: &Score) -> bool {
    let gate = score.osc.inputs.iter().zip(score.controls()).find(|(key, _)| ["sync", "reset"].contains(key));
    score.gate == Some(2) && gate.is_some_and(|(_, volts)| volts > 1.0 && volts <= 2.5)
}

/// Runs so many scores from a seed. The error is the first difference.
pub fn run(seed: u64, scores: u64, drawn: Drawn, render: impl Fn(&[u8]) -> Vec<u8>) -> Result<Counts, String> {
    let mut draw = Draw::new(seed);
    let mut counts = Counts::default();
    for _ in 0..scores {
        let score = drawn(&mut draw);
        let (ours, theirs) = (render(&score), crate::render(&score));
        if ours != theirs {
            let at = ours.iter().zip(&theirs).take_while(|(a, b)| a == b).count();
            let near = |text: &[u8]| text[at.saturating_sub(40)..text.len().min(at + 40)].escape_ascii().to_string();
            let (score, ours, theirs) = (score.escape_ascii(), near(&ours), near(&theirs));
            return Err(format!("score {score}: byte {at} of `{ours}`, and the reference has `{theirs}`"));
        }
        counts.take(&score, &theirs);
    }
    Ok(counts)
}
