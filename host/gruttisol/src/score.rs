//! Scores: the text that says what is played, as the program `render` takes it. It is read, changed and written.
use crate::answer::{done, Refused};
use crate::gate::Issue;
use crate::lent::{score_read, score_values, score_write};
use crate::{formant_osc, lfo, supersaw, vco};
use std::fmt;

/// An input, for all frames.
#[derive(Clone, Copy, PartialEq, Eq, Debug)]
pub enum Control {
    /// From -10,000,000 to 10,000,000: a million is one volt.
    Microvolts(i32),
    /// Not a number, as a broken control would be.
    Nan,
}

/// Inputs in port order.
#[derive(Clone, Copy, PartialEq, Eq, Debug)]
pub struct VcoInputs {
    pub voct: Control,
    pub fm: Control,
    pub pw: Control,
    pub sync: Control,
    pub fm_lin: Control,
}

/// Inputs in port order.
#[derive(Clone, Copy, PartialEq, Eq, Debug)]
pub struct LfoInputs {
    pub rate: Control,
    pub depth: Control,
    pub reset: Control,
}

/// Inputs in port order.
#[derive(Clone, Copy, PartialEq, Eq, Debug)]
pub struct SupersawInputs {
    pub voct: Control,
    pub detune: Control,
    pub mix: Control,
}

/// Inputs in port order.
#[derive(Clone, Copy, PartialEq, Eq, Debug)]
pub struct FormantInputs {
    pub v_oct: Control,
    pub vowel: Control,
    pub formant_shift: Control,
    pub vibrato: Control,
}

/// The inputs of the oscillator that is named.
#[derive(Clone, Copy, PartialEq, Eq, Debug)]
pub enum Inputs {
    Vco(VcoInputs),
    Lfo(LfoInputs),
    Supersaw(SupersawInputs),
    Formant(FormantInputs),
}

/// The same in volts, as its ticks and blocks take them.
#[derive(Clone, Copy, PartialEq, Debug)]
pub enum Controls {
    Vco(vco::Controls),
    Lfo(lfo::Controls),
    Supersaw(supersaw::Controls),
    Formant(formant_osc::Controls),
}

/// What a score says. Each has one text, which is read as it and as no other.
#[derive(Clone, Copy, PartialEq, Eq, Debug)]
pub struct Score {
    hz: u32,
    gate: Option<Issue>,
    frames: u32,
    inputs: Inputs,
}

impl Score {
    /// Bytes that are enough for every score's text.
    pub const LONGEST: usize = 117;

    /// A score of these values; refused by 23 where one is out of its range.
    pub fn new(hz: u32, gate: Option<Issue>, frames: u32, inputs: Inputs) -> Result<Score, Refused> {
        let score = Score { hz, gate, frames, inputs };
        // the proved writer judges them
        score.write(&mut [0; Score::LONGEST])?;
        Ok(score)
    }

    /// Reads a score: a line `key=value` for each of `osc` (`vco`, `lfo`, `supersaw` or `formant`), `hz`, `gate`, which may be left
    /// out, `frames` and the oscillator's inputs in port order, which are microvolts or `nan`. Refused by 20 to 23.
    pub fn parse(text: &[u8]) -> Result<Score, Refused> {
        let (mut cells, mut wholes) = ([0; 5], [0; 4]);
        done(score_values(text, &mut cells, &mut wholes))?;
        let [osc, hz, frames, gate] = wholes;
        // neither hz nor frames is above 480,000
        let (hz, gate, frames) = (hz as u32, Issue::of_number(gate), frames as u32);
        Ok(Score { hz, gate, frames, inputs: Inputs::of_cells(osc, cells) })
    }

    /// Writes the score's text and answers its length; bytes past it stay. Refused by 24 where it has no room, and then nothing is
    /// written; `LONGEST` bytes are always enough.
    pub fn write(&self, text: &mut [u8]) -> Result<usize, Refused> {
        let (osc, cells) = self.inputs.cells();
        let gate = self.gate.map_or(NO_GATE, |issue| issue as u64);
        let mut written = [0];
        done(score_write(&cells, &[osc, self.hz.into(), self.frames.into(), gate], text, &mut written))?;
        Ok(written[0] as usize)
    }

    /// Samples a second, from 1,000 to 192,000.
    pub fn hz(&self) -> u32 {
        self.hz
    }

    /// The issue that its line of `gate` says, if it has one.
    pub fn gate(&self) -> Option<Issue> {
        self.gate
    }

    /// Volts that its gates must rise above, to play it: those of issue 1 where no line says another.
    pub fn threshold(&self) -> f64 {
        self.gate.unwrap_or(Issue::One).threshold()
    }

    /// From 1 to 480,000.
    pub fn frames(&self) -> u32 {
        self.frames
    }

    pub fn inputs(&self) -> Inputs {
        self.inputs
    }

    /// The inputs in volts, to play it.
    pub fn controls(&self) -> Controls {
        let (mut floats, mut wholes) = ([0.0; 5], [0; 4]);
        // by its text, so that the one division is the proved reader's
        let read = score_read(self.to_string().as_bytes(), &mut floats, &mut wholes);
        done(read).expect("the text of a score");
        let [p0, p1, p2, p3, p4] = floats;
        match self.inputs {
            Inputs::Vco(_) => Controls::Vco(vco::Controls { voct: p0, fm: p1, pw: p2, sync: p3, fm_lin: p4 }),
            Inputs::Lfo(_) => Controls::Lfo(lfo::Controls { rate: p0, depth: p1, reset: p2 }),
            Inputs::Supersaw(_) => Controls::Supersaw(supersaw::Controls { voct: p0, detune: p1, mix: p2 }),
            Inputs::Formant(_) => {
                Controls::Formant(formant_osc::Controls { v_oct: p0, vowel: p1, formant_shift: p2, vibrato: p3 })
            }
        }
    }
}

/// The score's text.
impl fmt::Display for Score {
    fn fmt(&self, f: &mut fmt::Formatter<'_>) -> fmt::Result {
        let mut text = [0; Score::LONGEST];
        let length = self.write(&mut text).expect("values of a score, and room for the longest");
        f.write_str(std::str::from_utf8(&text[..length]).expect("a text of ASCII"))
    }
}

/// The boundary's mark of `nan`, which is no score's microvolts.
const NAN: i32 = i32::MIN;

/// The boundary's number of a score without a line of `gate`.
const NO_GATE: u64 = 0;

impl Control {
    fn of_cell(cell: i32) -> Control {
        match cell {
            NAN => Control::Nan,
            microvolts => Control::Microvolts(microvolts),
        }
    }

    fn cell(self) -> i32 {
        match self {
            Control::Nan => NAN,
            // a number that is out of range must not be taken for the mark: the one beside it is refused as it would be
            Control::Microvolts(NAN) => NAN + 1,
            Control::Microvolts(microvolts) => microvolts,
        }
    }
}

impl Inputs {
    /// From the boundary's number of an oscillator and cells.
    fn of_cells(osc: u64, cells: [i32; 5]) -> Inputs {
        let [p0, p1, p2, p3, p4] = cells.map(Control::of_cell);
        match osc {
            0 => Inputs::Vco(VcoInputs { voct: p0, fm: p1, pw: p2, sync: p3, fm_lin: p4 }),
            1 => Inputs::Lfo(LfoInputs { rate: p0, depth: p1, reset: p2 }),
            2 => Inputs::Supersaw(SupersawInputs { voct: p0, detune: p1, mix: p2 }),
            _ => Inputs::Formant(FormantInputs { v_oct: p0, vowel: p1, formant_shift: p2, vibrato: p3 }),
        }
    }

    /// The boundary's number of the oscillator and its cells, 0 past the last input.
    fn cells(&self) -> (u64, [i32; 5]) {
        const NONE: Control = Control::Microvolts(0);
        let (osc, controls) = match *self {
            Inputs::Vco(i) => (0, [i.voct, i.fm, i.pw, i.sync, i.fm_lin]),
            Inputs::Lfo(i) => (1, [i.rate, i.depth, i.reset, NONE, NONE]),
            Inputs::Supersaw(i) => (2, [i.voct, i.detune, i.mix, NONE, NONE]),
            Inputs::Formant(i) => (3, [i.v_oct, i.vowel, i.formant_shift, i.vibrato, NONE]),
        };
        (osc, controls.map(Control::cell))
    }
}
