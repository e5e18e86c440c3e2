//! The proved crate's scores, by the reference's values.
use crate::score::{Score, FORMANT, LFO, SUPERSAW, VCO};
use gruttisol::answer::Refused;
use gruttisol::gate::Issue;
use gruttisol::score as ours;
use gruttisol::score::{Control, Controls, FormantInputs, Inputs, LfoInputs, SupersawInputs, VcoInputs};

/// Ours of these values, whose gate is an issue's.
pub fn of(values: &Score) -> Result<ours::Score, Refused> {
    let input = |i: usize| values.microvolts[i].map_or(Control::Nan, Control::Microvolts);
    let inputs = match values.osc.name {
        "vco" => {
            Inputs::Vco(VcoInputs { voct: input(0), fm: input(1), pw: input(2), sync: input(3), fm_lin: input(4) })
        }
        "lfo" => Inputs::Lfo(LfoInputs { rate: input(0), depth: input(1), reset: input(2) }),
        "supersaw" => Inputs::Supersaw(SupersawInputs { voct: input(0), detune: input(1), mix: input(2) }),
        "formant" => Inputs::Formant(FormantInputs {
            v_oct: input(0),
            vowel: input(1),
            formant_shift: input(2),
            vibrato: input(3),
        }),
        name => unreachable!("{name} is no oscillator of a score"),
    };
    let gate = values.gate.map(|number| Issue::of_number(number.into()).expect("issue 1 or 2"));
    ours::Score::new(values.hz, gate, values.frames, inputs)
}

/// The values of ours.
pub fn values(score: &ours::Score) -> Score {
    let (osc, inputs) = match score.inputs() {
        Inputs::Vco(i) => (&VCO, vec![i.voct, i.fm, i.pw, i.sync, i.fm_lin]),
        Inputs::Lfo(i) => (&LFO, vec![i.rate, i.depth, i.reset]),
        Inputs::Supersaw(i) => (&SUPERSAW, vec![i.voct, i.detune, i.mix]),
        Inputs::Formant(i) => (&FORMANT, vec![i.v_oct, i.vowel, i.formant_shift, i.vibrato]),
    };
    let microvolts = |input| match input {
        Control::Microvolts(microvolts) => Some(microvolts),
        Control::Nan => None,
    };
    Score {
        osc,
        hz: score.hz(),
        gate: score.gate().map(|issue| issue as u32),
        frames: score.frames(),
        microvolts: inputs.into_iter().map(microvolts).collect(),
    }
}

/// Its volts, in the order of the inputs.
pub fn volts(score: &ours::Score) -> Vec<f64> {
    match score.controls() {
        Controls::Vco(c) => vec![c.voct, c.fm, c.pw, c.sync, c.fm_lin],
        Controls::Lfo(c) => vec![c.rate, c.depth, c.reset],
        Controls::Supersaw(c) => vec![c.voct, c.detune, c.mix],
        Controls::Formant(c) => vec![c.v_oct, c.vowel, c.formant_shift, c.vibrato],
    }
}

/// Whether it is written as this text, where there is room for it, and else refused by 24: tried with room for no byte up to one more
/// than it has. Bytes past the text must stay, and all where it is refused. The error says what came instead.
pub fn written_in_every_room(score: &ours::Score, text: &str) -> Result<(), String> {
    const STOOD: u8 = b'~';
    for room in 0..=text.len() + 1 {
        let mut lent = vec![STOOD; room];
        let answer = score.write(&mut lent);
        let right = match room.checked_sub(text.len()) {
            None => (Err(Refused(24)), vec![STOOD; room]),
            Some(past) => (Ok(text.len()), [text.as_bytes(), &vec![STOOD; past]].concat()),
        };
        if (answer, &lent) != (right.0, &right.1) {
            return Err(format!("{answer:?} of room for {room} bytes, which are {}", lent.escape_ascii()));
        }
    }
    Ok(())
}
