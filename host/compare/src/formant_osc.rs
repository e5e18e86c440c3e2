//! The formant oscillator on both sides.
use crate::draw::{Control, Draw, PITCH, UNIT};
use crate::marked::Marked;
use crate::pair::{block, both, refusal};
use crate::script::{Counts, Pair};
use gruttisol::answer::{Mark, Refused};
use gruttisol::formant_osc as ours;
use quiver::modules::oscillators as rust;
use quiver::modules::oscillators::probe::Probe;
use quiver::port::GraphModule;

pub struct FormantOsc {
    ours: ours::FormantOsc,
    theirs: rust::FormantOsc,
}

/// An octave of the formants is 5 V: the powers of 2 end at -5110 and 5120 V.
const SHIFT: Control =
    Control { lo: -5.0, hi: 5.0, corners: &[-5110.0, -5173.0, 5120.0, 5115.0, -25.0, 25.0], gate: false };

impl Pair for FormantOsc {
    const NAME: &'static str = "formant";
    const CONTROLS: &'static [Control] = &[PITCH, UNIT, SHIFT, UNIT];
    const PORTS: usize = 1;
    const MASKED: bool = false;
    both!(ours::FormantOsc, 29, 6);

    fn new(sample_rate: f64, _threshold: f64, _draw: &mut Draw) -> Result<Self, Refused> {
        Ok(FormantOsc { ours: ours::FormantOsc::new(sample_rate)?, theirs: rust::FormantOsc::new(sample_rate) })
    }

    fn invent(&self, controls: &[f64], draw: &mut Draw) -> ([f64; 29], [u64; 6]) {
        let mut floats = [0.0; 29];
        floats[..2].fill_with(|| draw.phase());
        if draw.one_in(2) {
            floats[2..12].fill_with(|| draw.tame_level());
        } else {
            floats[2..12].fill_with(|| draw.level());
        }
        floats[12] = draw.state_rate();
        let pitch = if controls[3].is_nan() { controls[3] } else { controls[0] }; // the vibrato is added to it
        let [key] = draw.keys([pitch]);
        floats[13] = draw.under(&[key], Draw::hertz);
        let [a, b, c] = draw.keys([controls[1].clamp(0.0, 1.0), controls[2], floats[12]]);
        let level = if draw.one_in(2) { Draw::tame_level } else { Draw::level };
        floats[14..].fill_with(|| draw.under(&[a, b, c], level));
        (floats, [key, draw.valid(), a, b, c, draw.valid()])
    }

    fn refusal(floats: &[f64; 29], _: &[u64; 6]) -> u32 {
        refusal(floats[12], &floats[..2], None)
    }

    fn ours_tick(&mut self, controls: &[f64], _wanted: u32, samples: &mut [f64]) -> Result<Mark, Refused> {
        let [v_oct, vowel, formant_shift, vibrato] = *controls else { unreachable!() };
        let ticked = self.ours.tick(&ours::Controls { v_oct, vowel, formant_shift, vibrato })?;
        samples.copy_from_slice(&[ticked.volts.out]);
        Ok(ticked.mark)
    }

    block!(self, _wanted, [v_oct, vowel, formant_shift, vibrato]);

    fn theirs_tick(&mut self, controls: &[f64], wanted: u32, samples: &mut [f64], _counts: &mut Counts) -> Mark {
        self.theirs.marked_tick(controls, wanted, samples)
    }
}
