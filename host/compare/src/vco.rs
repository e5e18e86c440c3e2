//! The voltage-controlled oscillator on both sides.
use crate::draw::{Control, Draw, GATE, OCTAVES, PITCH, UNIT, VOLTS};
use crate::marked::Marked;
use crate::pair::{block, both, refusal};
use crate::rust;
use crate::script::{Counts, Pair};
use gruttisol::answer::{Mark, Refused};
use gruttisol::vco as ours;

pub struct Vco {
    ours: ours::Vco,
    theirs: rust::Vco,
}

impl Pair for Vco {
    const NAME: &'static str = "vco";
    const CONTROLS: &'static [Control] = &[PITCH, OCTAVES, UNIT, GATE, VOLTS];
    const PORTS: usize = 4;
    const MASKED: bool = true;
    const THRESHOLD: Option<usize> = Some(rust::Vco::THRESHOLD);
    both!(ours::Vco, 5, 4);

    fn new(sample_rate: f64, threshold: f64, _draw: &mut Draw) -> Result<Self, Refused> {
        let ours = ours::Vco::new(sample_rate, threshold)?;
        Ok(Vco { ours, theirs: rust::Vco::new(sample_rate, threshold) })
    }

    fn invent(&self, controls: &[f64], draw: &mut Draw) -> ([f64; 5], [u64; 4]) {
        let [a, b, c] = draw.keys([controls[0], controls[1], controls[4]]);
        let val = draw.under(&[a, b, c], Draw::hertz);
        // now and then right where the square falls
        let phase = if draw.one_in(8) { controls[2].clamp(0.05, 0.95) } else { draw.phase() };
        let [_, _, _, threshold, _] = self.ours().0;
        let floats = [phase, draw.state_rate(), draw.previous(), draw.state_threshold(threshold), val];
        (floats, [a, b, c, draw.valid()])
    }

    fn refusal(&[phase, rate, _, threshold, _]: &[f64; 5], _: &[u64; 4]) -> u32 {
        refusal(rate, &[phase], Some(threshold))
    }

    fn ours_tick(&mut self, controls: &[f64], wanted: u32, samples: &mut [f64]) -> Result<Mark, Refused> {
        let [voct, fm, pw, sync, fm_lin] = *controls else { unreachable!() };
        let ticked = self.ours.tick(&ours::Controls { voct, fm, pw, sync, fm_lin }, wanted)?;
        let ours::Volts { sin, tri, saw, sqr } = ticked.volts;
        samples.copy_from_slice(&[sin, tri, saw, sqr]);
        Ok(ticked.mark)
    }

    block!(self, wanted, [voct, fm, pw, sync, fm_lin], wanted);

    fn theirs_tick(&mut self, controls: &[f64], wanted: u32, samples: &mut [f64], _counts: &mut Counts) -> Mark {
        self.theirs.marked_tick(controls, wanted, samples)
    }
}
