//! The supersaw on both sides.
use crate::draw::{Control, Draw, PITCH, UNIT};
use crate::marked::Marked;
use crate::pair::{block, both, refusal};
use crate::script::{Counts, Pair};
use gruttisol::answer::{Mark, Refused};
use gruttisol::supersaw as ours;
use quiver::modules::oscillators as rust;
use quiver::modules::oscillators::probe::Probe;
use quiver::port::GraphModule;

pub struct Supersaw {
    ours: ours::Supersaw,
    theirs: rust::Supersaw,
}

impl Pair for Supersaw {
    const NAME: &'static str = "supersaw";
    const CONTROLS: &'static [Control] = &[PITCH, UNIT, UNIT];
    const PORTS: usize = 2;
    const MASKED: bool = false;
    both!(ours::Supersaw, 10, 2);

    fn new(sample_rate: f64, _threshold: f64, _draw: &mut Draw) -> Result<Self, Refused> {
        Ok(Supersaw { ours: ours::Supersaw::new(sample_rate)?, theirs: rust::Supersaw::new(sample_rate) })
    }

    fn invent(&self, controls: &[f64], draw: &mut Draw) -> ([f64; 10], [u64; 2]) {
        let [key] = draw.keys([controls[0]]);
        let good = draw.one_in(2);
        let phase = |draw: &mut Draw| if good { draw.between(0.0, 1f64.next_down()) } else { draw.phase() };
        let mut floats = [0.0; 10];
        floats[..8].fill_with(|| phase(draw));
        floats[8] = draw.state_rate();
        floats[9] = draw.under(&[key], Draw::hertz);
        (floats, [key, draw.valid()])
    }

    fn refusal(floats: &[f64; 10], _: &[u64; 2]) -> u32 {
        refusal(floats[8], &floats[..8], None)
    }

    fn ours_tick(&mut self, controls: &[f64], _wanted: u32, samples: &mut [f64]) -> Result<Mark, Refused> {
        let [voct, detune, mix] = *controls else { unreachable!() };
        let ticked = self.ours.tick(&ours::Controls { voct, detune, mix })?;
        samples.copy_from_slice(&[ticked.volts.out, ticked.volts.sub]);
        Ok(ticked.mark)
    }

    block!(self, _wanted, [voct, detune, mix]);

    fn theirs_tick(&mut self, controls: &[f64], wanted: u32, samples: &mut [f64], _counts: &mut Counts) -> Mark {
        self.theirs.marked_tick(controls, wanted, samples)
    }
}
