//! The low-frequency oscillator on both sides. Its sixth output, `eoc`, is held to a computation from the Rust's values.
use crate::draw::{Control, Draw, GATE, UNIT};
use crate::marked::{Marked, EOC};
use crate::pair::{advanced, block, both, refusal, turned};
use crate::rust;
use crate::script::{bad_phase, Counts, Pair};
use gruttisol::answer::{Mark, Refused};
use gruttisol::lfo as ours;

pub struct Lfo {
    ours: ours::Lfo,
    theirs: rust::Lfo,
}

/// Volts from peak to peak.
const DEPTH: Control = Control { lo: 0.0, hi: 10.0, corners: &[0.0, 10.0, 1e308], gate: false };

const PULSES: &str = "pulses";
/// Only the memo of a caller's own state makes an increment below 0.
const BACKWARDS: &str = "pulses of a phase that falls";
const UNWANTED: &str = "turns whose pulse isn't wanted";
const CUT_OFF: &str = "turns that a reset cuts off";

impl Pair for Lfo {
    const NAME: &'static str = "lfo";
    const CONTROLS: &'static [Control] = &[UNIT, DEPTH, GATE];
    const PORTS: usize = 6;
    const MASKED: bool = true;
    const KINDS: &'static [&'static str] = &[PULSES, BACKWARDS, UNWANTED, CUT_OFF];
    const THRESHOLD: Option<usize> = Some(rust::Lfo::THRESHOLD);
    both!(ours::Lfo, 5, 2);

    fn new(sample_rate: f64, threshold: f64, _draw: &mut Draw) -> Result<Self, Refused> {
        let ours = ours::Lfo::new(sample_rate, threshold)?;
        Ok(Lfo { ours, theirs: rust::Lfo::new(sample_rate, threshold) })
    }

    fn invent(&self, controls: &[f64], draw: &mut Draw) -> ([f64; 5], [u64; 2]) {
        let [key] = draw.keys([controls[0]]);
        let (val, rate) = (draw.under(&[key], Draw::hertz), draw.state_rate());
        // now and then right where a turn ends, be it backwards
        let end = draw.about(if val < 0.0 { -val / rate } else { 1.0 - val / rate });
        let phase = if draw.one_in(8) && !bad_phase(end) { end } else { draw.phase() };
        let [_, _, _, threshold, _] = self.ours().0;
        ([phase, rate, draw.previous(), draw.state_threshold(threshold), val], [key, draw.valid()])
    }

    fn refusal(&[phase, rate, _, threshold, _]: &[f64; 5], _: &[u64; 2]) -> u32 {
        refusal(rate, &[phase], Some(threshold))
    }

    fn ours_tick(&mut self, controls: &[f64], wanted: u32, samples: &mut [f64]) -> Result<Mark, Refused> {
        let [rate, depth, reset] = *controls else { unreachable!() };
        let ticked = self.ours.tick(&ours::Controls { rate, depth, reset }, wanted)?;
        let ours::Volts { sin, tri, saw, sqr, sin_uni, eoc } = ticked.volts;
        samples.copy_from_slice(&[sin, tri, saw, sqr, sin_uni, eoc]);
        Ok(ticked.mark)
    }

    block!(self, wanted, [rate, depth, reset], wanted);

    fn theirs_tick(&mut self, controls: &[f64], wanted: u32, samples: &mut [f64], counts: &mut Counts) -> Mark {
        let (before, _) = self.theirs.flat();
        let mark = self.theirs.marked_tick(controls, wanted, samples);
        let (after, _) = self.theirs.flat();
        let [next, without_edge] = [controls[2], 0.0].map(|reset| advanced(before, reset, after));
        let (wants, pulse) = (wanted & EOC != 0, samples[Self::PORTS - 1] == 5.0);
        counts.meet([
            (PULSES, pulse),
            (BACKWARDS, pulse && next < 0.0),
            (UNWANTED, !wants && turned(next)),
            (CUT_OFF, wants && !pulse && turned(without_edge)),
        ]);
        mark
    }
}
