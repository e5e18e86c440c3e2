//! The noise generator on both sides, over the draws that the Rust takes from its stream.
use crate::draw::{Control, Draw, UNIT};
use crate::pair::{stream_place, wanted_of, NO_DRAW};
use crate::script::{mark, unchanged, unused_block, Counts, Pair, NO_SUM};
use gruttisol::answer::{Mark, Refused};
use gruttisol::noise_generator as ours;
use gruttisol::tally::{Tally, COUNTS};
use quiver::modules::oscillators as rust;
use quiver::modules::oscillators::probe::Probe;
use quiver::port::GraphModule;
use quiver::rng::ModuleRng;

pub struct NoiseGenerator {
    ours: ours::NoiseGenerator,
    theirs: rust::NoiseGenerator,
    /// Ticks ahead of the Rust's to count its draws.
    twin: rust::NoiseGenerator,
    /// Whether the next call is given a correlation.
    given: bool,
    draws: Vec<u64>,
    /// Where the Rust's stream must stand after the call.
    due: Option<(u64, u64)>,
    /// Whether a call of ours has stored the counters since a state was put in. Before it, only their low 32 bits count.
    stored: bool,
}

/// The bits of a counter that count.
const LOW: u64 = u32::MAX as u64;

const NOT_GIVEN: &str = "calls without a correlation";
const UNEQUAL: &str = "calls with unequal counters";
const SIXTEEN: &str = "calls that change sixteen rows";
const OVER: &str = "calls that take a counter over its top";
const ABOVE: &str = "calls with a counter above 32 bits";

/// A counter: before its top, a power of two or a multiple of 32,768, or any; now and then with something above its 32 bits.
fn counter(draw: &mut Draw) -> u64 {
    let near = match draw.below(4) {
        0 => LOW,
        1 => 1 << draw.below(32),
        2 => draw.bits() & !32767,
        _ => draw.bits(),
    };
    let low = near.wrapping_sub(draw.below(40)) & LOW;
    if draw.one_in(4) {
        draw.bits() & !LOW | low
    } else {
        low
    }
}

impl NoiseGenerator {
    fn controls(&self, controls: &[f64]) -> ours::Controls {
        ours::Controls { correlation: self.given.then_some(controls[0]) }
    }

    /// How many draws the Rust will take for so many ticks: how far they move a stream that never comes to a place twice.
    fn needed(&mut self, ticks: usize) -> usize {
        let mut stream = ModuleRng::at(1, 2);
        let (floats, wholes) = self.theirs.flat();
        self.twin.put_flat(&floats, &wholes);
        *self.twin.stream() = stream;
        (0..ticks).for_each(|_| self.twin.body_of_stored(0, &mut [0.0; 4]));
        let mut needed = 0;
        while stream.place() != self.twin.stream().place() {
            stream.next_u64();
            needed += 1;
        }
        needed
    }

    /// Counts what the next so many ticks are.
    fn meet(&self, ticks: usize, counts: &mut Counts) {
        let (_, low) = self.theirs.flat();
        let after = low.map(|counter| counter + ticks as u64);
        counts.meet([
            (NOT_GIVEN, !self.given),
            (UNEQUAL, low[0] != low[1]),
            (SIXTEEN, (0..2).any(|i| low[i] / 32768 < after[i] / 32768)),
            (OVER, after.iter().any(|&counter| counter > LOW)),
            (ABOVE, self.ours.parts().1.iter().any(|&counter| counter > LOW)),
        ]);
    }

    /// A tick or block that must be refused for its draws, whatever the tally is.
    fn must_refuse(
        &mut self,
        number: u32,
        controls: &[f64],
        ticks: usize,
        draw: &mut Draw,
        counts: &mut Counts,
    ) -> Result<(), String> {
        if ticks == 1 {
            unchanged(self, counts, number, |pair| pair.ours_tick(controls, u32::MAX, &mut [0.0; 4]).map(drop))?;
        }
        let tally = draw.of(&[[0; COUNTS], NO_SUM]);
        unused_block(self, counts, number, tally, controls, 4 * ticks, ticks)
    }

    /// Tries a number that is no draw among those that are needed, too few of these, too few draws, and samples that don't fit either.
    fn try_draws(
        &mut self,
        controls: &[f64],
        ticks: usize,
        draw: &mut Draw,
        counts: &mut Counts,
    ) -> Result<(), String> {
        let (good, needed) = (self.draws.clone(), self.draws.len());
        for at in [0, 1, 2, draw.below(needed as u64) as usize, needed - 1] {
            self.draws[at] = draw.of(&[NO_DRAW, NO_DRAW + 1, u64::MAX, good[at] + NO_DRAW]);
            self.must_refuse(6, controls, ticks, draw, counts)?;
            self.draws.truncate(draw.of(&[0, at, needed - 1]));
            self.must_refuse(5, controls, ticks, draw, counts)?;
            unused_block(self, counts, 52, NO_SUM, controls, 4 * ticks + 1, ticks)?;
            self.draws.clone_from(&good);
        }
        self.draws.pop();
        self.must_refuse(5, controls, ticks, draw, counts)?;
        self.draws = good;
        Ok(())
    }
}

impl Pair for NoiseGenerator {
    const NAME: &'static str = "noise_generator";
    const CONTROLS: &'static [Control] = &[UNIT];
    const PORTS: usize = 4;
    const MASKED: bool = true;
    const MARKS: &'static [Mark] = &[Mark::NotFinite, Mark::Steered, Mark::Clean];
    const REFUSALS: &'static [u32] = &[5, 6, 7, 52];
    const KINDS: &'static [&'static str] = &[NOT_GIVEN, UNEQUAL, SIXTEEN, OVER, ABOVE];
    const RATED: bool = false;
    type Floats = [f64; 36];
    type Wholes = [u64; 2];

    fn new(_sample_rate: f64, _threshold: f64, draw: &mut Draw) -> Result<Self, Refused> {
        let correlation = draw.value(&UNIT, 2);
        let (ours, mut theirs) = if draw.one_in(2) {
            (ours::NoiseGenerator::new(), rust::NoiseGenerator::new())
        } else {
            (ours::NoiseGenerator::with_correlation(correlation), rust::NoiseGenerator::with_correlation(correlation))
        };
        *theirs.stream() = ModuleRng::at(draw.bits(), draw.bits());
        let (twin, due) = (rust::NoiseGenerator::new(), theirs.stream().place());
        Ok(NoiseGenerator { ours, theirs, twin, given: true, draws: vec![], due, stored: true })
    }

    fn ours(&self) -> ([f64; 36], [u64; 2]) {
        let (floats, wholes) = self.ours.parts();
        (*floats, *wholes)
    }

    fn theirs(&self) -> ([f64; 36], [u64; 2]) {
        let (floats, [a, b]) = self.theirs.flat();
        let above = self.ours.parts().1.map(|counter| if self.stored { 0 } else { counter & !LOW });
        (floats, [above[0] | a, above[1] | b])
    }

    fn invent(&self, _controls: &[f64], draw: &mut Draw) -> ([f64; 36], [u64; 2]) {
        let (mut floats, rarely) = ([0.0; 36], draw.of(&[1 << 40, 200, 20, 1]));
        floats.fill_with(|| if draw.one_in(rarely) { draw.odd() } else { draw.between(-1.0, 1.0) });
        floats[34] = draw.value(&UNIT, 4);
        let first = counter(draw);
        (floats, [first, if draw.one_in(2) { first } else { counter(draw) }])
    }

    fn put_ours(&mut self, floats: &[f64; 36], wholes: &[u64; 2]) {
        self.ours = ours::NoiseGenerator::of_parts(*floats, *wholes);
        self.stored = false;
    }

    fn put_theirs(&mut self, floats: &[f64; 36], wholes: &[u64; 2], _draw: &mut Draw) {
        self.theirs.put_flat(floats, wholes);
    }

    fn refusal(_floats: &[f64; 36], _wholes: &[u64; 2]) -> u32 {
        0
    }

    /// Makes the draws ready that the Rust will draw, holds how many ours says that it needs to them, and tries others.
    fn lend(&mut self, controls: &[f64], ticks: usize, draw: &mut Draw, counts: &mut Counts) -> Result<(), String> {
        if let Some((s0, s1)) = draw.one_in(16).then(|| stream_place(draw)).flatten() {
            *self.theirs.stream() = ModuleRng::at(s0, s1);
        }
        self.given = !draw.one_in(4);
        self.meet(ticks, counts);
        let needed = self.needed(ticks);
        let ours = (self.ours.needed_by(ticks as u32), if ticks == 1 { self.ours.needed() } else { needed });
        if ours != (needed, needed) {
            return Err(format!("needs {ours:?} draws, and the Rust takes {needed}"));
        }
        let mut after = *self.theirs.stream();
        self.draws = (0..needed).map(|_| after.next_u64() >> 11).collect();
        self.due = after.place();
        if draw.one_in(100) {
            self.try_draws(controls, ticks, draw, counts)?;
        }
        if draw.one_in(2) {
            self.draws.extend([u64::MAX, 0, NO_DRAW]); // past those that are needed
        }
        Ok(())
    }

    fn ours_tick(&mut self, controls: &[f64], wanted: u32, samples: &mut [f64]) -> Result<Mark, Refused> {
        let ticked = self.ours.tick(&self.controls(controls), wanted, &self.draws)?;
        let ours::Volts { white, pink, white2, pink2 } = ticked.volts;
        samples.copy_from_slice(&[white, pink, white2, pink2]);
        Ok(ticked.mark)
    }

    fn ours_block(
        &mut self,
        controls: &[f64],
        wanted: u32,
        tally: &mut Tally,
        samples: &mut [f64],
        marks: &mut [u32],
    ) -> Result<(), Refused> {
        self.ours.block(&self.controls(controls), wanted, &self.draws, tally, samples, marks)
    }

    fn theirs_tick(&mut self, controls: &[f64], wanted: u32, samples: &mut [f64], _counts: &mut Counts) -> Mark {
        let volts = samples.first_chunk_mut().unwrap();
        let given = if self.given { controls } else { &[] };
        match *given {
            [correlation] => self.theirs.body(&[correlation], wanted, volts),
            _ => self.theirs.body_of_stored(wanted, volts),
        }
        self.stored = true;
        mark(wanted_of(samples, wanted), [], [], given)
    }

    fn ours_reset(&mut self) -> Result<(), Refused> {
        self.ours.reset();
        Ok(())
    }

    fn theirs_reset(&mut self) {
        self.theirs.reset();
        self.due = self.theirs.stream().place();
        self.stored = true;
    }

    fn ours_set_sample_rate(&mut self, sample_rate: f64) -> Result<(), Refused> {
        self.ours.set_sample_rate(sample_rate);
        Ok(())
    }

    fn theirs_set_sample_rate(&mut self, sample_rate: f64, _counts: &mut Counts) {
        self.theirs.set_sample_rate(sample_rate);
    }

    /// The Rust took the draws that ours was lent, and no more.
    fn same_lent(&mut self) -> Result<(), String> {
        if self.theirs.stream().place() == self.due {
            Ok(())
        } else {
            Err(format!("the Rust took others than {} draws", self.draws.len()))
        }
    }

    /// Whether a correlation is given, and as many draws as are enough for any tick.
    fn stored_lent(&self) -> Vec<u64> {
        const DRAWS: usize = ours::NoiseGenerator::DRAWS;
        let draws = self.draws.iter().copied().chain([u64::MAX; DRAWS]).take(DRAWS);
        [self.given.into()].into_iter().chain(draws).collect()
    }
}
