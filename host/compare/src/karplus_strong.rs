//! The string on both sides, with the line that is lent to ours.
use crate::draw::{Control, Draw, BOTH_WAYS, GATE, PITCH, UNIT};
use crate::pair::{block, rises, stream_place, NO_DRAW};
use crate::rust;
use crate::script::{alike, bad_rate, bad_threshold, hex, mark, one_nan, unchanged, Counts, Pair};
use gruttisol::answer::{Mark, Refused};
use gruttisol::karplus_strong as ours;
use gruttisol::tally::Tally;

pub struct KarplusStrong {
    ours: ours::KarplusStrong,
    theirs: rust::KarplusStrong,
    /// The line as ours left it.
    line: Vec<f64>,
    /// What it must hold: the Rust's line, and past its length what stood there before.
    due: Vec<f64>,
    /// Cells that are lent to the next call.
    lent: usize,
    draws: Vec<u64>,
    /// Whether the last call may have changed more than `written`.
    all: bool,
    written: usize,
    /// Ticks since every cell was compared.
    unseen: u32,
}

/// What stands in a cell that no call has written.
fn untouched(cell: usize) -> f64 {
    f64::from_bits(0x7ffc_0000_0000_0000 + cell as u64)
}

fn same_bits(a: &[f64], b: &[f64]) -> bool {
    a.iter().zip(b).fold(0, |apart, (x, y)| apart | x.to_bits() ^ y.to_bits()) == 0
}

impl KarplusStrong {
    fn grow(&mut self, cells: usize) {
        for cell in self.line.len()..cells {
            self.line.push(untouched(cell));
            self.due.push(untouched(cell));
        }
        self.lent = self.line.len();
    }

    /// Compares every cell that changed, and from time to time all of them.
    fn same_line(&mut self, all: bool) -> Result<(), String> {
        let theirs = self.theirs.line();
        if !all {
            self.due[self.written] = theirs[self.written];
            let (a, b) = (self.line[self.written], self.due[self.written]);
            return if alike(a, b) { Ok(()) } else { Err(apart(self.written, a, b)) };
        }
        self.unseen = 0;
        self.due[..theirs.len()].copy_from_slice(theirs);
        if same_bits(&self.line, &self.due) {
            return Ok(());
        }
        // below the length any NaN is one; past it not a bit may change
        for (cell, (&a, &b)) in self.line.iter().zip(&self.due).enumerate() {
            let same = if cell < theirs.len() { alike(a, b) } else { a.to_bits() == b.to_bits() };
            if !same {
                return Err(apart(cell, a, b));
            }
        }
        Ok(())
    }

    /// Puts an odd number into a cell of both lines.
    fn poison(&mut self, draw: &mut Draw) {
        let (cell, x) = (draw.below(self.theirs.line().len() as u64) as usize, draw.odd());
        self.theirs.line_mut()[cell] = x;
        self.line[cell] = x;
        self.due[cell] = x;
    }

    /// A call that must be refused, with this much lent.
    fn must_refuse(
        &mut self,
        number: u32,
        lent: usize,
        counts: &mut Counts,
        call: impl FnOnce(&mut Self) -> Result<(), Refused>,
    ) -> Result<(), String> {
        let whole = std::mem::replace(&mut self.lent, lent);
        unchanged(self, counts, number, call)?;
        self.lent = whole;
        self.same_line(true)
    }
}

fn apart(cell: usize, a: f64, b: f64) -> String {
    format!("cell {cell} is {}, and is due to be {}", hex(a), hex(b))
}

/// The longest line of a state at a rate, and of a number that is no rate the one at 48,000 Hz.
fn longest(rate: f64) -> u64 {
    ours::KarplusStrong::cells(if bad_rate(rate) { 48000.0 } else { rate }) as u64 - 1
}

/// Cells and draws of a string in the list of stored ticks.
const STORED: usize = 62;

const STRIKES: &str = "strikes";
/// A rate change left the write position past the line's end, and ours put it to 0, which the Rust doesn't.
const REPAIRED: &str = "write positions repaired";

impl Pair for KarplusStrong {
    const NAME: &'static str = "karplus_strong";
    const CONTROLS: &'static [Control] = &[PITCH, GATE, UNIT, UNIT, BOTH_WAYS];
    const PORTS: usize = 1;
    const MASKED: bool = false;
    const MARKS: &'static [Mark] = &[Mark::Cleared, Mark::Steered, Mark::Clean];
    const REFUSALS: &'static [u32] = &[1, 2, 3, 5, 6, 7, 52];
    const KINDS: &'static [&'static str] = &[STRIKES, REPAIRED];
    const THRESHOLD: Option<usize> = Some(rust::KarplusStrong::THRESHOLD);
    type Floats = [f64; 7];
    type Wholes = [u64; 4];

    fn new(sample_rate: f64, threshold: f64, draw: &mut Draw) -> Result<Self, Refused> {
        let cells = ours::KarplusStrong::cells(if bad_rate(sample_rate) { 48000.0 } else { sample_rate });
        let more = if draw.one_in(2) { draw.below(100) as usize } else { 0 };
        let mut line: Vec<f64> = (0..cells + more).map(untouched).collect();
        let due = line.clone();
        let made = ours::KarplusStrong::new(sample_rate, threshold, &mut line);
        assert!(made.is_ok() || same_bits(&line, &due), "refused, and the line isn't as it stood");
        let (ours, mut theirs) = (made?, rust::KarplusStrong::new(sample_rate, threshold));
        theirs.put_stream((draw.bits(), draw.bits()));
        let lent = line.len();
        Ok(KarplusStrong { ours, theirs, line, due, lent, draws: vec![], all: true, written: 0, unseen: 0 })
    }

    fn ours(&self) -> ([f64; 7], [u64; 4]) {
        let (floats, wholes) = self.ours.parts();
        (*floats, *wholes)
    }

    fn theirs(&self) -> ([f64; 7], [u64; 4]) {
        self.theirs.flat()
    }

    fn invent(&self, controls: &[f64], draw: &mut Draw) -> ([f64; 7], [u64; 4]) {
        let rate = draw.state_rate();
        let [key] = draw.keys([controls[0]]);
        let threshold = draw.state_threshold(self.ours().0[5]);
        let floats = [rate, draw.level(), draw.level(), draw.level(), draw.previous(), threshold, draw.hertz()];
        let most = longest(rate);
        let len = match draw.below(8) {
            0 => draw.of(&[4, 5, most, most - 1]),
            1 => draw.of(&[0, 1, 3, most + 1, most + 2, u64::MAX]),
            _ => 4 + draw.below(most - 3),
        };
        let write_pos = match draw.below(8) {
            0 => draw.of(&[len, len.wrapping_add(1), u64::MAX]),
            1 => 0,
            2 => len.wrapping_sub(1),
            _ => draw.below(len.clamp(1, 1 << 20)),
        };
        (floats, [len, write_pos, key, draw.valid()])
    }

    fn put_ours(&mut self, floats: &[f64; 7], wholes: &[u64; 4]) {
        self.ours = ours::KarplusStrong::of_parts(*floats, *wholes);
        self.all = true;
    }

    /// The Rust's line becomes what ours holds below the state's length, some of it of a caller's own making. Its stream is none of the
    /// state's, and goes on anywhere.
    fn put_theirs(&mut self, floats: &[f64; 7], wholes: &[u64; 4], draw: &mut Draw) {
        self.grow(ours::KarplusStrong::cells(floats[0]));
        let len = wholes[0] as usize;
        match draw.below(4) {
            0 => self.line[..len].fill_with(|| draw.between(-1.0, 1.0)),
            1 => self.line[..len].fill_with(|| if draw.one_in(20) { draw.odd() } else { draw.between(-1.0, 1.0) }),
            _ => {}
        }
        self.theirs.put_flat(floats, wholes);
        self.theirs.put_stream((draw.bits(), draw.bits()));
        self.theirs.line_mut().copy_from_slice(&self.line[..len]);
        self.due.copy_from_slice(&self.line);
        self.all = true;
    }

    fn refusal(&[rate, .., threshold, val]: &[f64; 7], &[len, write_pos, ..]: &[u64; 4]) -> u32 {
        let fits = (4..=longest(rate)).contains(&len) && write_pos < len;
        if bad_rate(rate) {
            1
        } else if !fits || bad_threshold(threshold) || val.is_nan() {
            2
        } else {
            0
        }
    }

    /// Makes the draws ready that the Rust will draw, and tries short lines, too few draws and numbers that are no draws.
    fn lend(&mut self, controls: &[f64], _ticks: usize, draw: &mut Draw, counts: &mut Counts) -> Result<(), String> {
        self.lent = self.line.len();
        let (floats, _) = self.theirs.flat();
        if draw.one_in(500) {
            let short = ours::KarplusStrong::cells(floats[0]) - 1;
            self.must_refuse(3, short, counts, |pair| pair.ours_tick(controls, 1, &mut [0.0]).map(drop))?;
            self.must_refuse(3, short, counts, |pair| pair.ours_reset())?;
        }
        if draw.one_in(1000) {
            self.poison(draw);
        }
        if !rises(floats[4], controls[1], floats[5]) {
            // not looked at
            self.draws = vec![draw.bits(); draw.below(3) as usize];
            return Ok(());
        }
        counts.met(STRIKES);
        if let Some(place) = stream_place(draw) {
            self.theirs.put_stream(place);
        }
        let mut twin = self.theirs.twin();
        twin.body(controls.try_into().unwrap(), 1, &mut [0.0]);
        let needed = twin.line().len();
        self.draws = self.theirs.draws(needed);
        if draw.one_in(4) {
            let tick = |pair: &mut Self| {
                let told = pair.ours_tick(controls, 1, &mut [0.0]).map(drop);
                let (mut tally, mut samples, mut marks) = (Tally::new(), [0.0; 3], [0; 3]);
                assert_eq!(pair.ours_block(controls, 1, &mut tally, &mut samples, &mut marks), told);
                told
            };
            let draws = self.draws.clone();
            let at = draw.below(needed as u64) as usize;
            self.draws[at] = draw.of(&[NO_DRAW, NO_DRAW + 1, u64::MAX, draws[at] + NO_DRAW]);
            self.must_refuse(6, self.lent, counts, tick)?;
            self.draws.truncate(draw.of(&[0, needed - 1, at]));
            self.must_refuse(5, self.lent, counts, tick)?;
            self.draws = draws;
            self.draws.pop();
            self.must_refuse(5, self.lent, counts, tick)?;
            self.draws = self.theirs.draws(needed);
        }
        if draw.one_in(2) {
            self.draws.extend([u64::MAX, 0, NO_DRAW]); // past those that are needed
        }
        Ok(())
    }

    /// Tries a line that is too short for the new rate, then lends one that is long enough, sometimes not a cell longer.
    fn lend_for_rate(&mut self, rate: f64, draw: &mut Draw, counts: &mut Counts) -> Result<(), String> {
        let cells = ours::KarplusStrong::cells(rate);
        self.grow(cells);
        if draw.one_in(2) {
            self.must_refuse(3, cells - 1, counts, |pair| pair.ours_set_sample_rate(rate))?;
            self.lent = cells;
        }
        Ok(())
    }

    fn ours_tick(&mut self, controls: &[f64], _wanted: u32, samples: &mut [f64]) -> Result<Mark, Refused> {
        let [voct, trigger, damping, brightness, stretch] = *controls else { unreachable!() };
        let controls = ours::Controls { voct, trigger, damping, brightness, stretch };
        let ticked = self.ours.tick(&controls, &mut self.line[..self.lent], &self.draws)?;
        samples.copy_from_slice(&[ticked.volts.out]);
        Ok(ticked.mark)
    }

    block!(self, _wanted, [voct, trigger, damping, brightness, stretch], &mut self.line[..self.lent], &self.draws);

    /// Whether the line was zeroed is seen by the write position, which is 0 then. Where it would be 0 all the same, a
    /// twin tells, which is turned by a cell and reads the same values.
    fn theirs_tick(&mut self, controls: &[f64], wanted: u32, samples: &mut [f64], _counts: &mut Counts) -> Mark {
        let controls: &[f64; 5] = controls.try_into().unwrap();
        let (floats, [len, write_pos, ..]) = self.theirs.flat();
        let taken = rises(floats[4], controls[1], floats[5]);
        let turned = (!taken && write_pos + 1 == len).then(|| {
            let mut twin = self.theirs.twin();
            twin.line_mut().rotate_right(1);
            twin.put_write_pos(0);
            twin.body(controls, wanted, &mut [0.0]);
            twin.flat().1[1]
        });
        self.theirs.body(controls, wanted, samples.try_into().unwrap());
        let cleared = turned.unwrap_or(self.theirs.flat().1[1]) == 0;
        self.all = taken || cleared;
        self.written = write_pos as usize;
        self.unseen += 1;
        if cleared {
            Mark::Cleared
        } else {
            mark(samples.iter().copied(), [], [], controls)
        }
    }

    fn ours_reset(&mut self) -> Result<(), Refused> {
        self.ours.reset(&mut self.line[..self.lent])
    }

    fn theirs_reset(&mut self) {
        self.theirs.reset();
        self.all = true;
    }

    fn ours_set_sample_rate(&mut self, sample_rate: f64) -> Result<(), Refused> {
        self.ours.set_sample_rate(sample_rate, &mut self.line[..self.lent])
    }

    /// With our one repair: the Rust would panic at its next tick.
    fn theirs_set_sample_rate(&mut self, sample_rate: f64, counts: &mut Counts) {
        self.theirs.set_sample_rate(sample_rate);
        let (_, [len, write_pos, ..]) = self.theirs.flat();
        if write_pos >= len {
            self.theirs.put_write_pos(0);
            counts.met(REPAIRED);
        }
        self.all = true;
    }

    fn after_block(&mut self) {
        self.all = true;
    }

    fn same_lent(&mut self) -> Result<(), String> {
        self.same_line(self.all || self.unseen >= 64)
    }

    /// The list has `STORED` cells and draws for a string, enough at rates from 1,000 to below 1,020.
    fn storable(&self, floats: &[f64; 7]) -> bool {
        (1000.0..1020.0).contains(&floats[0]) && self.line.len() <= STORED
    }

    fn stored_lent(&self) -> Vec<u64> {
        let cells = self.line.iter().map(|x| x.to_bits());
        let draws = self.draws.iter().copied().chain([u64::MAX; STORED]);
        cells.chain([0; STORED]).take(STORED).chain(draws.take(STORED)).collect()
    }

    fn stored_left(&self) -> Vec<u64> {
        self.line.iter().map(|x| one_nan(x.to_bits())).chain([0; STORED]).take(STORED).collect()
    }
}
