//! One script for every oscillator: calls drawn from a seed, made on both sides, and everything compared after each.
use crate::draw::{Control, Draw, HIGH, ONE_NAN, THRESHOLDS};
use crate::gates::{self, Gate};
use gruttisol::answer::{Mark, Refused};
use gruttisol::tally::{Tally, COUNTS};
use std::collections::BTreeMap;
use std::fmt;

/// The most outputs that an oscillator has.
pub const MOST: usize = 6;

/// One oscillator on both sides.
pub trait Pair: Sized + 'static {
    const NAME: &'static str;
    const CONTROLS: &'static [Control];
    const PORTS: usize;
    /// Whether a tick takes a mask of wanted outputs; else all are wanted.
    const MASKED: bool;
    /// The marks that its ticks can get and the numbers that refuse its calls: a run must meet all of them.
    const MARKS: &'static [Mark] = &[Mark::NotFinite, Mark::Lost, Mark::Steered, Mark::Clean];
    const REFUSALS: &'static [u32] = &[1, 2, 7, 52];
    /// Kinds of calls that are its own, which a run must meet too.
    const KINDS: &'static [&'static str] = &[];
    /// Whether it has a sample rate; else it takes any number for one, and nothing comes of it.
    const RATED: bool = true;
    /// Where its floats have the threshold, if it has a gate; what the gate was before stands one place earlier. Else it takes any number
    /// for a threshold, and nothing comes of it.
    const THRESHOLD: Option<usize> = None;
    type Floats: AsRef<[f64]> + AsMut<[f64]> + Copy;
    type Wholes: AsRef<[u64]> + AsMut<[u64]> + Copy;

    /// A new one on both sides, if ours isn't refused.
    fn new(sample_rate: f64, threshold: f64, draw: &mut Draw) -> Result<Self, Refused>;

    fn ours(&self) -> (Self::Floats, Self::Wholes);
    fn theirs(&self) -> (Self::Floats, Self::Wholes);

    /// A state of a caller's own making, given what the next tick may ask of its memos.
    fn invent(&self, controls: &[f64], draw: &mut Draw) -> (Self::Floats, Self::Wholes);
    /// Puts ours to a state, refused ones too.
    fn put_ours(&mut self, floats: &Self::Floats, wholes: &Self::Wholes);
    /// Puts the Rust's to a state that isn't refused.
    fn put_theirs(&mut self, floats: &Self::Floats, wholes: &Self::Wholes, draw: &mut Draw);
    /// The number that the scope refuses a state by, or 0.
    fn refusal(floats: &Self::Floats, wholes: &Self::Wholes) -> u32;

    fn ours_tick(&mut self, controls: &[f64], wanted: u32, samples: &mut [f64]) -> Result<Mark, Refused>;
    /// The mark is the scope's, of the Rust's values and of the controls. Kinds that only these values tell are counted.
    fn theirs_tick(&mut self, controls: &[f64], wanted: u32, samples: &mut [f64], counts: &mut Counts) -> Mark;
    /// As many ticks as there are marks.
    fn ours_block(
        &mut self,
        controls: &[f64],
        wanted: u32,
        tally: &mut Tally,
        samples: &mut [f64],
        marks: &mut [u32],
    ) -> Result<(), Refused>;
    fn ours_reset(&mut self) -> Result<(), Refused>;
    fn theirs_reset(&mut self);
    fn ours_set_sample_rate(&mut self, sample_rate: f64) -> Result<(), Refused>;
    fn theirs_set_sample_rate(&mut self, sample_rate: f64, counts: &mut Counts);

    /// Makes ready what is lent to the next so many ticks, one or a block, and tries what that may be refused for.
    fn lend(&mut self, _controls: &[f64], _ticks: usize, _draw: &mut Draw, _counts: &mut Counts) -> Result<(), String> {
        Ok(())
    }
    /// The same for a rate change.
    fn lend_for_rate(&mut self, _rate: f64, _draw: &mut Draw, _counts: &mut Counts) -> Result<(), String> {
        Ok(())
    }
    /// Makes ready to compare what is lent after a block.
    fn after_block(&mut self) {}
    /// Compares what is lent.
    fn same_lent(&mut self) -> Result<(), String> {
        Ok(())
    }

    /// Whether the list of stored ticks can hold what is lent to a state of these floats.
    fn storable(&self, _floats: &Self::Floats) -> bool {
        true
    }
    /// What stands in a stored tick after its controls and mask: cells and draws that are lent.
    fn stored_lent(&self) -> Vec<u64> {
        vec![]
    }
    /// What stands after its samples: the cells as they were left.
    fn stored_left(&self) -> Vec<u64> {
        vec![]
    }
}

/// What was run and compared.
#[derive(Clone, Default, Debug)]
pub struct Counts {
    /// Accepted ticks, in the order of `Mark::ALL`.
    pub marks: [u64; Mark::ALL.len()],
    /// Blocks among these.
    pub blocks: u64,
    pub resets: u64,
    pub rate_changes: u64,
    /// States of a caller's own making that were taken.
    pub states: u64,
    /// Refused calls, by the number that refused them.
    pub refused: BTreeMap<u32, u64>,
    /// Calls, or ticks, of the kinds that are an oscillator's own, or a gate's.
    pub own: BTreeMap<&'static str, u64>,
    /// The threshold that a run is of, if it is of one, and the ticks at it.
    pub threshold: Option<f64>,
    pub at_threshold: u64,
}

impl Counts {
    /// Nothing yet, of a run of this threshold.
    fn of(threshold: Option<f64>) -> Self {
        Counts { threshold, ..Counts::default() }
    }

    pub fn ticks(&self) -> u64 {
        self.marks.iter().sum()
    }

    /// The ticks that a run is asked for: those at its threshold.
    fn ticks_of_run(&self) -> u64 {
        self.threshold.map_or(self.ticks(), |_| self.at_threshold)
    }

    /// Takes an accepted tick, given the floats before it. Of gates only those at the run's own threshold count.
    fn ticked<P: Pair>(&mut self, mark: Mark, floats: &P::Floats, controls: &[f64]) {
        self.marks[place(mark)] += 1;
        if let Some(gate) = Gate::of::<P>(floats, controls).filter(|gate| Some(gate.threshold) == self.threshold) {
            self.at_threshold += 1;
            self.meet(gates::KINDS.map(|(kind, is)| (kind, is(&gate))));
        }
    }

    /// Counts a call, or a tick, of a kind that is the oscillator's own.
    pub fn met(&mut self, kind: &'static str) {
        *self.own.entry(kind).or_default() += 1;
    }

    /// The same for each of these kinds that it is of.
    pub fn meet(&mut self, kinds: impl IntoIterator<Item = (&'static str, bool)>) {
        kinds.into_iter().filter(|&(_, its)| its).for_each(|(kind, _)| self.met(kind));
    }

    /// What a run of this oscillator must meet and hasn't met once: marks, refusals and kinds of calls.
    fn unmet<P: Pair>(&self) -> Vec<String> {
        let marks = P::MARKS.iter().map(|&mark| (mark.word().into(), self.marks[place(mark)]));
        let refusals = P::REFUSALS.iter().map(|n| (format!("refused by {n}"), *self.refused.get(n).unwrap_or(&0)));
        let calls = [
            ("block", self.blocks),
            ("reset", self.resets),
            ("rate change", self.rate_changes),
            ("state put in", self.states),
        ];
        let of_gates = gates::KINDS.map(|(kind, _)| kind).into_iter().chain(gates::CALLS);
        let kinds = P::KINDS.iter().copied().chain(of_gates.filter(|_| P::THRESHOLD.is_some()));
        let own = kinds.map(|kind| (kind, *self.own.get(kind).unwrap_or(&0)));
        let calls = calls.into_iter().chain(own).map(|(call, n)| (call.to_string(), n));
        marks.chain(refusals).chain(calls).filter(|&(_, n)| n == 0).map(|(what, _)| what).collect()
    }
}

impl fmt::Display for Counts {
    fn fmt(&self, f: &mut fmt::Formatter<'_>) -> fmt::Result {
        let marks: Vec<String> =
            Mark::ALL.into_iter().zip(self.marks).map(|(mark, n)| format!("{n} {}", mark.word())).collect();
        let Counts { blocks, resets, rate_changes, states, .. } = self;
        let refused: u64 = self.refused.values().sum();
        write!(f, "{} ticks ({}), ", self.ticks(), marks.join(", "))?;
        if let Some(threshold) = self.threshold {
            write!(f, "{} of them at {threshold} V, ", self.at_threshold)?;
        }
        write!(f, "{blocks} blocks, {resets} resets")?;
        write!(f, ", {rate_changes} rate changes, {states} states put in, {refused} refused calls")?;
        self.own.iter().try_for_each(|(kind, n)| write!(f, ", {n} {kind}"))
    }
}

/// Runs scripts from a seed until there were that many ticks, at this threshold where there is a gate. The error is the first difference,
/// or what the run never met: it would have compared nothing of that.
pub fn run<P: Pair>(seed: u64, ticks: u64, threshold: Option<f64>) -> Result<Counts, String> {
    let mut draw = Draw::new(seed);
    let mut counts = Counts::of(threshold);
    let title = title::<P>(threshold);
    while counts.ticks_of_run() < ticks {
        scene::<P>(&mut draw, &mut counts)
            .map_err(|said| format!("{title}, seed {seed}, tick {}: {said}", counts.ticks()))?;
    }
    let unmet = counts.unmet::<P>();
    if unmet.is_empty() {
        Ok(counts)
    } else {
        Err(format!("{title}, seed {seed}, {} ticks: never met: {}", counts.ticks(), unmet.join(", ")))
    }
}

/// What a run is called.
pub fn title<P: Pair>(threshold: Option<f64>) -> String {
    threshold.map_or(P::NAME.into(), |volts| format!("{} at {volts} V", P::NAME))
}

/// The thresholds that an oscillator is run at, or none once, where it has no gate.
pub fn thresholds<P: Pair>() -> Vec<Option<f64>> {
    P::THRESHOLD.map_or(vec![None], |_| THRESHOLDS.map(Some).into())
}

/// So many ticks that are drawn, of any mark or of this one, in the words of the list that the program `replay` runs: a state, controls, the
/// mask and what is lent, and what the Rust makes of them. A state that the scope refuses is answered by its number and left as it stood.
pub fn ticks<P: Pair>(draw: &mut Draw, n: usize, of: Option<Mark>) -> Result<Vec<Vec<u64>>, String> {
    const CALLS: usize = 20; // of one oscillator
    let (mut counts, mut cases) = (Counts::default(), vec![]);
    while cases.len() < n {
        let mood = Mood { held: 3, gates: 2, rarely: 4, ..Mood::drawn(draw) };
        let threshold = if P::THRESHOLD.is_some() { draw.of(&THRESHOLDS) } else { HIGH };
        let mut pair = P::new(draw.rate(), threshold, draw).map_err(|n| n.to_string())?;
        if !pair.storable(&pair.theirs().0) {
            continue;
        }
        same(&mut pair)?;
        let mut controls: Vec<f64> = P::CONTROLS.iter().map(|control| draw.usual(control)).collect();
        for _ in 0..CALLS {
            turn::<P>(&mut controls, &mood, draw);
            let (mark, case) = case(&mut pair, &controls, draw, &mut counts)?;
            if cases.len() < n && (of.is_none() || of == mark) {
                cases.push(case);
            }
        }
    }
    Ok(cases)
}

/// A tick's mark, if it is accepted, and its words.
fn case<P: Pair>(
    pair: &mut P,
    controls: &[f64],
    draw: &mut Draw,
    counts: &mut Counts,
) -> Result<(Option<Mark>, Vec<u64>), String> {
    let invented = pair.invent(controls, draw);
    let refusal = P::refusal(&invented.0, &invented.1);
    let wanted = mask::<P>(draw);
    let given = |pair: &P, state| {
        let mut words = raw::<P>(state);
        words.extend(controls.iter().map(|x| x.to_bits()));
        words.extend(P::MASKED.then_some(wanted as u64));
        words.extend(pair.stored_lent());
        words
    };
    if draw.one_in(4) && pair.storable(&invented.0) {
        if refusal > 0 {
            let mut words = given(pair, invented);
            words.push(refusal as u64);
            words.extend(invented.0.as_ref().iter().map(|x| one_nan(x.to_bits())));
            words.extend(invented.1.as_ref());
            words.extend([0; MOST].iter().take(P::PORTS));
            words.extend(pair.stored_left());
            return Ok((None, words));
        }
        pair.put_ours(&invented.0, &invented.1);
        pair.put_theirs(&invented.0, &invented.1, draw);
    }
    pair.lend(controls, 1, draw, counts)?;
    let mut words = given(pair, pair.theirs());
    let (mark, samples) = sound(pair, controls, wanted, counts)?;
    words.push(mark as u64);
    words.extend(raw::<P>(pair.theirs()).into_iter().map(one_nan));
    words.extend(samples[..P::PORTS].iter().map(|x| one_nan(x.to_bits())));
    words.extend(pair.stored_left());
    Ok((Some(mark), words))
}

/// A state's floats, by their bits, and whole numbers.
fn raw<P: Pair>((floats, wholes): (P::Floats, P::Wholes)) -> Vec<u64> {
    floats.as_ref().iter().map(|x| x.to_bits()).chain(wholes.as_ref().iter().copied()).collect()
}

/// The bits of a float, of any NaN the same. Memo keys are such bits too, and other whole numbers are too small to be a NaN's.
pub fn one_nan(bits: u64) -> u64 {
    if f64::from_bits(bits).is_nan() {
        ONE_NAN
    } else {
        bits
    }
}

/// How a scene goes.
struct Mood {
    calls: u64,
    /// Odd values and corners come about once in this many.
    rarely: u64,
    /// A control changes about once in this many ticks, and a gate once in that many.
    held: u64,
    gates: u64,
    /// Glides move every control by a step at each tick.
    glides: bool,
    /// Of so many calls, five are something else than a tick.
    ticks: u64,
}

impl Mood {
    fn drawn(draw: &mut Draw) -> Mood {
        let usual = Mood { calls: 400, rarely: 20, held: 10, gates: 10, glides: false, ticks: 100 };
        match draw.below(40) {
            // long runs without corners
            0 => Mood { calls: 30_000, rarely: 1 << 40, held: 4000, gates: 3000, ticks: 20_000, ..usual },
            1 => Mood { calls: 10_000, rarely: 1 << 40, held: 1000, gates: 1000, glides: true, ticks: 5000 },
            2 => Mood { calls: 5000, rarely: 40, held: 100, gates: 500, ticks: 1000, ..usual },
            // nothing but corners
            3..=9 => Mood { calls: 300, rarely: 1, held: 4, gates: 4, ticks: 60, ..usual },
            10..=15 => Mood { calls: 300, rarely: 8, held: 1, gates: 2, ticks: 60, ..usual },
            16..=20 => Mood { rarely: 40, gates: 40, glides: true, ..usual },
            21..=24 => Mood { gates: 200, ..usual },
            _ => usual,
        }
    }
}

fn scene<P: Pair>(draw: &mut Draw, counts: &mut Counts) -> Result<(), String> {
    draw.one_nan = !draw.one_nan; // by turns
    let mood = Mood::drawn(draw);
    let threshold = counts.threshold.unwrap_or(HIGH);
    if P::RATED {
        let bad = draw.bad_rate();
        no_new::<P>(1, bad, threshold, draw, counts)?;
    }
    if P::THRESHOLD.is_some() {
        let (bad_rate, rate, bad) = (draw.bad_rate(), draw.rate(), draw.bad_threshold());
        no_new::<P>(1, bad_rate, bad, draw, counts)?;
        no_new::<P>(2, rate, bad, draw, counts)?;
        counts.met(gates::NOT_MADE);
    }
    let rate = draw.rate();
    let mut pair = P::new(rate, threshold, draw).map_err(|n| format!("new at {rate:?}: {n}"))?;
    same(&mut pair).map_err(|said| format!("new at {rate:?}: {said}"))?;
    let mut controls: Vec<f64> = P::CONTROLS.iter().map(|control| draw.usual(control)).collect();
    for _ in 0..mood.calls {
        match draw.below(mood.ticks) {
            0 => reset(&mut pair, counts)?,
            1 => change_rate(&mut pair, draw, counts)?,
            2 => {
                if put_state(&mut pair, &controls, draw, counts)? {
                    match draw.below(8) {
                        0 => reset(&mut pair, counts)?,
                        1 => change_rate(&mut pair, draw, counts)?,
                        2..=4 => block(&mut pair, &controls, draw, counts)?,
                        _ => tick(&mut pair, &controls, draw, counts)?,
                    }
                }
            }
            3 if P::RATED => {
                let bad = draw.bad_rate();
                unchanged(&mut pair, counts, 1, |pair| pair.ours_set_sample_rate(bad))
                    .map_err(|said| format!("rate change to {bad:?}: {said}"))?;
            }
            4 => {
                turn::<P>(&mut controls, &mood, draw);
                block(&mut pair, &controls, draw, counts)?;
            }
            _ => {
                turn::<P>(&mut controls, &mood, draw);
                tick(&mut pair, &controls, draw, counts)?;
            }
        }
    }
    Ok(())
}

/// A new one that must be refused by this number.
fn no_new<P: Pair>(number: u32, rate: f64, threshold: f64, draw: &mut Draw, counts: &mut Counts) -> Result<(), String> {
    refused(P::new(rate, threshold, draw).map(drop), number, counts)
        .map_err(|said| format!("new at {rate:?}, threshold {threshold:?}: {said}"))
}

/// Turns the controls before a tick.
fn turn<P: Pair>(controls: &mut [f64], mood: &Mood, draw: &mut Draw) {
    for (x, control) in controls.iter_mut().zip(P::CONTROLS) {
        let held = if control.gate { mood.gates } else { mood.held };
        if draw.one_in(held) {
            *x = draw.value(control, mood.rarely);
        } else if mood.glides && !control.gate {
            *x += draw.between(-1e-3, 1e-3) * (control.hi - control.lo);
        }
    }
}

fn mask<P: Pair>(draw: &mut Draw) -> u32 {
    match draw.below(8) {
        _ if !P::MASKED => u32::MAX,
        0 => draw.bits() as u32,
        1 => draw.below(1 << P::PORTS) as u32,
        2 => draw.of(&[0, 1 << P::PORTS, !0 << P::PORTS]),
        _ => u32::MAX,
    }
}

/// What stands in a sample before the Rust writes it.
const UNWRITTEN: u64 = 0x7ff4_5ca1_ab1e_0000;

fn tick<P: Pair>(pair: &mut P, controls: &[f64], draw: &mut Draw, counts: &mut Counts) -> Result<(), String> {
    let wanted = mask::<P>(draw);
    let before = pair.theirs();
    let told = |said: String| {
        let (floats, wholes) = (before.0.as_ref(), before.1.as_ref());
        format!("tick of {controls:?}, wanted {wanted:#x}, from {floats:?} {wholes:x?}: {said}")
    };
    pair.lend(controls, 1, draw, counts).map_err(told)?;
    let (mark, _) = sound(pair, controls, wanted, counts).map_err(told)?;
    counts.ticked::<P>(mark, &before.0, controls);
    Ok(())
}

/// A tick on both sides, with its mark and samples; an output that isn't wanted reads 0.0.
pub fn sound<P: Pair>(
    pair: &mut P,
    controls: &[f64],
    wanted: u32,
    counts: &mut Counts,
) -> Result<(Mark, [f64; MOST]), String> {
    let (mut ours, mut theirs) = ([1.0; MOST], [f64::from_bits(UNWRITTEN); MOST]);
    let mark = pair.ours_tick(controls, wanted, &mut ours[..P::PORTS]).map_err(|n| n.to_string())?;
    let their_mark = pair.theirs_tick(controls, wanted, &mut theirs[..P::PORTS], counts);
    same_sound(wanted, (mark, &ours[..P::PORTS]), (their_mark, &theirs[..P::PORTS]))?;
    same(pair)?;
    Ok((mark, ours))
}

/// Compares marks and samples of a tick.
fn same_sound(wanted: u32, (mark, ours): (Mark, &[f64]), (their_mark, theirs): (Mark, &[f64])) -> Result<(), String> {
    for (port, (&a, &b)) in ours.iter().zip(theirs).enumerate() {
        let right = if wanted >> port & 1 == 1 {
            alike(a, b) && b.to_bits() != UNWRITTEN
        } else {
            a.to_bits() == 0 && b.to_bits() == UNWRITTEN
        };
        if !right {
            return Err(format!("output {port} is {}, the Rust's {}", hex(a), hex(b)));
        }
    }
    if mark != their_mark {
        return Err(format!("marked {}, and by the Rust's values {}", mark.word(), their_mark.word()));
    }
    Ok(())
}

/// A mark's place in `Mark::ALL`.
fn place(mark: Mark) -> usize {
    mark as usize - Mark::ALL[0] as usize
}

/// The place in a tally of the count of a mark.
fn count_of(mark: Mark) -> usize {
    match mark {
        Mark::Clean => 1,
        Mark::Cleared => 2,
        Mark::NotFinite => 3,
        Mark::Lost => 4,
        Mark::Steered => 5,
    }
}

/// Counts that don't add up: without steered they would.
pub const NO_SUM: [u32; COUNTS] = [4, 1, 1, 1, 1, 1];

/// A block against so many ticks of the Rust, and its tally against their marks. First it is tried with a tally that has no room,
/// one that doesn't add up, and samples that don't fit.
fn block<P: Pair>(pair: &mut P, controls: &[f64], draw: &mut Draw, counts: &mut Counts) -> Result<(), String> {
    let wanted = mask::<P>(draw);
    let n = match draw.below(8) {
        0 => draw.of(&[0, 1, 256, 300]),
        _ => draw.below(24) as usize,
    };
    let before = pair.theirs();
    let told = |said: String| {
        let (floats, wholes) = (before.0.as_ref(), before.1.as_ref());
        format!("block of {n}, {controls:?}, wanted {wanted:#x}, from {floats:?} {wholes:x?}: {said}")
    };
    if n > 0 {
        pair.lend(controls, n, draw, counts).map_err(told)?;
    }
    let full = u32::MAX - n as u32;
    let over = full.saturating_add(1); // for no ticks there is always room
    for bad in [[over, over, 0, 0, 0, 0], NO_SUM] {
        if (n > 0 || bad == NO_SUM) && draw.one_in(4) {
            unused_block(pair, counts, 7, bad, controls, P::PORTS * n, n).map_err(told)?;
        }
    }
    if draw.one_in(4) {
        unused_block(pair, counts, 52, [0; COUNTS], controls, P::PORTS * n + 1, n).map_err(told)?;
    }
    let started = draw.of(&[[0; COUNTS], [full, 0, full, 0, 0, 0], [15, 1, 2, 3, 4, 5]]);
    let (mut tally, mut due) = (Tally::of_counts(started), started);
    let (mut samples, mut marks) = (vec![1.0; P::PORTS * n], vec![9; n]);
    pair.ours_block(controls, wanted, &mut tally, &mut samples, &mut marks).map_err(|n| told(n.to_string()))?;
    for i in 0..n {
        let mut theirs = [f64::from_bits(UNWRITTEN); MOST];
        let (floats, _) = pair.theirs();
        let their_mark = pair.theirs_tick(controls, wanted, &mut theirs[..P::PORTS], counts);
        let Some(mark) = Mark::of_number(marks[i]) else {
            return Err(told(format!("tick {i} is marked {}", marks[i])));
        };
        let ours = &samples[P::PORTS * i..P::PORTS * (i + 1)];
        same_sound(wanted, (mark, ours), (their_mark, &theirs[..P::PORTS]))
            .map_err(|said| told(format!("tick {i}: {said}")))?;
        counts.ticked::<P>(mark, &floats, controls);
        due[0] += 1;
        due[count_of(mark)] += 1;
    }
    if tally.counts() != &due {
        return Err(told(format!("the tally is {:?}, and is due to be {due:?}", tally.counts())));
    }
    counts.blocks += 1;
    pair.after_block();
    same(pair).map_err(told)
}

/// A block that must be refused by this number, and change nothing.
pub fn unused_block<P: Pair>(
    pair: &mut P,
    counts: &mut Counts,
    number: u32,
    tally: [u32; COUNTS],
    controls: &[f64],
    samples: usize,
    n: usize,
) -> Result<(), String> {
    let mut given = Tally::of_counts(tally);
    let (mut samples, mut marks) = (vec![1.5; samples], vec![9; n]);
    unchanged(pair, counts, number, |pair| pair.ours_block(controls, u32::MAX, &mut given, &mut samples, &mut marks))?;
    if given.counts() == &tally && samples.iter().all(|&x| x == 1.5) && marks.iter().all(|&mark| mark == 9) {
        Ok(())
    } else {
        Err(format!("a block refused by {number} wrote something"))
    }
}

fn reset<P: Pair>(pair: &mut P, counts: &mut Counts) -> Result<(), String> {
    let told = |said: String| format!("reset: {said}");
    pair.ours_reset().map_err(|n| told(n.to_string()))?;
    pair.theirs_reset();
    counts.resets += 1;
    same(pair).map_err(told)
}

fn change_rate<P: Pair>(pair: &mut P, draw: &mut Draw, counts: &mut Counts) -> Result<(), String> {
    let rate = if P::RATED { draw.rate() } else { draw.odd() };
    let told = |said: String| format!("rate change to {rate:?}: {said}");
    pair.lend_for_rate(rate, draw, counts).map_err(told)?;
    pair.ours_set_sample_rate(rate).map_err(|n| told(n.to_string()))?;
    pair.theirs_set_sample_rate(rate, counts);
    counts.rate_changes += 1;
    same(pair).map_err(told)
}

/// Puts both sides to a state of a caller's own making, and says whether it was taken. If not, every call refuses it, and
/// both go on from where they were.
fn put_state<P: Pair>(pair: &mut P, controls: &[f64], draw: &mut Draw, counts: &mut Counts) -> Result<bool, String> {
    let (before, (floats, wholes)) = (pair.ours(), pair.invent(controls, draw));
    let told = |said: String| format!("state of {:?} {:x?}: {said}", floats.as_ref(), wholes.as_ref());
    pair.put_ours(&floats, &wholes);
    let number = P::refusal(&floats, &wholes);
    if number == 0 {
        pair.put_theirs(&floats, &wholes, draw);
        counts.states += 1;
        let other = P::THRESHOLD.is_some_and(|place| Some(floats.as_ref()[place]) != counts.threshold);
        counts.meet([(gates::OTHER_PUT_IN, other)]);
        return Ok(true);
    }
    counts.meet([(gates::NOT_TAKEN, taken_but_for_threshold::<P>(&floats, &wholes))]);
    let (rate, bad, mut samples) = (draw.rate(), draw.bad_rate(), [0.0; MOST]);
    unchanged(pair, counts, number, |pair| pair.ours_tick(controls, u32::MAX, &mut samples[..P::PORTS]).map(drop))
        .and_then(|_| unused_block(pair, counts, number, [0; COUNTS], controls, 3 * P::PORTS, 3))
        .and_then(|_| unchanged(pair, counts, number, |pair| pair.ours_reset()))
        .and_then(|_| unchanged(pair, counts, number, |pair| pair.ours_set_sample_rate(rate)))
        .and_then(|_| unchanged(pair, counts, 1, |pair| pair.ours_set_sample_rate(bad)))
        .map_err(told)?;
    pair.put_ours(&before.0, &before.1);
    same(pair).map_err(told)?;
    Ok(false)
}

/// Whether a state that is refused would be taken with another threshold.
fn taken_but_for_threshold<P: Pair>(floats: &P::Floats, wholes: &P::Wholes) -> bool {
    P::THRESHOLD.is_some_and(|place| {
        let mut other = *floats;
        other.as_mut()[place] = HIGH;
        P::refusal(&other, wholes) == 0
    })
}

/// A call that must be refused by this number and leave our state as it stood, to the last bit of a NaN.
pub fn unchanged<P: Pair>(
    pair: &mut P,
    counts: &mut Counts,
    number: u32,
    call: impl FnOnce(&mut P) -> Result<(), Refused>,
) -> Result<(), String> {
    let (floats, wholes) = pair.ours();
    let answer = call(pair);
    refused(answer, number, counts)?;
    let now = pair.ours();
    let stays = floats.as_ref().iter().zip(now.0.as_ref()).all(|(a, b)| a.to_bits() == b.to_bits());
    if stays && wholes.as_ref() == now.1.as_ref() {
        Ok(())
    } else {
        Err(format!("refused, and the state is now {:?} {:x?}", now.0.as_ref(), now.1.as_ref()))
    }
}

fn refused(answer: Result<(), Refused>, number: u32, counts: &mut Counts) -> Result<(), String> {
    if answer == Err(Refused(number)) {
        *counts.refused.entry(number).or_default() += 1;
        Ok(())
    } else {
        Err(format!("answered {answer:?}, and the scope refuses it by {number}"))
    }
}

/// Compares every field of both states, and what is lent. Memo keys are bits of floats, and any NaN is one.
fn same<P: Pair>(pair: &mut P) -> Result<(), String> {
    let (ours, theirs) = (pair.ours(), pair.theirs());
    let floats = ours.0.as_ref().iter().zip(theirs.0.as_ref()).all(|(&a, &b)| alike(a, b));
    let wholes =
        ours.1.as_ref().iter().zip(theirs.1.as_ref()).all(|(&a, &b)| alike(f64::from_bits(a), f64::from_bits(b)));
    if floats && wholes {
        pair.same_lent()
    } else {
        let ((a, b), (c, d)) = (ours, theirs);
        Err(format!("the state is {:?} {:x?}, the Rust's {:?} {:x?}", a.as_ref(), b.as_ref(), c.as_ref(), d.as_ref()))
    }
}

/// Whether two numbers are the same to the last bit, any NaN being one.
#[inline]
pub fn alike(a: f64, b: f64) -> bool {
    a.to_bits() == b.to_bits() || a.is_nan() && b.is_nan()
}

pub fn hex(x: f64) -> String {
    format!("{x:?} ({:016X})", x.to_bits())
}

/// Refusal 1 of a rate.
pub fn bad_rate(rate: f64) -> bool {
    !(1000.0..=192000.0).contains(&rate)
}

/// Refusal 2 of a phase.
pub fn bad_phase(phase: f64) -> bool {
    !(0.0..1.0).contains(&phase)
}

/// Refusal 2 of a threshold: any number but two, by value.
pub fn bad_threshold(threshold: f64) -> bool {
    !THRESHOLDS.contains(&threshold)
}

/// The mark by the scope's rule: `outputs` are the wanted ones, `sums` what stands before a clamp, `phases` each phase
/// plus its increment, `controls` those that are given, each asked by itself: infinities of two signs add up to a NaN.
pub fn mark(
    outputs: impl IntoIterator<Item = f64>,
    sums: impl IntoIterator<Item = f64>,
    phases: impl IntoIterator<Item = f64>,
    controls: &[f64],
) -> Mark {
    if !outputs.into_iter().chain(sums).all(f64::is_finite) {
        Mark::NotFinite
    } else if !phases.into_iter().all(f64::is_finite) {
        Mark::Lost
    } else if controls.iter().any(|control| control.is_nan()) {
        Mark::Steered
    } else {
        Mark::Clean
    }
}
