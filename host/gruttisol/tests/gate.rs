//! What a gate must rise above: which thresholds an oscillator is made with, which edges it takes by them, and that it keeps them.
use gruttisol::answer::{Mark, Refused};
use gruttisol::gate::{Issue, ISSUE_1, ISSUE_2};
use gruttisol::karplus_strong::{self, KarplusStrong};
use gruttisol::lfo::{self, Lfo};
use gruttisol::tally::Tally;
use gruttisol::vco::{self, Vco};
use gruttisol::wavetable::{self, Wavetable};

const RATE: f64 = 48000.0;
const NO_RATE: f64 = 999.5;
/// Ticks in a block.
const TICKS: usize = 3;
/// What stands in lent cells before a call.
const STOOD: f64 = -123.25;

/// Numbers that are no issue's threshold.
fn no_thresholds() -> Vec<f64> {
    let beside = [ISSUE_1, ISSUE_2].into_iter().flat_map(|volts| [volts.next_down(), volts.next_up(), -volts]);
    let others = [0.0, -0.0, 0.5, 1.5, 2.0, 3.0, 5.0, f64::MAX, f64::INFINITY, f64::NEG_INFINITY, f64::MIN_POSITIVE];
    let small = [f64::from_bits(1), f64::MIN_POSITIVE.next_down()];
    let nans = [0x7ff8_0000_0000_0000, 0xfff8_0000_0000_0000, 0x7ff0_0000_0000_0001, 0x7ff4_0000_0000_0000];
    beside.chain(others).chain(small).chain(nans.map(f64::from_bits)).collect()
}

/// A state as its bits, so that not one of a NaN changes unseen.
fn bits(floats: &[f64]) -> Vec<u64> {
    floats.iter().map(|x| x.to_bits()).collect()
}

/// An oscillator with a gate, and what is lent to it.
trait Gated: Sized {
    const NAME: &'static str;
    /// Volts of a tick.
    const PORTS: usize;
    /// The places of what the gate was before and of the threshold among the floats.
    const PREVIOUS: usize;
    const THRESHOLD: usize = Self::PREVIOUS + 1;

    fn new(sample_rate: f64, threshold: f64) -> Result<Self, Refused>;
    fn state(&self) -> (Vec<f64>, Vec<u64>);
    fn put(&mut self, floats: &[f64], wholes: &[u64]);
    /// What is lent and may be written, as it stands.
    fn lent(&self) -> Vec<f64> {
        vec![]
    }
    fn tick(&mut self, gate: f64) -> Result<Mark, Refused>;
    fn block(&mut self, gate: f64, tally: &mut Tally, samples: &mut [f64], marks: &mut [u32]) -> Result<(), Refused>;
    fn reset(&mut self) -> Result<(), Refused>;
    fn set_sample_rate(&mut self, sample_rate: f64) -> Result<(), Refused>;
}

/// State, ticks and blocks of a type, given how a gate becomes its controls, and what stands behind these.
macro_rules! played {
    ($type:ident, |$self:ident, $gate:ident| $controls:expr $(, $behind:expr)*) => {
        fn state(&self) -> (Vec<f64>, Vec<u64>) {
            let (floats, wholes) = self.state.parts();
            (floats.to_vec(), wholes.to_vec())
        }

        fn put(&mut self, floats: &[f64], wholes: &[u64]) {
            self.state = $type::of_parts(floats.try_into().unwrap(), wholes.try_into().unwrap());
        }

        fn tick(&mut $self, $gate: f64) -> Result<Mark, Refused> {
            $self.state.tick(&$controls $(, $behind)*).map(|ticked| ticked.mark)
        }

        fn block(
            &mut $self,
            $gate: f64,
            tally: &mut Tally,
            samples: &mut [f64],
            marks: &mut [u32],
        ) -> Result<(), Refused> {
            $self.state.block(&$controls $(, $behind)*, tally, samples, marks)
        }
    };
}

/// Reset and rate change of one whose state alone is lent to them.
macro_rules! changed {
    () => {
        fn reset(&mut self) -> Result<(), Refused> {
            self.state.reset()
        }

        fn set_sample_rate(&mut self, sample_rate: f64) -> Result<(), Refused> {
            self.state.set_sample_rate(sample_rate)
        }
    };
}

struct OfVco {
    state: Vco,
}

impl Gated for OfVco {
    const NAME: &'static str = "vco";
    const PORTS: usize = 4;
    const PREVIOUS: usize = 2;

    fn new(sample_rate: f64, threshold: f64) -> Result<Self, Refused> {
        Ok(OfVco { state: Vco::new(sample_rate, threshold)? })
    }

    played!(Vco, |self, gate| vco::Controls { voct: 0.25, fm: 0.0, pw: 0.5, sync: gate, fm_lin: 0.0 }, Vco::WANT_ALL);
    changed!();
}

struct OfLfo {
    state: Lfo,
}

impl Gated for OfLfo {
    const NAME: &'static str = "lfo";
    const PORTS: usize = 6;
    const PREVIOUS: usize = 2;

    fn new(sample_rate: f64, threshold: f64) -> Result<Self, Refused> {
        Ok(OfLfo { state: Lfo::new(sample_rate, threshold)? })
    }

    played!(Lfo, |self, gate| lfo::Controls { rate: 0.5, depth: 10.0, reset: gate }, Lfo::WANT_ALL);
    changed!();
}

struct OfWavetable {
    state: Wavetable,
    bank: Vec<f64>,
}

impl Gated for OfWavetable {
    const NAME: &'static str = "wavetable";
    const PORTS: usize = 1;
    const PREVIOUS: usize = 2;

    fn new(sample_rate: f64, threshold: f64) -> Result<Self, Refused> {
        Ok(OfWavetable { state: Wavetable::new(sample_rate, threshold)?, bank: vec![0.5; Wavetable::BANK] })
    }

    played!(
        Wavetable,
        |self, gate| wavetable::Controls { v_oct: 0.25, table: 0.0, morph: 0.0, sync: gate },
        &self.bank
    );
    changed!();
}

struct OfString {
    state: KarplusStrong,
    line: Vec<f64>,
    draws: Vec<u64>,
}

impl Gated for OfString {
    const NAME: &'static str = "string";
    const PORTS: usize = 1;
    const PREVIOUS: usize = 4;

    fn new(sample_rate: f64, threshold: f64) -> Result<Self, Refused> {
        let cells = KarplusStrong::cells(RATE);
        let (mut line, draws) = (vec![STOOD; cells], vec![0; cells]);
        let made = KarplusStrong::new(sample_rate, threshold, &mut line);
        assert!(made.is_ok() || line.iter().all(|&cell| cell == STOOD), "refused, and the line isn't as it stood");
        Ok(OfString { state: made?, line, draws })
    }

    played!(
        KarplusStrong,
        |self, gate| karplus_strong::Controls {
            voct: 0.25,
            trigger: gate,
            damping: 0.5,
            brightness: 0.5,
            stretch: 0.0
        },
        &mut self.line,
        &self.draws
    );

    fn lent(&self) -> Vec<f64> {
        self.line.clone()
    }

    fn reset(&mut self) -> Result<(), Refused> {
        self.state.reset(&mut self.line)
    }

    fn set_sample_rate(&mut self, sample_rate: f64) -> Result<(), Refused> {
        self.state.set_sample_rate(sample_rate, &mut self.line)
    }
}

/// The check of each of the four.
macro_rules! each {
    ($check:ident $(, $given:expr)*) => {
        $check::<OfVco>($($given),*);
        $check::<OfLfo>($($given),*);
        $check::<OfWavetable>($($given),*);
        $check::<OfString>($($given),*);
    };
}

/// One that has run for some ticks, so that its phase, or its line, isn't a new one's.
fn run<G: Gated>(threshold: f64) -> G {
    let mut gated = G::new(RATE, threshold).unwrap();
    for gate in [5.0, 0.0, 0.0, 0.0] {
        gated.tick(gate).unwrap();
    }
    gated
}

#[test]
fn the_two_issues() {
    assert_eq!(Issue::ALL.map(|issue| (issue as u32, issue.threshold())), [(1, 2.5), (2, 1.0)]);
    assert_eq!(
        [0, 1, 2, 3, 1 << 32, u64::MAX].map(Issue::of_number),
        [None, Some(Issue::One), Some(Issue::Two), None, None, None]
    );
}

/// By 2 any threshold but two, after 1 and, of a string, before 3.
#[test]
fn new_ones() {
    fn made<G: Gated>() {
        for threshold in [ISSUE_1, ISSUE_2] {
            let (floats, _) = G::new(RATE, threshold).unwrap().state();
            assert_eq!((floats[G::PREVIOUS], floats[G::THRESHOLD]), (0.0, threshold), "{}", G::NAME);
            assert_eq!(G::new(NO_RATE, threshold).err(), Some(Refused(1)), "{}", G::NAME);
        }
        for threshold in no_thresholds() {
            assert_eq!(G::new(RATE, threshold).err(), Some(Refused(2)), "{} at {threshold:?}", G::NAME);
            assert_eq!(G::new(NO_RATE, threshold).err(), Some(Refused(1)), "{} at {threshold:?}", G::NAME);
        }
    }
    each!(made);
    let mut short = vec![STOOD; KarplusStrong::cells(RATE) - 1];
    for threshold in no_thresholds() {
        assert_eq!(KarplusStrong::new(RATE, threshold, &mut short).err(), Some(Refused(2)), "{threshold:?}");
        assert_eq!(KarplusStrong::new(NO_RATE, threshold, &mut short).err(), Some(Refused(1)), "{threshold:?}");
    }
    assert_eq!(KarplusStrong::new(RATE, ISSUE_2, &mut short).err(), Some(Refused(3)));
    assert!(short.iter().all(|&cell| cell == STOOD));
}

/// Every call refuses a state with another threshold, and changes nothing: not the state, nor what is lent, nor the tally.
#[test]
fn states_with_another_threshold() {
    fn refused<G: Gated>() {
        for threshold in no_thresholds() {
            for (rate, number) in [(RATE, 2), (NO_RATE, 1)] {
                let mut gated = run::<G>(ISSUE_1);
                let (mut floats, wholes) = gated.state();
                floats.iter_mut().filter(|x| **x == RATE).for_each(|x| *x = rate);
                floats[G::THRESHOLD] = threshold;
                gated.put(&floats, &wholes);
                let lent = gated.lent();
                let (mut tally, mut samples, mut marks) = (Tally::new(), vec![STOOD; G::PORTS * TICKS], [9; TICKS]);
                let told = format!("{} at {threshold:?} V and {rate} Hz", G::NAME);
                assert_eq!(gated.tick(5.0), Err(Refused(number)), "{told}");
                assert_eq!(gated.block(5.0, &mut tally, &mut samples, &mut marks), Err(Refused(number)), "{told}");
                assert_eq!(gated.reset(), Err(Refused(number)), "{told}");
                assert_eq!(gated.set_sample_rate(44100.0), Err(Refused(number)), "{told}");
                assert_eq!(gated.set_sample_rate(NO_RATE), Err(Refused(1)), "{told}");
                let (now, now_wholes) = gated.state();
                assert_eq!((bits(&now), now_wholes), (bits(&floats), wholes), "{told}");
                assert_eq!(gated.lent(), lent, "{told}");
                assert_eq!((tally, marks), (Tally::new(), [9; TICKS]), "{told}");
                assert!(samples.iter().all(|&x| x == STOOD), "{told}");
            }
        }
    }
    each!(refused);
}

/// What is lent comes after: a line that is too short, a bank that is none, and draws that are missing.
#[test]
fn before_what_is_lent() {
    fn refused<G: Gated>(spoil: fn(&mut G), last: u32) {
        for (threshold, number) in [(f64::NAN, 2), (ISSUE_1, last), (ISSUE_2, last)] {
            let mut gated = run::<G>(ISSUE_1);
            let (mut floats, wholes) = gated.state();
            floats[G::THRESHOLD] = threshold;
            gated.put(&floats, &wholes);
            spoil(&mut gated);
            assert_eq!(gated.tick(5.0), Err(Refused(number)), "{} at {threshold:?} V", G::NAME);
        }
    }
    refused::<OfString>(|string| string.line.truncate(10), 3);
    refused::<OfString>(|string| string.draws.clear(), 5);
    refused::<OfString>(|string| string.draws[0] = 1 << 53, 6);
    refused::<OfWavetable>(|wavetable| wavetable.bank.clear(), 4);
}

/// The state that a tick with this gate leaves, without the gate itself: another than that of a low gate's where its edge is taken.
fn left<G: Gated>(gated: &mut G, gate: f64) -> (Vec<u64>, Vec<u64>, Vec<u64>) {
    gated.tick(gate).unwrap();
    let (mut floats, wholes) = gated.state();
    floats.remove(G::PREVIOUS);
    (bits(&floats), wholes, bits(&gated.lent()))
}

/// Whether a gate is taken that was this before.
fn takes<G: Gated>(threshold: f64, previous: f64, gate: f64) -> bool {
    let [struck, low] = [gate, -1.0].map(|gate| {
        let mut gated = run::<G>(threshold);
        let (mut floats, wholes) = gated.state();
        floats[G::PREVIOUS] = previous;
        gated.put(&floats, &wholes);
        left(&mut gated, gate)
    });
    struck != low
}

/// A rise is from not above the threshold to above it: what a gate was, what it is, and whether that is one at 2.5 V and at 1 V.
#[test]
fn edges() {
    const BOTH: [bool; 2] = [true, true];
    const NONE: [bool; 2] = [false, false];
    const HIGH: [bool; 2] = [true, false];
    const LOW: [bool; 2] = [false, true];
    let table = [
        (0.0, 0.0, NONE),
        (0.0, 1.0f64.next_down(), NONE),
        (0.0, 1.0, NONE),
        (0.0, 1.0f64.next_up(), LOW),
        (0.0, 1.5, LOW),
        (1.0f64.next_down(), 1.5, LOW),
        (1.0, 1.0, NONE),
        (1.0, 1.0f64.next_up(), LOW),
        (1.0, 1.5, LOW),
        (1.0, 3.0, BOTH),
        (1.0f64.next_up(), 1.5, NONE),
        (1.0f64.next_up(), 3.0, HIGH),
        (1.5, 2.5, NONE),
        (1.5, 2.5f64.next_up(), HIGH),
        (1.5, 1.0, NONE),
        (0.0, 2.5, LOW),
        (0.0, 2.5f64.next_up(), BOTH),
        (2.5, 2.5, NONE),
        (2.5, 3.0, HIGH),
        (2.5f64.next_up(), 3.0, NONE),
        (3.0, 1.5, NONE),
        (-0.0, 5.0, BOTH),
        (-5.0, 1.5, LOW),
        (f64::NEG_INFINITY, 1.5, LOW),
        (f64::NEG_INFINITY, f64::INFINITY, BOTH),
        (0.0, f64::INFINITY, BOTH),
        (f64::INFINITY, f64::INFINITY, NONE),
        (0.0, f64::NEG_INFINITY, NONE),
        (f64::NAN, 5.0, NONE),
        (0.0, f64::NAN, NONE),
    ];
    fn taken<G: Gated>(table: &[(f64, f64, [bool; 2])]) {
        for &(previous, gate, due) in table {
            let taken = [ISSUE_1, ISSUE_2].map(|threshold| takes::<G>(threshold, previous, gate));
            assert_eq!(taken, due, "{} from {previous:?} V to {gate:?} V", G::NAME);
        }
    }
    each!(taken, &table);
}

/// A call, and what it is.
type Call<G> = (&'static str, fn(&mut G));

/// A reset, a rate change and any ticks keep the threshold: a gate of 1.5 V strikes after them where it did before.
#[test]
fn it_is_kept() {
    fn kept<G: Gated>() {
        for (threshold, strikes) in [(ISSUE_1, false), (ISSUE_2, true)] {
            let calls: [Call<G>; 4] = [
                ("nothing", |_| {}),
                ("a reset", |gated| gated.reset().unwrap()),
                ("a rate change", |gated| gated.set_sample_rate(44100.0).unwrap()),
                ("both", |gated| gated.reset().and_then(|()| gated.set_sample_rate(32000.0)).unwrap()),
            ];
            for (what, call) in calls {
                let [struck, low] = [1.5, 0.0].map(|gate| {
                    let mut gated = run::<G>(threshold);
                    call(&mut gated);
                    let (floats, _) = gated.state();
                    assert_eq!(floats[G::THRESHOLD], threshold, "{} after {what}", G::NAME);
                    let (mut samples, mut marks) = (vec![0.0; G::PORTS * TICKS], [0; TICKS]);
                    gated.block(0.0, &mut Tally::new(), &mut samples, &mut marks).unwrap();
                    let left = left(&mut gated, gate);
                    assert_eq!(gated.state().0[G::THRESHOLD], threshold, "{} after {what} and ticks", G::NAME);
                    left
                });
                assert_eq!(struck != low, strikes, "{} at {threshold} V after {what}", G::NAME);
            }
        }
    }
    each!(kept);
}

/// A reset forgets what the gate was: of a high one the next high tick is an edge again.
#[test]
fn a_reset_forgets_the_gate() {
    fn forgets<G: Gated>() {
        let mut gated = run::<G>(ISSUE_2);
        gated.tick(1.5).unwrap();
        gated.reset().unwrap();
        let (floats, _) = gated.state();
        assert_eq!((floats[G::PREVIOUS], floats[G::THRESHOLD]), (0.0, ISSUE_2), "{}", G::NAME);
    }
    each!(forgets);
}

/// Where between two ticks a sync rose: a Vco at three quarters of its turn, whose increment is a quarter, given 5 V after 0 V. Above 2.5 V it
/// is halfway, and above 1 V a fifth of the way; the saw is corrected by the square of that, times 3.75 V.
#[test]
fn the_part_of_a_tick_where_a_sync_rises() {
    for (threshold, saw) in [(ISSUE_1, 3.75 / 4.0), (ISSUE_2, 3.75 / 25.0)] {
        let mut state = Vco::of_parts([0.75, RATE, 0.0, threshold, RATE / 4.0], [0, 0, 0, 1]);
        let controls = vco::Controls { voct: 0.0, fm: 0.0, pw: 0.5, sync: 5.0, fm_lin: 0.0 };
        let ticked = state.tick(&controls, Vco::WANT_SAW).unwrap();
        assert!((ticked.volts.saw - saw).abs() < 1e-12, "{} V at {threshold} V, and not {saw}", ticked.volts.saw);
        assert_eq!(ticked.mark, Mark::Clean);
    }
}
