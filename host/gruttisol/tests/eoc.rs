//! The Lfo's end-of-cycle pulse: where it comes, and what it doesn't ask; and whether a wrap passes a whole turn.
use gruttisol::answer::{Mark, Refused};
use gruttisol::common::{wrap_phase, wrap_turned};
use gruttisol::gate::ISSUE_1;
use gruttisol::lfo::{Controls, Lfo, Volts};
use gruttisol::tally::Tally;
use gruttisol::vco::{self, Vco};

/// Thirty turns a second, at 1,000 ticks a second.
const FAST: Controls = Controls { rate: 1.0, depth: 10.0, reset: 0.0 };
const RATE: f64 = 1000.0;
const TICKS: usize = 140;
/// The last tick of each turn.
const ENDS: [usize; 4] = [33, 66, 99, 133];
/// The Rust's five outputs.
const FIVE: u32 = 0b11111;
const ALL: u32 = 0b111111;

const SMALLEST: f64 = f64::from_bits(1);
/// The largest number below 1.0.
const BELOW: f64 = 1.0 - f64::EPSILON / 2.0;
const DEPTHS: [f64; 9] = [10.0, 5.0, -10.0, 0.0, SMALLEST, f64::MAX, f64::INFINITY, f64::NEG_INFINITY, f64::NAN];

fn fresh() -> Lfo {
    Lfo::new(RATE, ISSUE_1).unwrap()
}

/// What can be told apart of volts: their bits, any NaN being one.
fn bits(volts: &[f64]) -> Vec<u64> {
    volts.iter().map(|x| if x.is_nan() { f64::NAN.to_bits() } else { x.to_bits() }).collect()
}

fn in_order(Volts { sin, tri, saw, sqr, sin_uni, eoc }: Volts) -> [f64; 6] {
    [sin, tri, saw, sqr, sin_uni, eoc]
}

/// A tick, which is accepted: its mark and samples.
#[track_caller]
fn tick(lfo: &mut Lfo, controls: &Controls, wanted: u32) -> (Mark, [f64; 6]) {
    let ticked = lfo.tick(controls, wanted).unwrap();
    (ticked.mark, in_order(ticked.volts))
}

/// All that a new one gives in its first ticks: marks, samples by their bits, and the state that it is left in.
type Played = (Vec<u32>, Vec<u64>, Lfo);

fn by_ticks(controls: &Controls, wanted: u32) -> Played {
    let mut lfo = fresh();
    let (marks, samples): (Vec<u32>, Vec<[f64; 6]>) =
        (0..TICKS).map(|_| tick(&mut lfo, controls, wanted)).map(|(mark, volts)| (mark as u32, volts)).unzip();
    (marks, bits(samples.as_flattened()), lfo)
}

/// By blocks of so many ticks and one of those that are left.
fn by_blocks(controls: &Controls, wanted: u32, ticks: usize) -> Played {
    let (mut lfo, mut tally) = (fresh(), Tally::new());
    let (mut samples, mut marks) = (vec![1.0; 6 * TICKS], vec![0; TICKS]);
    for (samples, marks) in samples.chunks_mut(6 * ticks).zip(marks.chunks_mut(ticks)) {
        lfo.block(controls, wanted, &mut tally, samples, marks).unwrap();
    }
    assert_eq!(tally.counts()[0], TICKS as u32);
    (marks, bits(&samples), lfo)
}

#[track_caller]
fn same((marks, samples, lfo): &Played, (due_marks, due_samples, due): &Played) {
    assert_eq!((marks, samples), (due_marks, due_samples));
    assert_eq!((bits(lfo.parts().0), lfo.parts().1), (bits(due.parts().0), due.parts().1));
}

/// The ticks that have a pulse. All others read 0.0.
fn pulses(samples: &[u64]) -> Vec<usize> {
    let eoc: Vec<f64> = samples.iter().skip(5).step_by(6).map(|&bits| f64::from_bits(bits)).collect();
    assert!(eoc.iter().all(|x| [0, 5f64.to_bits()].contains(&x.to_bits())), "{eoc:?}");
    (0..eoc.len()).filter(|&tick| eoc[tick] == 5.0).collect()
}

#[test]
fn each_turn_ends_with_a_pulse() {
    let (marks, samples, _) = by_ticks(&FAST, Lfo::WANT_ALL);
    assert_eq!(marks, [Mark::Clean as u32; TICKS]);
    assert_eq!(pulses(&samples), ENDS);
    let saw: Vec<f64> = samples.iter().skip(2).step_by(6).map(|&bits| f64::from_bits(bits)).collect();
    let falls: Vec<usize> = (1..TICKS).filter(|&tick| saw[tick] < saw[tick - 1]).collect();
    assert_eq!(falls, ENDS.map(|tick| tick + 1));
}

/// Of any depth, wanted alone or with others, by ticks and by blocks of any length.
#[test]
fn ticks_and_blocks_agree() {
    for depth in DEPTHS {
        let controls = Controls { depth, ..FAST };
        for wanted in 0..=ALL {
            let ticks = by_ticks(&controls, wanted);
            for length in [1, 7, 34, TICKS] {
                same(&by_blocks(&controls, wanted, length), &ticks);
            }
            let due: &[usize] = if wanted & Lfo::WANT_EOC == 0 { &[] } else { &ENDS };
            assert_eq!(pulses(&ticks.1), due, "depth {depth:?}, wanted {wanted:#b}");
        }
    }
}

/// A pulse asks for no depth: where it alone is wanted, none makes the tick notfinite, and a NaN steers it.
#[test]
fn marks_of_any_depth() {
    for depth in DEPTHS {
        let controls = Controls { depth, ..FAST };
        let alone = if depth.is_nan() { Mark::Steered } else { Mark::Clean };
        assert_eq!(by_ticks(&controls, Lfo::WANT_EOC).0, [alone as u32; TICKS], "depth {depth:?}");
        assert_eq!(by_ticks(&controls, Lfo::WANT_EOC).0, by_ticks(&controls, 0).0, "depth {depth:?}");
        // and beside the others it changes none of their marks
        assert_eq!(by_ticks(&controls, ALL).0, by_ticks(&controls, FIVE).0, "depth {depth:?}");
    }
    let spoiled = Controls { depth: f64::INFINITY, ..FAST };
    assert_eq!(by_ticks(&spoiled, ALL).0[33], Mark::NotFinite as u32);
}

/// The other outputs are what they are without it, and where it isn't wanted it reads 0.0.
#[test]
fn beside_the_other_outputs() {
    for five in 0..=FIVE {
        let (with, without) = (by_ticks(&FAST, five | Lfo::WANT_EOC), by_ticks(&FAST, five));
        let others = |samples: &[u64]| samples.chunks(6).flat_map(|tick| tick[..5].to_vec()).collect::<Vec<_>>();
        assert_eq!(others(&with.1), others(&without.1), "{five:#b}");
        assert_eq!((with.0, with.2.parts()), (without.0, without.2.parts()), "{five:#b}");
        assert!(without.1.iter().skip(5).step_by(6).all(|&bits| bits == 0), "{five:#b}");
        assert_eq!(pulses(&with.1), ENDS, "{five:#b}");
    }
    let (_, alone, _) = by_ticks(&FAST, Lfo::WANT_EOC);
    assert!(alone.chunks(6).all(|tick| tick[..5] == [0; 5]));
}

/// Bits from 6 on do nothing, each alone and all together.
#[test]
fn bits_beyond_the_outputs() {
    for beyond in (6..32).map(|bit| 1 << bit).chain([!ALL]) {
        for wanted in [0, Lfo::WANT_EOC, FIVE, ALL] {
            same(&by_ticks(&FAST, wanted | beyond), &by_ticks(&FAST, wanted));
            same(&by_blocks(&FAST, wanted | beyond, 9), &by_ticks(&FAST, wanted));
        }
    }
    same(&by_ticks(&FAST, Lfo::WANT_ALL), &by_ticks(&FAST, ALL));
}

/// Of a Vco bit 5 still does nothing.
#[test]
fn a_vco_has_no_pulse() {
    let controls = vco::Controls { voct: 5.0, fm: 0.0, pw: 0.5, sync: 0.0, fm_lin: 0.0 };
    for wanted in 0..16 {
        let [mut with, mut without] = [(); 2].map(|()| Vco::new(RATE, ISSUE_1).unwrap());
        for _ in 0..TICKS {
            let [a, b] = [with.tick(&controls, wanted | 1 << 5), without.tick(&controls, wanted)];
            assert_eq!(a.unwrap(), b.unwrap());
            assert_eq!(with.parts(), without.parts());
        }
    }
}

/// In a tick that takes its reset the turn doesn't end: it is cut off. What follows is a new one's, pulses too.
#[test]
fn a_reset_cuts_a_turn_off() {
    let high = Controls { reset: 5.0, ..FAST };
    for n in 0..TICKS {
        let mut cut = fresh();
        for _ in 0..n {
            tick(&mut cut, &FAST, ALL);
        }
        let mut uncut = cut;
        let due = if ENDS.contains(&n) { 5.0 } else { 0.0 };
        assert_eq!(tick(&mut uncut, &FAST, ALL).1[5], due, "tick {n}");
        assert_eq!(tick(&mut cut, &high, ALL).1[5], 0.0, "tick {n}");
        let mut new = fresh();
        tick(&mut new, &high, ALL);
        for later in 1..=TICKS {
            let (answer, due) = (tick(&mut cut, &FAST, ALL), tick(&mut new, &FAST, ALL));
            assert_eq!(answer, due, "{later} after tick {n}");
            assert_eq!(due.1[5] == 5.0, ENDS.contains(&later), "{later} after tick {n}");
        }
    }
}

/// A number, its phase, and whether it passes a whole turn.
#[test]
fn turns_of_numbers() {
    let small = 1.0 / (1u64 << 60) as f64;
    for (x, phase, turned) in [
        (0.0, 0.0, false),
        (-0.0, 0.0, false),
        (SMALLEST, SMALLEST, false),
        (-SMALLEST, 0.0, true),
        (-f64::MIN_POSITIVE, 0.0, true),
        (small, small, false),
        (-small, 0.0, true),
        (-f64::EPSILON / 2.0, BELOW, true),
        (0.5, 0.5, false),
        (-0.25, 0.75, true),
        (BELOW, BELOW, false),
        (1.0, 0.0, true),
        (1.0 + f64::EPSILON, f64::EPSILON, true),
        (-1.0, 0.0, true),
        (-BELOW, f64::EPSILON / 2.0, true),
        (2.0, 0.0, true),
        (2.5, 0.5, true),
        (-2.5, 0.5, true),
        (f64::MAX, 0.0, true),
        (f64::MIN, 0.0, true),
        (f64::INFINITY, 0.0, false),
        (f64::NEG_INFINITY, 0.0, false),
        (f64::NAN, 0.0, false),
        (-f64::NAN, 0.0, false),
    ] {
        assert_eq!(wrap_turned(x), turned, "{x:?}");
        assert_eq!(wrap_phase(x), phase, "{x:?}");
    }
}

/// A state of a caller's own, at 1,024 ticks a second: the memo holds a frequency for a rate of 1 V that makes this increment.
fn own(phase: f64, increment: f64, previous: f64) -> Lfo {
    Lfo::of_parts([phase, 1024.0, previous, ISSUE_1, increment * 1024.0], [1f64.to_bits(), 1])
}

/// Phases and increments by which a turn ends just so, or just doesn't, forwards and backwards.
#[test]
fn states_of_a_callers_own() {
    let unit = f64::EPSILON / 2.0; // of the last place below 1.0
    for (phase, increment, due) in [
        (0.0, BELOW, 0.0),
        (0.0, 1.0, 5.0),
        (0.0, 1.0 + f64::EPSILON, 5.0),
        (0.25, 0.75, 5.0),
        (0.25, 0.75 - unit, 0.0),
        (0.25, 0.75 + unit, 5.0),
        (0.5, 0.5, 5.0),
        (0.5, 0.5 - unit, 0.0),
        (0.5, 0.5 - unit / 2.0, 5.0), // the sum is rounded to 1.0
        (0.75, 0.25, 5.0),
        (0.75, 0.25 - unit, 0.0),
        (0.75 - unit, 0.25, 0.0),
        (BELOW, 0.0, 0.0),
        (BELOW, -0.0, 0.0),
        (BELOW, unit / 4.0, 0.0),
        (BELOW, unit / 2.0, 5.0), // rounded too
        (BELOW, unit, 5.0),
        (BELOW, -unit, 0.0),
        (BELOW, BELOW, 5.0),
        (unit, BELOW, 5.0),
        (0.5, 2.0, 5.0),
        (0.5, 1e300, 5.0),
        (0.0, 0.0, 0.0),
        (0.0, -0.0, 0.0),
        (-0.0, -0.0, 0.0),
        (0.0, SMALLEST, 0.0),
        (0.0, -SMALLEST, 5.0),
        (0.0, -unit, 5.0),
        (SMALLEST, -SMALLEST, 0.0),
        (0.25, -0.25, 0.0),
        (0.25, -0.25 + unit, 0.0),
        (0.25, -0.25 - unit, 5.0),
        (0.25, -0.5, 5.0),
        (0.5, -1e300, 5.0),
    ] {
        let told = format!("phase {phase:?}, increment {increment:?}");
        let (mut lfo, mut samples, mut marks) = (own(phase, increment, 0.0), [1.0; 6], [0]);
        let (mark, volts) = tick(&mut lfo, &FAST, ALL);
        assert_eq!((mark, volts[5]), (Mark::Clean, due), "{told}");
        own(phase, increment, 0.0).block(&FAST, ALL, &mut Tally::new(), &mut samples, &mut marks).unwrap();
        assert_eq!((marks, samples), ([Mark::Clean as u32], volts), "{told}");
        assert_eq!(wrap_turned(phase + increment), due == 5.0, "{told}");
        assert_eq!(lfo.parts().0[0], wrap_phase(phase + increment), "{told}");
    }
}

/// A falling phase has its pulse where it goes below 0: there a turn ends too.
#[test]
fn a_phase_that_falls() {
    let mut lfo = own(0.0, -0.25, 0.0);
    let eoc: Vec<f64> = (0..9).map(|_| tick(&mut lfo, &FAST, ALL).1[5]).collect();
    assert_eq!(eoc, [5.0, 0.0, 0.0, 0.0, 5.0, 0.0, 0.0, 0.0, 5.0]);
}

/// An edge tick begins at 0: from there an increment of a caller's own may pass a turn.
#[test]
fn an_edge_of_a_callers_own() {
    let high = Controls { reset: 5.0, ..FAST };
    for (increment, due) in [(BELOW, 0.0), (1.0, 5.0), (-SMALLEST, 5.0), (-0.0, 0.0)] {
        assert_eq!(tick(&mut own(BELOW, increment, 0.0), &high, ALL).1[5], due, "{increment:?}");
    }
    assert_eq!(tick(&mut own(BELOW, 0.5, 0.0), &high, ALL).1[5], 0.0);
    assert_eq!(tick(&mut own(BELOW, 0.5, 5.0), &high, ALL).1[5], 5.0); // no edge
}

/// A lost tick passes no turn, wherever its phase stood.
#[test]
fn lost_ticks_have_no_pulse() {
    for phase in [0.0, 0.5, BELOW] {
        for increment in [f64::INFINITY, f64::NEG_INFINITY, f64::NAN] {
            let mut lfo = own(phase, increment, 0.0);
            let (mark, volts) = tick(&mut lfo, &FAST, ALL);
            assert_eq!((mark, volts[5], lfo.parts().0[0]), (Mark::Lost, 0.0, 0.0), "{phase:?}, {increment:?}");
        }
        let broken = Controls { rate: f64::NAN, ..FAST };
        let (mark, volts) = tick(&mut own(phase, 0.5, 0.0), &broken, Lfo::WANT_EOC);
        assert_eq!((mark, volts), (Mark::Lost, [0.0; 6]), "{phase:?}");
    }
}

/// A host that lends five samples for each tick, as there were once, is told so.
#[test]
fn five_samples_are_refused() {
    let (mut lfo, mut tally) = (fresh(), Tally::new());
    let (mut samples, mut marks) = ([1.0; 5 * 12], [0; 12]);
    assert_eq!(lfo.block(&FAST, ALL, &mut tally, &mut samples, &mut marks), Err(Refused(52)));
    assert_eq!((samples, marks, tally), ([1.0; 5 * 12], [0; 12], Tally::new()));
    assert_eq!(lfo.parts(), fresh().parts());
    assert_eq!(lfo.block(&FAST, ALL, &mut tally, &mut samples, &mut marks[..10]), Ok(()));
}
