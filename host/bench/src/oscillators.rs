//! Nanoseconds a tick, ours and the Rust's in one run.
//!
//! Ours is a call of the safe crate, with all checks and the mark. The Rust's is the bare body of a tick, over the functions
//! of Rust's standard library. Held controls are one set for all ticks; moving ones glide, so that no memo ever holds. Blocks
//! are of held controls, with their tally, against the same bare body and against the Rust's own block call.
use crate::noise;
use gruttisol::gate::ISSUE_1;
use gruttisol::tally::Tally;
use gruttisol::{formant_osc, karplus_strong, lfo, supersaw, vco, wavetable};
use random::Random;
use std::hint::black_box;
use std::time::Instant;

const RATE: f64 = 48000.0;
/// Ticks in a run, before which a string is plucked.
pub const TICKS: usize = 8192;
/// Ticks in a block.
pub const BLOCK: usize = 256;
/// Runs of either side.
const RUNS: usize = 60;

/// Prints the lines of every oscillator, or of those that are named.
pub fn rows(named: &[String]) {
    println!("{:<16} {:<10} {:>7} {:>7} {:>7}", "ns a tick", "controls", "ours", "Rust's", "ratio");
    let all: [(&str, fn()); 7] = [
        ("vco", vco),
        ("lfo", lfo),
        ("supersaw", supersaw),
        ("wavetable", wavetable),
        ("formant", formant),
        ("karplus_strong", karplus_strong),
        ("noise_generator", noise::rows),
    ];
    for (name, rows) in all {
        if named.is_empty() || named.iter().any(|word| word == name) {
            rows();
        }
    }
}

fn vco() {
    let mut state = vco::Vco::new(RATE, ISSUE_1).unwrap();
    let ours = move |&[voct, fm, pw, sync, fm_lin]: &[f64; 5]| {
        state.tick(&vco::Controls { voct, fm, pw, sync, fm_lin }, vco::Vco::WANT_ALL).unwrap().volts
    };
    let held = [0.25, 0.0, 0.5, 0.0, 0.0];
    row("vco", held, [true, true, true, false, true], ours, theirs::vco());
    let [voct, fm, pw, sync, fm_lin] = held;
    let controls = vco::Controls { voct, fm, pw, sync, fm_lin };
    let mut state = vco::Vco::new(RATE, ISSUE_1).unwrap();
    let ours = |tally: &mut Tally, samples: &mut [f64], marks: &mut [u32]| {
        state.block(black_box(&controls), vco::Vco::WANT_ALL, tally, samples, marks).unwrap()
    };
    blocks("vco", 4, held, ours, theirs::vco(), theirs::blocks::vco());
}

/// The first lines want the Rust's five outputs, as they did before there was a sixth, so that they can be held against earlier runs; the
/// second ones want `eoc` too, which the Rust hasn't.
fn lfo() {
    const FIVE: u32 = 0b11111;
    for (name, wanted) in [("lfo", FIVE), ("lfo, eoc", FIVE | lfo::Lfo::WANT_EOC)] {
        let mut state = lfo::Lfo::new(RATE, ISSUE_1).unwrap();
        let ours = move |&[rate, depth, reset]: &[f64; 3]| {
            state.tick(&lfo::Controls { rate, depth, reset }, wanted).unwrap().volts
        };
        let held = [0.5, 10.0, 0.0];
        row(name, held, [true, true, false], ours, theirs::lfo());
        let [rate, depth, reset] = held;
        let controls = lfo::Controls { rate, depth, reset };
        let mut state = lfo::Lfo::new(RATE, ISSUE_1).unwrap();
        let ours = |tally: &mut Tally, samples: &mut [f64], marks: &mut [u32]| {
            state.block(black_box(&controls), wanted, tally, samples, marks).unwrap()
        };
        blocks(name, 6, held, ours, theirs::lfo(), theirs::blocks::lfo());
    }
}

fn supersaw() {
    let mut state = supersaw::Supersaw::new(RATE).unwrap();
    let ours =
        move |&[voct, detune, mix]: &[f64; 3]| state.tick(&supersaw::Controls { voct, detune, mix }).unwrap().volts;
    let held = [0.25, 0.5, 0.7];
    row("supersaw", held, [true; 3], ours, theirs::supersaw());
    let [voct, detune, mix] = held;
    let controls = supersaw::Controls { voct, detune, mix };
    let mut state = supersaw::Supersaw::new(RATE).unwrap();
    let ours = |tally: &mut Tally, samples: &mut [f64], marks: &mut [u32]| {
        state.block(black_box(&controls), tally, samples, marks).unwrap()
    };
    blocks("supersaw", 2, held, ours, theirs::supersaw(), theirs::blocks::supersaw());
}

fn wavetable() {
    let bank: Vec<f64> = (0..wavetable::Wavetable::BANK).map(|cell| (cell as f64).sin()).collect();
    // the higher pitch asks four levels of each table, the lower one the first alone
    for (name, v_oct) in [("wavetable", 0.25), ("wavetable, high", 3.25)] {
        let mut state = wavetable::Wavetable::new(RATE, ISSUE_1).unwrap();
        let ours = |&[v_oct, table, morph, sync]: &[f64; 4]| {
            state.tick(&wavetable::Controls { v_oct, table, morph, sync }, &bank).unwrap().volts
        };
        let held = [v_oct, 0.4, 0.3, 0.0];
        row(name, held, [true, true, true, false], ours, theirs::wavetable());
        let [v_oct, table, morph, sync] = held;
        let controls = wavetable::Controls { v_oct, table, morph, sync };
        let mut state = wavetable::Wavetable::new(RATE, ISSUE_1).unwrap();
        let ours = |tally: &mut Tally, samples: &mut [f64], marks: &mut [u32]| {
            state.block(black_box(&controls), &bank, tally, samples, marks).unwrap()
        };
        blocks(name, 1, held, ours, theirs::wavetable(), theirs::blocks::wavetable());
    }

    let mut bank = vec![0.0; wavetable::Wavetable::BANK];
    let (mut ours_best, mut theirs_best) = (f64::INFINITY, f64::INFINITY);
    for _ in 0..RUNS {
        ours_best = ours_best.min(milliseconds(|| wavetable::Wavetable::fill_bank(black_box(&mut bank)).unwrap()));
        theirs_best = theirs_best.min(theirs::fill_bank().unwrap_or(f64::INFINITY));
    }
    let ratio = ours_best / theirs_best;
    println!("{:<16} {:<10} {ours_best:>7.2} {theirs_best:>7.2} {ratio:>7.2}", "bank, ms a fill", "");
}

fn milliseconds(call: impl FnOnce()) -> f64 {
    let start = Instant::now();
    call();
    start.elapsed().as_secs_f64() * 1e3
}

fn formant() {
    for (name, vibrato) in [("formant", 0.0), ("formant, vibrato", 0.5)] {
        let mut state = formant_osc::FormantOsc::new(RATE).unwrap();
        let ours = move |&[v_oct, vowel, formant_shift, vibrato]: &[f64; 4]| {
            state.tick(&formant_osc::Controls { v_oct, vowel, formant_shift, vibrato }).unwrap().volts
        };
        let held = [0.25, 0.3, 0.5, vibrato];
        row(name, held, [true, true, true, vibrato > 0.0], ours, theirs::formant_osc());
        let [v_oct, vowel, formant_shift, vibrato] = held;
        let controls = formant_osc::Controls { v_oct, vowel, formant_shift, vibrato };
        let mut state = formant_osc::FormantOsc::new(RATE).unwrap();
        let ours = |tally: &mut Tally, samples: &mut [f64], marks: &mut [u32]| {
            state.block(black_box(&controls), tally, samples, marks).unwrap()
        };
        blocks(name, 1, held, ours, theirs::formant_osc(), theirs::blocks::formant_osc());
    }
}

fn karplus_strong() {
    let mut line = vec![0.0; karplus_strong::KarplusStrong::cells(RATE)];
    let mut random = Random::new(1);
    let draws: Vec<u64> = line.iter().map(|_| random.bits() >> 11).collect();
    let mut state = karplus_strong::KarplusStrong::new(RATE, ISSUE_1, &mut line).unwrap();
    let ours = |&[voct, trigger, damping, brightness, stretch]: &[f64; 5]| {
        let controls = karplus_strong::Controls { voct, trigger, damping, brightness, stretch };
        state.tick(&controls, &mut line, &draws).unwrap().volts
    };
    let held = [0.25, 0.0, 0.5, 0.5, 0.2];
    row("karplus_strong", held, [true, false, true, true, true], ours, theirs::karplus_strong());
    let [voct, trigger, damping, brightness, stretch] = held;
    let controls = karplus_strong::Controls { voct, trigger, damping, brightness, stretch };
    state.tick(&karplus_strong::Controls { trigger: 5.0, ..controls }, &mut line, &draws).unwrap();
    let ours = |tally: &mut Tally, samples: &mut [f64], marks: &mut [u32]| {
        state.block(black_box(&controls), &mut line, &draws, tally, samples, marks).unwrap()
    };
    let theirs = theirs::karplus_strong().map(|mut body| {
        body(&[voct, 5.0, damping, brightness, stretch]);
        body
    });
    blocks("karplus_strong", 1, held, ours, theirs, theirs::blocks::karplus_strong());
}

/// Measures an oscillator with its controls held, then with those moving that may, and prints both lines.
pub fn row<const C: usize, V, W>(
    name: &str,
    held: [f64; C],
    moves: [bool; C],
    mut ours: impl FnMut(&[f64; C]) -> V,
    mut theirs: Option<impl FnMut(&[f64; C]) -> W>,
) {
    let mut random = Random::new(1);
    let mut moving = vec![held; TICKS];
    for tick in 1..TICKS {
        for i in (0..C).filter(|&i| moves[i]) {
            moving[tick][i] = moving[tick - 1][i] + random.between(-1e-4, 1e-4);
        }
    }
    for (what, mut controls) in [("held", vec![held; TICKS]), ("moving", moving)] {
        if name == "karplus_strong" {
            controls[0][1] = 5.0;
        }
        let (mut ours_best, mut theirs_best) = (f64::INFINITY, f64::INFINITY);
        for _ in 0..RUNS {
            ours_best = ours_best.min(run(&controls, &mut ours));
            if let Some(theirs) = &mut theirs {
                theirs_best = theirs_best.min(run(&controls, theirs));
            }
        }
        let ratio = ours_best / theirs_best;
        if theirs.is_some() {
            println!("{name:<16} {what:<10} {ours_best:>7.2} {theirs_best:>7.2} {ratio:>7.2}");
        } else {
            println!("{name:<16} {what:<10} {ours_best:>7.2} (QUIVER_SRC not found)");
        }
    }
}

/// Measures blocks of held controls, and prints their lines: against the Rust's bare body, and against its own block call.
pub fn blocks<const C: usize, W>(
    name: &str,
    ports: usize,
    held: [f64; C],
    mut ours: impl FnMut(&mut Tally, &mut [f64], &mut [u32]),
    body: Option<impl FnMut(&[f64; C]) -> W>,
    block: Option<impl FnMut(&[f64; C])>,
) {
    let (mut samples, mut marks) = (vec![0.0; ports * BLOCK], vec![0; BLOCK]);
    let mut ours = || {
        let start = Instant::now();
        let mut tally = Tally::new();
        for _ in 0..TICKS / BLOCK {
            ours(&mut tally, black_box(&mut samples), black_box(&mut marks));
        }
        black_box(tally);
        start.elapsed().as_nanos() as f64 / TICKS as f64
    };
    let (mut ours_best, mut body_best, mut block_best) = (f64::INFINITY, f64::INFINITY, f64::INFINITY);
    let (Some(mut body), Some(mut block)) = (body, block) else {
        (0..RUNS).for_each(|_| ours_best = ours_best.min(ours()));
        println!("{name:<16} {:<10} {ours_best:>7.2} (QUIVER_SRC not found)", "block");
        return;
    };
    let controls = vec![held; TICKS];
    for _ in 0..RUNS {
        ours_best = ours_best.min(ours());
        body_best = body_best.min(run(&controls, &mut body));
        let start = Instant::now();
        (0..TICKS / BLOCK).for_each(|_| block(black_box(&held)));
        block_best = block_best.min(start.elapsed().as_nanos() as f64 / TICKS as f64);
    }
    for (what, theirs) in [("block", body_best), ("its block", block_best)] {
        println!("{name:<16} {what:<10} {ours_best:>7.2} {theirs:>7.2} {:>7.2}", ours_best / theirs);
    }
}

/// Nanoseconds a tick in one run.
fn run<const C: usize, V>(controls: &[[f64; C]], tick: &mut impl FnMut(&[f64; C]) -> V) -> f64 {
    let start = Instant::now();
    for controls in black_box(controls) {
        black_box(tick(controls));
    }
    start.elapsed().as_nanos() as f64 / controls.len() as f64
}

/// The Rust's ticks, where its source is found.
mod theirs {
    #[cfg(quiver)]
    use quiver_system::modules::oscillators::{self as rust, probe::Probe};

    /// Each line is an oscillator with its numbers of controls and outputs.
    macro_rules! bodies {
        ($($name:ident: $oscillator:ident, $controls:literal, $outputs:literal;)*) => {$(
            #[cfg(quiver)]
            pub fn $name() -> Option<impl FnMut(&[f64; $controls]) -> [f64; $outputs]> {
                let mut state = rust::$oscillator::new(super::RATE);
                Some(move |controls: &[f64; $controls]| {
                    let mut samples = [0.0; $outputs];
                    state.body(controls, u32::MAX, &mut samples);
                    samples
                })
            }

            #[cfg(not(quiver))]
            pub fn $name() -> Option<fn(&[f64; $controls]) -> [f64; $outputs]> {
                None
            }
        )*};
    }

    /// Milliseconds that the Rust's fill of a bank takes.
    pub fn fill_bank() -> Option<f64> {
        #[cfg(quiver)]
        {
            let mut bank: Box<rust::probe::Bank> = Box::new([[[0.0; 256]; 8]; 8]);
            return Some(super::milliseconds(|| rust::Wavetable::fill(std::hint::black_box(&mut bank))));
        }
        #[cfg(not(quiver))]
        None
    }

    /// The Rust's own block call.
    pub mod blocks {
        #[cfg(quiver)]
        use quiver_system::{
            modules::oscillators as rust,
            port::{BlockPortValues, GraphModule},
        };

        macro_rules! blocks {
            ($($name:ident: $oscillator:ident, $controls:literal;)*) => {$(
                #[cfg(quiver)]
                pub fn $name() -> Option<impl FnMut(&[f64; $controls])> {
                    let block = super::super::BLOCK;
                    let mut state = rust::$oscillator::new(super::super::RATE);
                    let (mut inputs, mut outputs) = (BlockPortValues::new(block), BlockPortValues::new(block));
                    Some(move |controls: &[f64; $controls]| {
                        for (port, &x) in controls.iter().enumerate() {
                            inputs.get_buffer_mut(port as u32).fill(x);
                        }
                        state.process_block(&inputs, &mut outputs, block);
                        std::hint::black_box(&outputs);
                    })
                }

                #[cfg(not(quiver))]
                pub fn $name() -> Option<fn(&[f64; $controls])> {
                    None
                }
            )*};
        }

        blocks! {
            vco: Vco, 5;
            lfo: Lfo, 3;
            supersaw: Supersaw, 3;
            wavetable: Wavetable, 4;
            formant_osc: FormantOsc, 4;
            karplus_strong: KarplusStrong, 5;
        }
    }

    bodies! {
        vco: Vco, 5, 4;
        lfo: Lfo, 3, 5;
        supersaw: Supersaw, 3, 2;
        wavetable: Wavetable, 4, 1;
        formant_osc: FormantOsc, 4, 1;
        karplus_strong: KarplusStrong, 5, 1;
    }
}
