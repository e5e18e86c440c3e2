//! Finite vowels alone spoil a FormantOsc: 0.5 for six ticks and 0.0 for eight by turns pump its second resonator until a cell overflows.
use gruttisol::answer::Mark;
use gruttisol::formant_osc::{Controls, FormantOsc};

const RATE: f64 = 48000.0;
/// Ticks, the first of a new one being 0: the first whose output is at 5 V or -5 V, and the one that leaves an infinite cell.
const CLIPPED: u32 = 166;
const OVERFLOWN: u32 = 19_626;
/// Ticks in all; from STILL on the vowel stands still.
const STILL: u32 = 30_000;
const TICKS: u32 = 60_000;

/// Middle C, nothing else.
fn controls(tick: u32) -> Controls {
    let vowel = if tick < STILL && tick % 14 < 6 { 0.5 } else { 0.0 };
    Controls { v_oct: 0.0, vowel, formant_shift: 0.0, vibrato: 0.0 }
}

/// The cells that aren't finite, of a state's floats at the boundary.
fn spoiled(floats: &[f64; 29]) -> Vec<usize> {
    (0..10).filter(|cell| !floats[2 + cell].is_finite()).collect()
}

/// Where they are: the second resonator's first cell, then its second too.
fn expected(tick: u32) -> Vec<usize> {
    match tick {
        0..OVERFLOWN => vec![],
        OVERFLOWN => vec![2],
        _ => vec![2, 3],
    }
}

#[test]
fn ours() {
    let mut vowel = FormantOsc::new(RATE).unwrap();
    let mut clipped = None;
    for tick in 0..TICKS {
        let ticked = vowel.tick(&controls(tick)).unwrap();
        if ticked.volts.out.abs() == 5.0 {
            clipped.get_or_insert(tick);
        }
        // the sum is told from the tick on that reads the cell
        let mark = if tick <= OVERFLOWN { Mark::Clean } else { Mark::NotFinite };
        assert_eq!(ticked.mark, mark, "tick {tick}: {}", ticked.volts.out);
        assert_eq!(spoiled(vowel.parts().0), expected(tick), "tick {tick}");
    }
    assert_eq!(clipped, Some(CLIPPED));
    vowel.reset().unwrap();
    assert_eq!(vowel.tick(&controls(0)).unwrap().mark, Mark::Clean);
}

#[test]
#[cfg_attr(not(quiver), ignore = "skipped: QUIVER_SRC not found")]
fn the_rust() {
    #[cfg(quiver)]
    {
        use quiver::modules::oscillators::{self as rust, probe::Probe};
        use quiver::port::GraphModule;

        let mut vowel = rust::FormantOsc::new(RATE);
        let body = |vowel: &mut rust::FormantOsc, tick| {
            let (Controls { v_oct, vowel: v, formant_shift, vibrato }, mut samples) = (controls(tick), [0.0]);
            vowel.body(&[v_oct, v, formant_shift, vibrato], 1, &mut samples);
            samples[0]
        };
        let mut clipped = None;
        for tick in 0..TICKS {
            let out = body(&mut vowel, tick);
            if out.abs() == 5.0 {
                clipped.get_or_insert(tick);
            }
            // an infinite sum is clamped for two ticks, then it is NaN
            assert_eq!(out.is_nan(), tick > OVERFLOWN + 2, "tick {tick}: {out}");
            assert!(!(OVERFLOWN + 1..=OVERFLOWN + 2).contains(&tick) || out == -5.0, "tick {tick}: {out}");
            assert_eq!(spoiled(&vowel.flat().0), expected(tick), "tick {tick}");
        }
        assert_eq!(clipped, Some(CLIPPED));
        vowel.reset();
        assert!(body(&mut vowel, 0).is_finite());
        println!("the Rust's own clips at tick {CLIPPED}, overflows at tick {OVERFLOWN} and is NaN until a reset");
    }
}
