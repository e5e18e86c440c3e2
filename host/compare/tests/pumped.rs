//! A string that clears itself under finite controls: a stretch of -1.0 and 1.0 by turns pumps its loop until it overflows.
use gruttisol::answer::Mark;
use gruttisol::gate::ISSUE_1;
use gruttisol::karplus_strong::{Controls, KarplusStrong};

const RATE: f64 = 48000.0;
/// The tick that clears it, the one that plucks it being 0.
const CLEARED: u32 = 369_094;

/// Middle C, undamped, plucked by a push, of which the draws say nothing.
fn controls(tick: u32) -> Controls {
    let trigger = if tick == 0 { 5.0 } else { 0.0 };
    let stretch = if tick % 2 == 0 { -1.0 } else { 1.0 };
    Controls { voct: 0.0, trigger, damping: 1.0, brightness: 0.0, stretch }
}

#[test]
fn ours() {
    let cells = KarplusStrong::cells(RATE);
    let (mut line, draws) = (vec![0.0; cells], vec![0; cells]);
    let mut string = KarplusStrong::new(RATE, ISSUE_1, &mut line).unwrap();
    for tick in 0..=CLEARED {
        let ticked = string.tick(&controls(tick), &mut line, &draws).unwrap();
        assert_eq!(ticked.mark == Mark::Cleared, tick == CLEARED, "tick {tick}: {}", ticked.volts.out);
    }
}

#[test]
#[cfg_attr(not(quiver), ignore = "skipped: QUIVER_SRC not found")]
fn the_rust() {
    #[cfg(quiver)]
    {
        use quiver::modules::oscillators::{self as rust, probe::Probe};

        let mut string = rust::KarplusStrong::new(RATE);
        for tick in 0..=CLEARED {
            let Controls { voct, trigger, damping, brightness, stretch } = controls(tick);
            string.body(&[voct, trigger, damping, brightness, stretch], 1, &mut [0.0]);
            assert_eq!(string.line().iter().all(|&cell| cell == 0.0), tick == CLEARED, "tick {tick}");
        }
        println!("the Rust's own string clears itself at tick {CLEARED}");
    }
}
