//! The Rust with each threshold: what it is compiled with, and that a gate between the two strikes where it is low.

#[test]
#[cfg_attr(not(quiver), ignore = "skipped: QUIVER_SRC not found")]
fn what_the_rust_is_compiled_with() {
    #[cfg(quiver)]
    {
        use compare::draw::{HIGH, LOW};
        use {quiver::modules::common as high, quiver_low::modules::common as low};

        assert_eq!((high::GATE_THRESHOLD_V, low::GATE_THRESHOLD_V), (HIGH, LOW));
        // the lines around that one
        assert_eq!((high::GATE_HIGH_V, high::C4_HZ), (low::GATE_HIGH_V, low::C4_HZ));
        assert_eq!(high::MAX_ABS_VOCT, low::MAX_ABS_VOCT);
    }
}

#[test]
#[cfg_attr(not(quiver), ignore = "skipped: QUIVER_SRC not found")]
fn a_gate_of_one_and_a_half_volts() {
    #[cfg(quiver)]
    {
        struck::<compare::vco::Vco>();
        struck::<compare::lfo::Lfo>();
        struck::<compare::wavetable::Wavetable>();
        struck::<compare::karplus_strong::KarplusStrong>();
    }
}

/// Some ticks with a low gate, then one with this gate, all compared with the Rust's: the state that it leaves, without the gate.
#[cfg(quiver)]
fn left<P: compare::script::Pair>(threshold: f64, gate: f64) -> (Vec<f64>, Vec<u64>) {
    use compare::draw::Draw;
    use compare::script::{sound, Counts};

    let (draw, counts) = (&mut Draw::new(1), &mut Counts::default());
    let mut pair = P::new(48000.0, threshold, draw).unwrap();
    for gate in [0.0, 0.0, 0.0, gate] {
        let controls: Vec<f64> = P::CONTROLS.iter().map(|of| if of.gate { gate } else { 0.25 }).collect();
        pair.lend(&controls, 1, draw, counts).unwrap();
        sound(&mut pair, &controls, u32::MAX, counts).unwrap();
    }
    let (floats, wholes) = pair.theirs();
    let previous = P::THRESHOLD.unwrap() - 1;
    let others = floats.as_ref().iter().enumerate().filter(|(place, _)| *place != previous);
    (others.map(|(_, &x)| x).collect(), wholes.as_ref().to_vec())
}

/// A tick that takes its gate leaves another state than one with a low gate.
#[cfg(quiver)]
fn struck<P: compare::script::Pair>() {
    for (threshold, gate, taken) in [
        (2.5, 1.0, false),
        (2.5, 1.5, false),
        (2.5, 2.5, false),
        (2.5, 3.0, true),
        (1.0, 1.0, false),
        (1.0, 1.5, true),
        (1.0, 2.5, true),
        (1.0, 3.0, true),
    ] {
        let differs = left::<P>(threshold, gate) != left::<P>(threshold, 0.0);
        assert_eq!(differs, taken, "{} at {threshold} V, of a gate of {gate} V", P::NAME);
    }
}
