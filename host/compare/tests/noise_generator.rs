//! The NoiseGenerator against the Rust's, to the last bit, over the same draws.

#[test]
#[cfg_attr(not(quiver), ignore = "skipped: QUIVER_SRC not found")]
fn two_million_ticks() {
    #[cfg(quiver)]
    compare::gate::<compare::noise_generator::NoiseGenerator>();
}

/// A running sum is never made anew: in a million ticks it drifts from what its rows add up to, and the Rust's does alike.
#[test]
#[cfg_attr(not(quiver), ignore = "skipped: QUIVER_SRC not found")]
fn sums_that_drift() {
    #[cfg(quiver)]
    {
        use gruttisol::noise_generator::{Controls, NoiseGenerator};
        use gruttisol::tally::Tally;
        use quiver::modules::oscillators::{self as rust, probe::Probe};
        use quiver::rng::ModuleRng;

        const TICKS: usize = 256;
        let (mut ours, mut theirs, mut tally) = (NoiseGenerator::new(), rust::NoiseGenerator::new(), Tally::new());
        let (mut samples, mut marks) = ([0.0; 4 * TICKS], [0; TICKS]);
        *theirs.stream() = ModuleRng::at(1, 2);
        for _ in 0..4000 {
            let (controls, draws) = (Controls { correlation: None }, theirs.stream().draws(ours.needed_by(256)));
            ours.block(&controls, NoiseGenerator::WANT_ALL, &draws, &mut tally, &mut samples, &mut marks).unwrap();
            for tick in samples.chunks(4) {
                let mut due = [0.0; 4];
                theirs.body_of_stored(u32::MAX, &mut due);
                assert_eq!(tick, due);
            }
        }
        let (floats, wholes) = theirs.flat();
        assert_eq!(ours.parts(), (&floats, &wholes));
        for pink in floats[..34].chunks(17) {
            let anew: f64 = pink[..16].iter().sum();
            assert!(pink[16] != anew && (pink[16] - anew).abs() < 1e-9);
            println!("after {} ticks a sum is {:?}, and its rows add up to {anew:?}", wholes[0], pink[16]);
        }
    }
}
