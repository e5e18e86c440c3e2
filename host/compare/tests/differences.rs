//! Where ours and the Rust part: over its own library a power of 2 below the normal numbers is 0 in ours and small there; as a memo's key
//! any NaN is one in ours and its own bits there; and an Lfo of ours has an output more.

#[test]
#[cfg_attr(not(quiver), ignore = "skipped: QUIVER_SRC not found")]
fn a_vco_that_stands_still() {
    #[cfg(quiver)]
    {
        use gruttisol::gate::ISSUE_1;
        use gruttisol::vco::{Controls, Vco};
        use quiver_system::modules::oscillators::{self as rust, probe::Probe};

        for fm in [-1023.0, -1040.0, -1060.0] {
            let mut samples = [0.0; 4];
            rust::Vco::new(48000.0).body(&[0.0, fm, 0.5, 0.0, 0.0], u32::MAX, &mut samples);
            let controls = Controls { voct: 0.0, fm, pw: 0.5, sync: 0.0, fm_lin: 0.0 };
            let ours = Vco::new(48000.0, ISSUE_1).unwrap().tick(&controls, Vco::WANT_ALL).unwrap().volts;
            // an increment above 0 smooths the step at phase 0, one of 0 doesn't
            assert_eq!((samples[2], samples[3]), (0.0, 0.0));
            assert_eq!((ours.saw, ours.sqr), (-5.0, 5.0));
            println!(
                "fm {fm}: saw and square are {} and {}, the Rust's {} and {}",
                ours.saw, ours.sqr, samples[2], samples[3]
            );
        }
    }
}

#[test]
#[cfg_attr(not(quiver), ignore = "skipped: QUIVER_SRC not found")]
fn formants_shifted_to_nothing() {
    #[cfg(quiver)]
    {
        use gruttisol::answer::Mark;
        use gruttisol::formant_osc::{Controls, FormantOsc};
        use quiver_system::modules::oscillators::{self as rust, probe::Probe};

        for formant_shift in [-5111.0, -5150.0, -5170.0] {
            let (mut theirs, mut ours) = (rust::FormantOsc::new(48000.0), FormantOsc::new(48000.0).unwrap());
            let controls = Controls { v_oct: 0.0, vowel: 0.0, formant_shift, vibrato: 0.0 };
            let (mut samples, mut marks) = ([0.0], vec![]);
            for _ in 0..1000 {
                theirs.body(&[0.0, 0.0, formant_shift, 0.0], 1, &mut samples);
                assert!(samples[0].is_finite());
                marks.push(ours.tick(&controls).unwrap().mark);
            }
            assert!(marks.iter().all(|&mark| mark == Mark::NotFinite), "{marks:?}");
            println!("formant_shift {formant_shift}: 1000 ticks are notfinite, and the Rust's are finite");
        }
    }
}

#[test]
#[cfg_attr(not(quiver), ignore = "skipped: QUIVER_SRC not found")]
fn a_nan_for_a_memos_key() {
    #[cfg(quiver)]
    {
        use gruttisol::answer::Mark;
        use gruttisol::gate::ISSUE_1;
        use gruttisol::lfo::{Controls, Lfo};
        use quiver_system::modules::oscillators::{self as rust, probe::Probe};

        // a state of a caller's own: the memo holds 1 Hz for a NaN that no operation makes
        let key = 0x7ff8_0000_0000_0001;
        let (floats, wholes) = ([0.0, 48000.0, 0.0, ISSUE_1, 1.0], [key, 1]);
        let rate = f64::from_bits(key);
        let (mut theirs, mut samples) = (rust::Lfo::new(48000.0), [0.0; 5]);
        theirs.put_flat(&floats, &wholes);
        theirs.body(&[rate, 10.0, 0.0], u32::MAX, &mut samples);
        assert_eq!(theirs.flat().0, [1.0 / 48000.0, 48000.0, 0.0, ISSUE_1, 1.0]);
        let mut ours = Lfo::of_parts(floats, wholes);
        let ticked = ours.tick(&Controls { rate, depth: 10.0, reset: 0.0 }, Lfo::WANT_ALL).unwrap();
        assert_eq!(ticked.mark, Mark::Lost);
        assert!(ours.parts().0[4].is_nan());
        println!("the Rust hits and goes on at 1 Hz, ours misses and is lost");

        // the other way round: the key is ours of every NaN, and the control is another NaN
        let (floats, wholes) = ([0.0, 48000.0, 0.0, ISSUE_1, 1.0], [0x7ff8_0000_0000_0000, 1]);
        let mut theirs = rust::Lfo::new(48000.0);
        theirs.put_flat(&floats, &wholes);
        theirs.body(&[rate, 10.0, 0.0], u32::MAX, &mut samples);
        assert!(theirs.flat().0[4].is_nan());
        let mut ours = Lfo::of_parts(floats, wholes);
        let ticked = ours.tick(&Controls { rate, depth: 10.0, reset: 0.0 }, Lfo::WANT_ALL).unwrap();
        assert_eq!(ticked.mark, Mark::Steered);
        assert_eq!(*ours.parts().0, [1.0 / 48000.0, 48000.0, 0.0, ISSUE_1, 1.0]);
        println!("ours hits, goes on at 1 Hz and is steered, the Rust misses");

        // of a Vco the Rust's triangle is then no number
        let (floats, wholes) = ([0.0, 48000.0, 0.0, ISSUE_1, 1.0], [0x7ff8_0000_0000_0000, 0, 0, 1]);
        let (mut theirs, mut samples) = (rust::Vco::new(48000.0), [0.0; 4]);
        theirs.put_flat(&floats, &wholes);
        theirs.body(&[rate, 0.0, 0.5, 0.0, 0.0], u32::MAX, &mut samples);
        assert!(samples[1].is_nan(), "{samples:?}");
        let controls = gruttisol::vco::Controls { voct: rate, fm: 0.0, pw: 0.5, sync: 0.0, fm_lin: 0.0 };
        let mut ours = gruttisol::vco::Vco::of_parts(floats, wholes);
        let ticked = ours.tick(&controls, gruttisol::vco::Vco::WANT_ALL).unwrap();
        assert_eq!(ticked.mark, Mark::Steered);
        println!("a Vco of ours hits and is steered, the Rust's triangle is {}", samples[1]);
    }
}

#[test]
#[cfg_attr(not(quiver), ignore = "skipped: QUIVER_SRC not found")]
fn an_output_that_the_rust_has_not() {
    #[cfg(quiver)]
    {
        use gruttisol::gate::ISSUE_1;
        use gruttisol::lfo::{Controls, Lfo};
        use quiver_system::modules::oscillators::{self as rust, probe::Probe};
        use quiver_system::port::GraphModule;

        // a tick that ends its turn: thirty a second, at 1,000 ticks a second, from just before the end
        let (floats, wholes) = ([0.99, 1000.0, 0.0, ISSUE_1, 30.0], [1f64.to_bits(), 1]);
        let (mut theirs, mut samples) = (rust::Lfo::new(1000.0), [7.0; 5]);
        theirs.put_flat(&floats, &wholes);
        theirs.body(&[1.0, 10.0, 0.0], Lfo::WANT_EOC, &mut samples);
        assert_eq!(samples, [7.0; 5]);
        let ports: Vec<u32> = theirs.port_spec().outputs.iter().map(|port| port.id).collect();
        assert_eq!(ports, [10, 11, 12, 13, 14]);
        let controls = Controls { rate: 1.0, depth: 10.0, reset: 0.0 };
        let ticked = Lfo::of_parts(floats, wholes).tick(&controls, Lfo::WANT_EOC).unwrap();
        assert_eq!(ticked.volts.eoc, 5.0);
        println!("with bit 5 of the mask alone the Rust's Lfo writes nothing, ours a pulse");
    }
}
