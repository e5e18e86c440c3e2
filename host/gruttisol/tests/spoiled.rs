//! One broken control value spoils a vowel's resonators: no tick counts as finished until a reset, whatever its controls.
use gruttisol::answer::Mark;
use gruttisol::formant_osc::{Controls, FormantOsc};
use gruttisol::tally::Tally;

const GOOD: Controls = Controls { v_oct: -1.0, vowel: 0.25, formant_shift: 0.0, vibrato: 0.0 };

#[test]
fn a_spoiled_vowel_stays_spoiled_until_a_reset() {
    for broken in [
        Controls { vowel: f64::NAN, ..GOOD },
        Controls { formant_shift: f64::NAN, ..GOOD },
        Controls { formant_shift: -6000.0, ..GOOD }, // its factor, a power of 2, is 0
    ] {
        let (mut vowel, mut tally) = (FormantOsc::new(48000.0).unwrap(), Tally::new());
        let mut ticks = |vowel: &mut FormantOsc, controls: &Controls, n: u32, mark: Mark| {
            for _ in 0..n {
                let ticked = vowel.tick(controls).unwrap();
                assert_eq!(ticked.mark, mark, "{controls:?} after {broken:?}");
                tally.take(Ok(ticked.mark)).unwrap();
            }
        };
        ticks(&mut vowel, &GOOD, 100, Mark::Clean);
        ticks(&mut vowel, &broken, 1, Mark::NotFinite);
        ticks(&mut vowel, &GOOD, 1000, Mark::NotFinite);
        vowel.set_sample_rate(44100.0).unwrap();
        ticks(&mut vowel, &GOOD, 1000, Mark::NotFinite);
        vowel.reset().unwrap();
        ticks(&mut vowel, &GOOD, 1000, Mark::Clean);
        assert_eq!(tally.counts(), &[3101, 1100, 0, 2001, 0, 0], "{broken:?}");
    }
}

/// What came out before the clamp decides, not the 5 V that come out of it.
#[test]
fn an_infinite_sum_is_not_clean() {
    let mut floats = *FormantOsc::new(48000.0).unwrap().parts().0;
    let wholes = *FormantOsc::new(48000.0).unwrap().parts().1;
    floats[2] = f64::INFINITY; // the first resonator's first cell
    let ticked = FormantOsc::of_parts(floats, wholes).tick(&GOOD).unwrap();
    assert_eq!(ticked.volts.out, 5.0);
    assert_eq!(ticked.mark, Mark::NotFinite);
}
