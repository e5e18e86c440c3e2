//! A Wavetable with a NaN on its table input sounds steady, on the second table whatever was meant: no tick of it counts as finished.
use gruttisol::answer::Mark;
use gruttisol::gate::ISSUE_1;
use gruttisol::tally::Tally;
use gruttisol::wavetable::{Controls, Wavetable};

const TICKS: usize = 1000;
const FIRST: Controls = Controls { v_oct: 0.0, table: 0.0, morph: 0.0, sync: 0.0 };

/// The samples of a block with these controls, its marks and its tally.
fn played(controls: &Controls, bank: &[f64]) -> (Vec<f64>, Vec<u32>, Tally) {
    let (mut samples, mut marks, mut tally) = (vec![0.0; TICKS], vec![0; TICKS], Tally::new());
    Wavetable::new(48000.0, ISSUE_1).unwrap().block(controls, bank, &mut tally, &mut samples, &mut marks).unwrap();
    (samples, marks, tally)
}

#[test]
fn a_table_that_is_nan_is_the_second_and_is_steered() {
    let mut bank = vec![0.0; Wavetable::BANK];
    Wavetable::fill_bank(&mut bank).unwrap();
    let (second, ..) = played(&Controls { morph: 1.0, ..FIRST }, &bank);
    let (first, _, finished) = played(&FIRST, &bank);
    assert_eq!(finished.counts(), &[1000, 1000, 0, 0, 0, 0]);

    let nan = Controls { table: f64::NAN, ..FIRST };
    let (samples, marks, tally) = played(&nan, &bank);
    assert!(samples == second && samples != first);
    assert_eq!(marks, [Mark::Steered as u32; TICKS]);
    assert_eq!(tally.counts(), &[1000, 0, 0, 0, 0, 1000]);

    let mut wavetable = Wavetable::new(48000.0, ISSUE_1).unwrap();
    for (tick, due) in second.into_iter().enumerate() {
        let ticked = wavetable.tick(&nan, &bank).unwrap();
        assert_eq!((ticked.mark, ticked.volts.out), (Mark::Steered, due), "tick {tick}");
    }
    assert_eq!(wavetable.tick(&FIRST, &bank).unwrap().mark, Mark::Clean);
}
