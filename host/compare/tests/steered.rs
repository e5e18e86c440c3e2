//! Which ticks are steered: those given a NaN that no earlier rule marks. Everything is compared with the Rust, marks by its own values and
//! the controls; marks also with the tables below.

#[cfg(quiver)]
macro_rules! each {
    ($check:ident) => {
        oscillators::$check::<compare::vco::Vco>();
        oscillators::$check::<compare::lfo::Lfo>();
        oscillators::$check::<compare::supersaw::Supersaw>();
        oscillators::$check::<compare::wavetable::Wavetable>();
        oscillators::$check::<compare::formant_osc::FormantOsc>();
        oscillators::$check::<compare::karplus_strong::KarplusStrong>();
    };
}

#[test]
#[cfg_attr(not(quiver), ignore = "skipped: QUIVER_SRC not found")]
fn nans_alone_and_together() {
    #[cfg(quiver)]
    each!(nans);
}

#[test]
#[cfg_attr(not(quiver), ignore = "skipped: QUIVER_SRC not found")]
fn infinities_never_steer() {
    #[cfg(quiver)]
    each!(infinities);
}

#[test]
#[cfg_attr(not(quiver), ignore = "skipped: QUIVER_SRC not found")]
fn numbers_after_a_nan_are_clean() {
    #[cfg(quiver)]
    each!(numbers_after_a_nan);
}

#[test]
#[cfg_attr(not(quiver), ignore = "skipped: QUIVER_SRC not found")]
fn memos_that_hold_a_number_under_a_nan() {
    #[cfg(quiver)]
    each!(memos);
}

#[test]
#[cfg_attr(not(quiver), ignore = "skipped: QUIVER_SRC not found")]
fn blocks() {
    #[cfg(quiver)]
    each!(blocks);
}

/// A correlation that is given steers; one that the generator holds isn't given.
#[test]
#[cfg_attr(not(quiver), ignore = "skipped: QUIVER_SRC not found")]
fn noise() {
    #[cfg(quiver)]
    noise_generator::ticks();
}

/// NaNs: ours of them all, with a sign, with a payload, with all of it, and signalling ones.
#[cfg(quiver)]
const NANS: [u64; 7] = [
    0x7ff8_0000_0000_0000,
    0xfff8_0000_0000_0000,
    0x7ff8_0000_0000_0001,
    0xfffa_bcde_f012_3456,
    0x7fff_ffff_ffff_ffff,
    0x7ff0_0000_0000_0001,
    0xfff4_0000_0000_0000,
];

#[cfg(quiver)]
mod oscillators {
    use super::NANS;
    use compare::draw::{Draw, HIGH, ONE_NAN};
    use compare::script::{alike, sound, Counts, Pair, MOST};
    use gruttisol::answer::Mark::{self, Clean, Lost, NotFinite, Steered};
    use gruttisol::tally::{Tally, COUNTS, NAMES};

    const TRI: u32 = 1 << 1;
    const FIVE: u32 = 0b11111;
    const OUT: u32 = 1;

    /// Each control, in port order: the outputs that it makes NaNs where it is one, the mark where none of these is wanted, and whether an
    /// infinity leaves the tick clean.
    const TABLE: [(&str, &str, u32, Mark, bool); 24] = [
        ("vco", "voct", TRI, Lost, true),
        ("vco", "fm", TRI, Lost, false),
        ("vco", "pw", 0, Steered, true),
        ("vco", "sync", 0, Steered, true),
        ("vco", "fm_lin", TRI, Lost, false),
        ("lfo", "rate", 0, Lost, true),
        ("lfo", "depth", FIVE, Steered, false),
        ("lfo", "reset", 0, Steered, true),
        ("supersaw", "voct", 0, Lost, true),
        ("supersaw", "detune", 0, Lost, true),
        ("supersaw", "mix", OUT, Steered, true),
        ("wavetable", "v_oct", 0, Lost, true),
        ("wavetable", "table", 0, Steered, true),
        ("wavetable", "morph", 0, Steered, true),
        ("wavetable", "sync", 0, Steered, true),
        ("formant", "v_oct", 0, Lost, true),
        ("formant", "vowel", OUT, Steered, true),
        ("formant", "formant_shift", OUT, Steered, false),
        ("formant", "vibrato", 0, Lost, true),
        ("karplus_strong", "voct", 0, Steered, true),
        ("karplus_strong", "trigger", 0, Steered, true),
        ("karplus_strong", "damping", 0, Steered, true),
        ("karplus_strong", "brightness", 0, Steered, true),
        ("karplus_strong", "stretch", 0, Steered, true),
    ];

    /// Each key of a memo: the control that makes it a NaN, and its place among the state's whole numbers.
    const KEYS: [(&str, &str, usize); 10] = [
        ("vco", "voct", 0),
        ("vco", "fm", 1),
        ("vco", "fm_lin", 2),
        ("lfo", "rate", 0),
        ("supersaw", "voct", 0),
        ("wavetable", "v_oct", 0),
        ("formant", "v_oct", 0),
        ("formant", "vibrato", 0),
        ("formant", "vowel", 2),
        ("formant", "formant_shift", 3),
    ];

    struct Control {
        name: &'static str,
        spoils: u32,
        unheard: Mark,
        clamped: bool,
    }

    fn controls<P: Pair>() -> Vec<Control> {
        let rows = TABLE.into_iter().filter(|(osc, ..)| *osc == P::NAME);
        let rows = rows.map(|(_, name, spoils, unheard, clamped)| Control { name, spoils, unheard, clamped });
        rows.collect()
    }

    /// The mark where these controls are NaNs: of their marks alone, the first by the rule.
    fn due<'a>(nans: impl IntoIterator<Item = &'a Control>, wanted: u32) -> Mark {
        let alone = |control: &Control| if control.spoils & wanted != 0 { NotFinite } else { control.unheard };
        let marks: Vec<Mark> = nans.into_iter().map(alone).collect();
        [NotFinite, Lost, Steered].into_iter().find(|mark| marks.contains(mark)).unwrap_or(Clean)
    }

    /// A draw by which a Wavetable has the Rust's own bank, and a string's line stays as it is.
    fn draw() -> Draw {
        Draw::new(1)
    }

    fn fresh<P: Pair>() -> P {
        P::new(48000.0, HIGH, &mut draw()).unwrap()
    }

    /// Controls that are numbers; gates are low.
    fn numbers<P: Pair>() -> Vec<f64> {
        P::CONTROLS.iter().map(|of| if of.gate { 0.0 } else { (of.lo + of.hi) / 2.0 }).collect()
    }

    /// These numbers but for one.
    fn with<P: Pair>(place: usize, value: f64) -> Vec<f64> {
        let mut controls = numbers::<P>();
        controls[place] = value;
        controls
    }

    fn masks<P: Pair>() -> impl Iterator<Item = u32> {
        let lowest = if P::MASKED { 0 } else { 1 << P::PORTS };
        (lowest..1 << P::PORTS).chain([u32::MAX])
    }

    /// A tick of which everything is compared with the Rust's.
    #[track_caller]
    fn tick<P: Pair>(pair: &mut P, controls: &[f64], wanted: u32) -> (Mark, [f64; MOST]) {
        let mut counts = Counts::default();
        let lent = pair.lend(controls, 1, &mut draw(), &mut counts);
        let told = |said: String| panic!("{} of {controls:?}, wanted {wanted:#x}: {said}", P::NAME);
        lent.and_then(|()| sound(pair, controls, wanted, &mut counts)).unwrap_or_else(told)
    }

    /// Every set of controls, of NaNs of all kinds, under every mask.
    pub fn nans<P: Pair>() {
        let (table, mut ticks) = (controls::<P>(), 0);
        for set in 0..1 << table.len() {
            let places: Vec<usize> = (0..table.len()).filter(|place| set >> place & 1 == 1).collect();
            for kind in 0..NANS.len() {
                let mut controls = numbers::<P>();
                places.iter().for_each(|&place| controls[place] = f64::from_bits(NANS[(kind + place) % NANS.len()]));
                for wanted in masks::<P>() {
                    let (mark, _) = tick(&mut fresh::<P>(), &controls, wanted);
                    let due = due(places.iter().map(|&place| &table[place]), wanted);
                    assert_eq!(mark, due, "{} of {controls:?}, wanted {wanted:#x}", P::NAME);
                    ticks += 1;
                }
            }
        }
        println!("{}: {ticks} ticks are marked by the table", P::NAME);
    }

    /// Infinities of either sign, alone and together, opposite ones too, whose sum is a NaN.
    pub fn infinities<P: Pair>() {
        let table = controls::<P>();
        for set in 0..3usize.pow(table.len() as u32) {
            let signs: Vec<usize> = (0..table.len() as u32).map(|place| set / 3usize.pow(place) % 3).collect();
            let infinite = |(&sign, number)| [number, f64::INFINITY, f64::NEG_INFINITY][sign];
            let controls: Vec<f64> = signs.iter().zip(numbers::<P>()).map(infinite).collect();
            let clean = signs.iter().zip(&table).all(|(&sign, control)| sign == 0 || control.clamped);
            for wanted in masks::<P>() {
                let (mark, _) = tick(&mut fresh::<P>(), &controls, wanted);
                assert_ne!(mark, Steered, "{} of {controls:?}, wanted {wanted:#x}", P::NAME);
                assert!(!clean || mark == Clean, "{} of {controls:?}, wanted {wanted:#x}: {mark:?}", P::NAME);
            }
        }
    }

    /// A NaN that steered a tick leaves the next one clean; of a gate the edge record holds it.
    pub fn numbers_after_a_nan<P: Pair>() {
        for (place, control) in controls::<P>().iter().enumerate() {
            let mut pair = fresh::<P>();
            let (mark, _) = tick(&mut pair, &with::<P>(place, f64::NAN), u32::MAX);
            assert_eq!(mark, due([control], u32::MAX), "{} {}", P::NAME, control.name);
            if mark == Steered {
                let held = pair.ours().0.as_ref().iter().any(|x| x.is_nan());
                assert_eq!(held, P::CONTROLS[place].gate, "{} {}", P::NAME, control.name);
                assert_eq!(tick(&mut pair, &numbers::<P>(), u32::MAX).0, Clean, "{} {}", P::NAME, control.name);
            }
        }
    }

    /// A state of a caller's own: its memos hold what numbers have left, one under the key of a NaN.
    fn memo<P: Pair>(key: usize) -> P {
        let mut pair = fresh::<P>();
        tick(&mut pair, &numbers::<P>(), u32::MAX);
        let (floats, mut wholes) = pair.ours();
        wholes.as_mut()[key] = ONE_NAN;
        pair.put_ours(&floats, &wholes);
        pair.put_theirs(&floats, &wholes, &mut draw());
        pair
    }

    /// Then a tick given that NaN sounds as the number does, and is steered all the same: no rule before it tells of it.
    pub fn memos<P: Pair>() {
        let mut numbered = fresh::<P>();
        tick(&mut numbered, &numbers::<P>(), u32::MAX);
        let (mark, due) = tick(&mut numbered, &numbers::<P>(), u32::MAX);
        assert_eq!(mark, Clean);
        for (_, name, key) in KEYS.into_iter().filter(|(osc, ..)| *osc == P::NAME) {
            let place = controls::<P>().iter().position(|control| control.name == name).unwrap();
            let nan = with::<P>(place, f64::from_bits(ONE_NAN));
            let (mark, samples) = tick(&mut memo::<P>(key), &nan, u32::MAX);
            assert_eq!(mark, Steered, "{} {name}", P::NAME);
            assert!(samples.iter().zip(due).all(|(&a, b)| alike(a, b)), "{} {name}: {samples:?}, not {due:?}", P::NAME);
            assert_eq!(tick(&mut memo::<P>(key), &numbers::<P>(), u32::MAX).0, Clean, "{} {name}", P::NAME);
            block(memo::<P>(key), memo::<P>(key), &nan, u32::MAX, Steered);
            println!("{}: steered by a {name} under whose NaN a memo holds a number", P::NAME);
        }
    }

    /// A block is what so many ticks are, all of one mark.
    fn block<P: Pair>(mut by_ticks: P, mut by_block: P, controls: &[f64], wanted: u32, mark: Mark) {
        const TICKS: usize = 40;
        let (mut tally, mut samples, mut marks) = (Tally::new(), vec![1.0; TICKS * P::PORTS], [0; TICKS]);
        by_block.ours_block(controls, wanted, &mut tally, &mut samples, &mut marks).unwrap();
        assert_eq!(marks, [mark as u32; TICKS], "{} of {controls:?}", P::NAME);
        for samples in samples.chunks(P::PORTS) {
            let (its, due) = tick(&mut by_ticks, controls, wanted);
            assert_eq!(its, mark, "{} of {controls:?}", P::NAME);
            assert!(samples.iter().zip(due).all(|(&a, b)| alike(a, b)), "{} of {controls:?}", P::NAME);
        }
        let mut counts = [0; COUNTS];
        counts[0] = TICKS as u32;
        counts[NAMES.iter().position(|name| *name == mark.word()).unwrap()] = TICKS as u32;
        assert_eq!(tally.counts(), &counts, "{} of {controls:?}", P::NAME);
    }

    /// Each control alone, with all outputs wanted and, where there is a mask, none.
    pub fn blocks<P: Pair>() {
        for (place, control) in controls::<P>().iter().enumerate() {
            let controls = with::<P>(place, f64::NAN);
            for wanted in [0, u32::MAX] {
                if P::MASKED || wanted != 0 {
                    block(fresh::<P>(), fresh::<P>(), &controls, wanted, due([control], wanted));
                }
            }
        }
    }
}

#[cfg(quiver)]
mod noise_generator {
    use super::NANS;
    use compare::script::alike;
    use gruttisol::answer::Mark::{self, Clean, NotFinite, Steered};
    use gruttisol::noise_generator::{Controls, NoiseGenerator, Volts};
    use gruttisol::tally::Tally;
    use quiver::modules::oscillators::{self as rust, probe::Probe};
    use quiver::rng::ModuleRng;

    /// Both second noises are made of the correlation that counts; no other output is.
    const HEARD: u32 = NoiseGenerator::WANT_WHITE2 | NoiseGenerator::WANT_PINK2;

    fn due(stored: f64, given: Option<f64>, wanted: u32) -> Mark {
        if given.unwrap_or(stored).is_nan() && wanted & HEARD != 0 {
            NotFinite
        } else if given.is_some_and(f64::is_nan) {
            Steered
        } else {
            Clean
        }
    }

    pub fn ticks() {
        let nans = NANS.map(f64::from_bits);
        let numbers = [0.5, f64::INFINITY, f64::NEG_INFINITY];
        for stored in nans.into_iter().chain(numbers) {
            for given in nans.into_iter().chain(numbers).map(Some).chain([None]) {
                (0..16).for_each(|wanted| tick_and_block(stored, given, wanted));
            }
        }
    }

    fn tick_and_block(stored: f64, given: Option<f64>, wanted: u32) {
        const TICKS: u32 = 20;
        let (controls, due) = (Controls { correlation: given }, due(stored, given, wanted));
        let mut theirs = rust::NoiseGenerator::with_correlation(stored);
        *theirs.stream() = ModuleRng::at(1, 2);
        let (mut ours, mut by_block) =
            (NoiseGenerator::with_correlation(stored), NoiseGenerator::with_correlation(stored));
        let draws = theirs.stream().draws(ours.needed_by(TICKS));
        let told = format!("stored {stored:?}, given {given:?}, wanted {wanted}");

        let mut samples = [0.0; 4];
        match given {
            Some(correlation) => theirs.body(&[correlation], wanted, &mut samples),
            None => theirs.body_of_stored(wanted, &mut samples),
        }
        let ticked = ours.tick(&controls, wanted, &draws).unwrap();
        let Volts { white, pink, white2, pink2 } = ticked.volts;
        assert!([white, pink, white2, pink2].into_iter().zip(samples).all(|(a, b)| alike(a, b)), "{told}: {ticked:?}");
        assert_eq!(ticked.mark, due, "{told}");

        let (mut tally, mut samples, mut marks) = (Tally::new(), [0.0; 4 * TICKS as usize], [0; TICKS as usize]);
        by_block.block(&controls, wanted, &draws, &mut tally, &mut samples, &mut marks).unwrap();
        assert_eq!(marks, [due as u32; TICKS as usize], "{told}");
        let all_if = |mark| if due == mark { TICKS } else { 0 };
        assert_eq!(tally.counts(), &[TICKS, all_if(Clean), 0, all_if(NotFinite), 0, all_if(Steered)], "{told}");
    }
}
