//! The Wavetable and its bank against the Rust's, to the last bit; and the designers' sheet against the Rust's own numbers.

#[test]
#[cfg_attr(not(quiver), ignore = "skipped: QUIVER_SRC not found")]
fn two_million_ticks() {
    #[cfg(quiver)]
    compare::gate::<compare::wavetable::Wavetable>();
}

#[test]
#[cfg_attr(not(quiver), ignore = "skipped: QUIVER_SRC not found")]
fn the_bank() {
    #[cfg(quiver)]
    {
        use compare::{draw::THRESHOLDS, rust};
        use gruttisol::wavetable::Wavetable;

        let [theirs, low] = THRESHOLDS.map(|threshold| {
            let bank = rust::Wavetable::new(48000.0, threshold).bank();
            bank.as_flattened().as_flattened().iter().map(|x| x.to_bits()).collect::<Vec<u64>>()
        });
        assert!(theirs == low, "the Rust's banks differ");
        let same = |ours: &[f64], theirs: &[u64]| ours.iter().map(|x| x.to_bits()).eq(theirs.iter().copied());

        let mut bank = vec![f64::NAN; Wavetable::BANK];
        Wavetable::fill_bank(&mut bank).unwrap();
        assert!(same(&bank, &theirs), "the bank differs");
        for (table, theirs) in theirs.chunks(Wavetable::TABLE).enumerate() {
            let mut part = vec![f64::NAN; Wavetable::TABLE];
            Wavetable::fill_table(table as u64, &mut part).unwrap();
            assert!(same(&part, theirs), "table {table} differs");
        }
        println!("{} cells of the bank; no difference", theirs.len());
    }
}

/// docs/HARMONICS.md has the Rust's tables by their names and in their order, and of each level the number that the Rust works out.
#[test]
#[cfg_attr(not(quiver), ignore = "skipped: QUIVER_SRC not found")]
fn the_sheet() {
    #[cfg(quiver)]
    {
        use quiver::modules::oscillators as rust;

        let row = |table: usize| {
            let numbers: Vec<String> = (0..8).map(|level| rust::Wavetable::largest(table, level).to_string()).collect();
            format!("| {:?} | {} |\n", rust::WavetableType::from_index(table), numbers.join(" | "))
        };
        let sheet: String = (0..8).map(row).collect();
        let page = include_str!("../../../docs/HARMONICS.md");
        assert_eq!(page.matches(&sheet).count(), 1, "the Rust's sheet:\n{sheet}");
    }
}
