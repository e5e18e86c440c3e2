//! The list that the program `replay` runs ends with what the Rust says today, and of an Lfo's `eoc` what is computed from that.

#[test]
#[cfg_attr(not(quiver), ignore = "skipped: QUIVER_SRC not found")]
fn the_list_is_the_rusts() {
    #[cfg(quiver)]
    {
        use compare::script::one_nan;

        let list = include_str!("../../../crates/replay/stdin");
        let stored: Vec<&str> = list.lines().filter(|line| line.contains("_tick ")).collect();
        let fresh = compare::stored().unwrap_or_else(|difference| panic!("{difference}"));
        assert!(stored.len() >= 1060 + 7 * 8, "{} ticks", stored.len());
        // processors differ in the NaN that an operation makes, and makes of two
        let word = |word: &str| u64::from_str_radix(word, 16).map_or(word.to_owned(), |bits| one_nan(bits).to_string());
        let words = |line: &str| line.split(' ').map(word).collect::<Vec<String>>();
        let same = stored.iter().map(|line| words(line)).eq(fresh.lines().map(words));
        assert!(same, "the stored ticks are others than the Rust's");
        // an Lfo's case ends with its last output
        let pulse = |line: &&&str| line.starts_with("lfo_tick ") && line.ends_with(" 4014000000000000");
        let pulses = stored.iter().filter(pulse).count();
        assert!(pulses >= 8, "{pulses} pulses");
        println!("{} stored ticks are the Rust's, {pulses} of them with a pulse", stored.len());
    }
}

/// Of each oscillator with a gate there are ticks at either threshold, edges that the other threshold hasn't, and, but for the string, states
/// that are refused for their threshold.
#[test]
fn both_thresholds_are_there() {
    const THRESHOLDS: [f64; 2] = [2.5, 1.0];
    let list = include_str!("../../../crates/replay/stdin");
    let word = |word: &str| f64::from_bits(u64::from_str_radix(word, 16).unwrap());
    let words = |line: &str| line.split(' ').skip(1).map(word).collect::<Vec<f64>>();
    // the places of the threshold and of the gate among a case's words; what the gate was stands before the threshold
    for (name, place, gate) in [("lfo", 3, 9), ("vco", 3, 12), ("wavetable", 3, 10), ("karplus_strong", 5, 12)] {
        let cases = list.lines().filter(|line| line.starts_with(&format!("{name}_tick ")));
        let cases: Vec<Vec<f64>> = cases.map(words).collect();
        let rises = |case: &[f64], volts: f64| case[gate] > volts && case[place - 1] <= volts;
        for (i, threshold) in THRESHOLDS.into_iter().enumerate() {
            let its: Vec<&Vec<f64>> = cases.iter().filter(|case| case[place] == threshold).collect();
            let alone = its.iter().filter(|case| rises(case, threshold) && !rises(case, THRESHOLDS[1 - i])).count();
            assert!(its.len() >= 20 && alone >= 2, "{name}: {} at {threshold} V, {alone} edges", its.len());
            println!("{name}: {} at {threshold} V, {alone} edges of that alone", its.len());
        }
        // of strings the list has hardly a state of a caller's own
        let refused = cases.iter().any(|case| !THRESHOLDS.contains(&case[place]));
        assert!(refused || name == "karplus_strong", "{name}");
    }
}
