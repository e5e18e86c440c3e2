//! The line of `gate` in the text of a score: what it changes, and what it leaves. A score's gate never moves, so it rises in the first frame or
//! not at all, where the phase is 0 anyway: only a square of a width that is `nan` tells.
use std::fs;
use std::path::Path;

const VCO: &str = "osc=vco\nhz=48000\nframes=6\nvoct=750000\nfm=0\npw=nan\nsync=1500000\nfm_lin=0\n";
const LFO: &str = "osc=lfo\nhz=1000\nframes=40\nrate=1000000\ndepth=10000000\nreset=1500000\n";
const SUPERSAW: &str = "osc=supersaw\nhz=48000\nframes=6\nvoct=0\ndetune=500000\nmix=500000\n";
const FORMANT: &str = "osc=formant\nhz=48000\nframes=6\nv_oct=0\nvowel=250000\nformant_shift=0\nvibrato=500000\n";

/// What the program prints for a score, and so the reference.
fn rendered(score: &str) -> String {
    let text = program::render(score.as_bytes());
    #[cfg(quiver)]
    assert!(text == reference::render(score.as_bytes()), "the reference prints another text of\n{score}");
    String::from_utf8(text).unwrap()
}

/// What is printed without a line of `gate`, with `gate=1` and with `gate=2`.
fn of_each_gate(score: &str) -> [String; 3] {
    ["", "gate=1\n", "gate=2\n"].map(|line| rendered(&score.replace("\nframes=", &format!("\n{line}frames="))))
}

/// The score with another sync.
fn with_sync(sync: &str) -> String {
    VCO.replace("sync=1500000", &format!("sync={sync}"))
}

/// The lines of two texts that differ, by their numbers.
fn apart<'a>(one: &'a str, two: &'a str) -> Vec<(usize, &'a str, &'a str)> {
    assert_eq!(one.lines().count(), two.lines().count());
    let pairs = one.lines().zip(two.lines()).enumerate();
    pairs.filter(|(_, (one, two))| one != two).map(|(n, (one, two))| (n, one, two)).collect()
}

/// A gate between the two thresholds: high for issue 2, where the square of the first frame shows the edge, and low for issue 1.
#[test]
fn a_gate_of_one_and_a_half_volts() {
    let [without, one, two] = of_each_gate(VCO);
    assert_eq!(without, one);
    let differs = apart(&one, &two);
    let [(n, low, high)] = differs[..] else { panic!("{differs:?}") };
    assert_eq!(n, 5); // the last output of the first frame
    assert_eq!(low, "sqr=C024000000000000"); // -10 V
    assert!(high.starts_with("sqr="), "{high}");
    // -10 V, and the edge two thirds of a frame after the last one: 5 V times a ninth of -4
    let volts = f64::from_bits(u64::from_str_radix(&high[4..], 16).unwrap());
    assert!((volts + 10.0 + 20.0 / 9.0).abs() < 1e-12, "{volts}");
}

/// An issue's gate is low up to its threshold, and high from one microvolt above it on. Where both have it high, it rose in another part
/// of the frame.
#[test]
fn gates_about_the_thresholds() {
    let low = rendered(&with_sync("0"));
    for (sync, high) in [
        ("nan", [false, false]),
        ("-10000000", [false, false]),
        ("0", [false, false]),
        ("999999", [false, false]),
        ("1000000", [false, false]),
        ("1000001", [false, true]),
        ("2499999", [false, true]),
        ("2500000", [false, true]),
        ("2500001", [true, true]),
        ("10000000", [true, true]),
    ] {
        let [without, one, two] = of_each_gate(&with_sync(sync));
        assert_eq!(without, one, "sync={sync}");
        // of a `nan` the mark would tell, but the width has steered every frame already
        assert_eq!([one != low, two != low], high, "sync={sync}");
        assert_eq!(one != two, high[1], "sync={sync}");
    }
}

/// The other oscillators print the same text with either line and with none.
#[test]
fn where_it_does_nothing() {
    for score in [LFO, SUPERSAW, FORMANT, &VCO.replace("pw=nan", "pw=500000")] {
        let [without, one, two] = of_each_gate(score);
        assert!(without == one && one == two, "{score}");
        assert!(without.ends_with("claimed=yes\n"), "{score}");
    }
}

/// Of the stored scores two differ in the issue alone, and so do their texts, which are the Rust's.
#[test]
fn stored_texts_of_both_issues() {
    let stored = |name: &str| {
        let file = Path::new(env!("CARGO_MANIFEST_DIR")).join("stored").join(name);
        fs::read_to_string(file).unwrap()
    };
    let scores = ["vco_gate_1.score", "vco_gate_2.score"].map(stored);
    assert_eq!(apart(&scores[0], &scores[1]), [(2, "gate=1", "gate=2")]);
    let texts = ["vco_gate_1.text", "vco_gate_2.text"].map(stored);
    assert_eq!(apart(&texts[0], &texts[1]).len(), 1);
    assert!(stored("lfo_gate_2.score").contains("\ngate=2\n"));
}
