//! The Lfo's pulses in the text of a score: 5 V in the last frame of each turn, whatever the depth is, and 0 V in all others.

/// Thirty turns a second, at 1,000 frames a second.
const SCORE: &str = "osc=lfo\nhz=1000\nframes=140\nrate=1000000\ndepth=10000000\nreset=0\n";
/// The last frame of each turn.
const ENDS: [usize; 4] = [33, 66, 99, 133];

/// The score with another value of an input.
fn with(input: &str, value: &str) -> String {
    let (before, rest) = SCORE.split_once(&format!("\n{input}=")).unwrap();
    let (_, after) = rest.split_once('\n').unwrap();
    format!("{before}\n{input}={value}\n{after}")
}

/// The frames that the program prints for a score, and so the reference; each as its lines.
fn frames(score: &str) -> Vec<Vec<String>> {
    let text = program::render(score.as_bytes());
    #[cfg(quiver)]
    assert!(text == reference::render(score.as_bytes()), "the reference prints another text of\n{score}");
    let text = String::from_utf8(text).unwrap();
    let (frames, _) = text.split_once("begun=").unwrap();
    let lines: Vec<String> = frames.lines().map(str::to_owned).collect();
    lines.chunks(8).map(<[String]>::to_vec).collect()
}

/// The frames with a pulse. The last line of each is that of `eoc`, after `sin_uni`.
fn pulses(score: &str) -> Vec<usize> {
    let frames = frames(score);
    for lines in &frames {
        assert!(lines[6].starts_with("sin_uni="), "{lines:?}");
        assert!(["eoc=0000000000000000", "eoc=4014000000000000"].contains(&lines[7].as_str()), "{lines:?}");
    }
    (0..frames.len()).filter(|&n| frames[n][7] == "eoc=4014000000000000").collect()
}

#[test]
fn each_turn_ends_with_a_pulse() {
    assert_eq!(pulses(SCORE), ENDS);
    let volts = |line: &str| f64::from_bits(u64::from_str_radix(line.strip_prefix("saw=").unwrap(), 16).unwrap());
    let saw: Vec<f64> = frames(SCORE).iter().map(|lines| volts(&lines[4])).collect();
    let falls: Vec<usize> = (1..saw.len()).filter(|&n| saw[n] < saw[n - 1]).collect();
    assert_eq!(falls, ENDS.map(|n| n + 1));
}

#[test]
fn nothing_but_a_slower_rate_moves_it() {
    // the fastest is that of 1 V
    assert_eq!(pulses(&with("rate", "10000000")), ENDS);
    for depth in ["5000000", "1", "0", "-10000000", "nan"] {
        assert_eq!(pulses(&with("depth", depth)), ENDS, "depth={depth}");
    }
    // a high gate rises in the first frame, where the phase is 0 anyway
    for reset in ["2500001", "10000000", "-10000000", "nan"] {
        assert_eq!(pulses(&with("reset", reset)), ENDS, "reset={reset}");
    }
}

/// Where every frame is lost no turn ends; the slowest ends its first after 100 seconds.
#[test]
fn rates_without_a_pulse() {
    for rate in ["nan", "0", "-10000000"] {
        assert_eq!(pulses(&with("rate", rate)), [0; 0], "rate={rate}");
    }
}
