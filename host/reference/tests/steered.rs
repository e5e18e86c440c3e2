//! Scores whose sound is finite though an input is `nan`: every frame is steered, and nothing is claimed.

const VCO: &str = "osc=vco\nhz=48000\nframes=1000\nvoct=750000\nfm=0\npw=500000\nsync=0\nfm_lin=0\n";
const LFO: &str = "osc=lfo\nhz=48000\nframes=1000\nrate=500000\ndepth=10000000\nreset=0\n";
const FRAMES: usize = 1000;

/// The score with `nan` for the values of these inputs.
fn with_nan(score: &str, inputs: &[&str]) -> String {
    let line = |line: &str| match line.split_once('=') {
        Some((key, _)) if inputs.contains(&key) => format!("{key}=nan\n"),
        _ => format!("{line}\n"),
    };
    score.lines().map(line).collect()
}

/// What the program prints for a score, and so the reference: its frames and its end.
fn rendered(score: &str) -> (String, String) {
    let text = program::render(score.as_bytes());
    #[cfg(quiver)]
    assert!(text == reference::render(score.as_bytes()), "the reference prints another text of\n{score}");
    let text = String::from_utf8(text).unwrap();
    let (frames, end) = text.split_once("begun=").unwrap();
    (frames.to_owned(), end.to_owned())
}

/// The frames of a score, which must all be steered.
fn steered(score: &str) -> String {
    let (frames, end) = rendered(score);
    assert_eq!(frames.matches("mark=steered\n").count(), FRAMES, "{score}");
    assert_eq!(end, "1000\nfinished=0\ncleared=0\nnotfinite=0\nlost=0\nsteered=1000\nclaimed=no\n", "{score}");
    frames
}

#[test]
fn a_gate_that_is_nan_sounds_as_a_low_one() {
    for (low, gate) in [(VCO, "sync"), (LFO, "reset")] {
        let (frames, end) = rendered(low);
        assert!(end.ends_with("steered=0\nclaimed=yes\n"), "{end}");
        assert!(steered(&with_nan(low, &[gate])).replace("=steered\n", "=clean\n") == frames, "{gate}");
    }
}

#[test]
fn a_width_that_is_nan_changes_the_square_alone() {
    let others = |frames: &str| frames.lines().filter(|line| !line.starts_with("sqr=")).collect::<Vec<_>>().join("\n");
    let (frames, _) = rendered(VCO);
    let nan = steered(&with_nan(VCO, &["pw"]));
    let unmarked = nan.replace("=steered\n", "=clean\n");
    assert!(unmarked != frames && others(&unmarked) == others(&frames));
    assert!(steered(&with_nan(VCO, &["pw", "sync"])) == nan);
}

/// A rule before it marks the frames all the same.
#[test]
fn beside_a_nan_that_another_rule_tells() {
    for (score, inputs, mark) in [
        (VCO, &["pw", "sync", "voct"][..], "notfinite"),
        (LFO, &["reset", "depth"], "notfinite"),
        (LFO, &["reset", "rate"], "lost"),
    ] {
        let (frames, end) = rendered(&with_nan(score, inputs));
        assert_eq!(frames.matches(&format!("mark={mark}\n")).count(), FRAMES, "{inputs:?}");
        assert!(end.contains(&format!("\n{mark}=1000\n")) && end.ends_with("\nsteered=0\nclaimed=no\n"), "{end}");
    }
}
