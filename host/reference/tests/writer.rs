//! The proved writer of scores: the one text of each, and what has none.
use gruttisol::answer::Refused;
use gruttisol::score::Score as Ours;
use reference::ours;
use reference::score::{read, Osc, Score, ALL};
use std::fs;
use std::path::Path;

/// Every preset's text, with its name.
fn presets() -> Vec<(Vec<u8>, String)> {
    let folder = Path::new(env!("CARGO_MANIFEST_DIR")).join("../../presets");
    let files = fs::read_dir(folder).unwrap().map(|file| file.unwrap().path());
    let scores = files.filter(|file| file.extension().is_some_and(|ending| ending == "score"));
    scores.map(|file| (fs::read(&file).unwrap(), file.file_stem().unwrap().to_str().unwrap().to_owned())).collect()
}

#[test]
fn presets_come_back() {
    let presets = presets();
    for (text, name) in &presets {
        let score = Ours::parse(text).unwrap();
        assert!(score.to_string().as_bytes() == text, "{name} is written as\n{score}");
    }
    assert!(presets.len() >= 12);
    println!("{} presets", presets.len());
}

/// Whatever one other byte, or one byte less, makes of a preset: what is still read is written as that text.
#[test]
fn damaged_presets_come_back_as_they_are() {
    let (mut read_still, mut texts) = (0, 0);
    let mut comes_back = |text: &[u8]| {
        let ours = Ours::parse(text).map_err(|Refused(number)| number);
        let theirs = read(text).map_err(|refusal| refusal as u32);
        assert_eq!(ours.as_ref().map(ours::values), theirs.as_ref().cloned(), "{}", text.escape_ascii());
        if let Ok(score) = ours {
            assert!(score.to_string().as_bytes() == text, "{} is written as\n{score}", text.escape_ascii());
            read_still += 1;
        }
        texts += 1;
    };
    for (text, _) in presets() {
        for at in 0..text.len() {
            comes_back(&[&text[..at], &text[at + 1..]].concat());
            let mut damaged = text.clone();
            for byte in (0..=255).filter(|&byte| byte != text[at]) {
                damaged[at] = byte;
                comes_back(&damaged);
            }
        }
    }
    assert!(read_still > 1000);
    println!("{texts} texts, {read_still} read");
}

/// Values inside their ranges.
fn values(osc: &'static Osc) -> Score {
    Score { osc, hz: 48000, gate: None, frames: 480, microvolts: vec![Some(-250_000); osc.inputs.len()] }
}

/// Good values have a text with this line, which is read as them; others are refused by 23.
#[track_caller]
fn written(values: &Score, line: String, good: bool) {
    let ours = ours::of(values);
    if good {
        let text = ours.unwrap().to_string();
        assert!(text.contains(&format!("\n{line}\n")), "no {line} in\n{text}");
        assert_eq!(Ours::parse(text.as_bytes()), ours);
    } else {
        assert_eq!(ours, Err(Refused(23)), "{line} of {}", values.osc.name);
    }
}

/// Each end of each range, one past it, and the ends of the number's type.
#[test]
fn ends_of_ranges() {
    const LARGEST: i32 = 10_000_000;
    for osc in &ALL {
        for (hz, good) in [(0, false), (999, false), (1000, true), (192_000, true), (192_001, false), (u32::MAX, false)]
        {
            written(&Score { hz, ..values(osc) }, format!("hz={hz}"), good);
        }
        for (frames, good) in [(0, false), (1, true), (480_000, true), (480_001, false), (u32::MAX, false)] {
            written(&Score { frames, ..values(osc) }, format!("frames={frames}"), good);
        }
        for (i, key) in osc.inputs.iter().enumerate() {
            let mut values = values(osc);
            for n in [-LARGEST, -1, 0, 1, LARGEST] {
                values.microvolts[i] = Some(n);
                written(&values, format!("{key}={n}"), true);
            }
            for n in [i32::MIN, i32::MIN + 1, -LARGEST - 1, LARGEST + 1, i32::MAX] {
                values.microvolts[i] = Some(n);
                written(&values, format!("{key}={n}"), false);
            }
        }
    }
}

#[test]
fn nan_of_each_input() {
    for osc in &ALL {
        for (i, key) in osc.inputs.iter().enumerate() {
            let mut values = values(osc);
            values.microvolts[i] = None;
            written(&values, format!("{key}=nan"), true);
        }
    }
}

/// The line of `gate` stands between `hz` and `frames`, or there is none: of one set of values three scores, of which none is another.
#[test]
fn each_gate_and_none() {
    for osc in &ALL {
        let scores = [None, Some(1), Some(2)].map(|gate| (gate, ours::of(&Score { gate, ..values(osc) }).unwrap()));
        let without = scores[0].1.to_string();
        for (gate, score) in scores {
            let line = gate.map_or(String::new(), |issue| format!("gate={issue}\n"));
            let text = without.replace("\nframes=", &format!("\n{line}frames="));
            assert_eq!(score.to_string(), text);
            let read = Ours::parse(text.as_bytes()).unwrap();
            assert_eq!((read, ours::values(&read).gate), (score, gate), "{text}");
            assert_eq!(read.threshold(), if gate == Some(2) { 1.0 } else { 2.5 }, "{text}");
            ours::written_in_every_room(&score, &text).unwrap();
        }
    }
}

/// The longest text of each oscillator, of which the formant's is the longest, lent from no byte to one more than it has.
#[test]
fn every_room() {
    for osc in &ALL {
        let microvolts = vec![Some(-10_000_000); osc.inputs.len()];
        let longest = ours::of(&Score { osc, hz: 192_000, gate: Some(2), frames: 480_000, microvolts }).unwrap();
        let text = longest.to_string();
        assert_eq!(text.len() == Ours::LONGEST, osc.name == "formant", "{text}");
        ours::written_in_every_room(&longest, &text).unwrap();
    }
    assert_eq!(Ours::LONGEST, 117);
}

#[test]
#[cfg_attr(not(quiver), ignore = "skipped: QUIVER_SRC not found")]
fn drawn_values() {
    #[cfg(quiver)]
    reference::fuzz::gate(reference::fuzz::values, 100_000);
}
