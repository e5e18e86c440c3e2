//! The example program that changes a value of a preset and saves it: that value alone is another, and where anything fails, nothing.
use std::fs;
use std::path::{Path, PathBuf};

#[allow(dead_code)]
#[path = "../examples/save.rs"]
mod save;

/// An empty folder of the test's own.
fn folder(name: &str) -> PathBuf {
    let folder = Path::new(env!("CARGO_TARGET_TMPDIR")).join(name);
    let _ = fs::remove_dir_all(&folder);
    fs::create_dir(&folder).unwrap();
    folder
}

/// The names in a folder.
fn names(folder: &Path) -> Vec<String> {
    let mut names: Vec<String> =
        fs::read_dir(folder).unwrap().map(|file| file.unwrap().file_name().into_string().unwrap()).collect();
    names.sort();
    names
}

/// Every preset's file.
fn presets() -> impl Iterator<Item = PathBuf> {
    let folder = Path::new(env!("CARGO_MANIFEST_DIR")).join("../../presets");
    let files = fs::read_dir(folder).unwrap().map(|file| file.unwrap().path());
    files.filter(|file| file.extension().is_some_and(|ending| ending == "score"))
}

/// Every preset, and of it every number.
#[test]
fn one_value_of_a_preset() {
    let folder = folder("one_value_of_a_preset");
    let out = folder.join("saved.score");
    let mut saved = 0;
    for preset in presets() {
        let text = fs::read_to_string(&preset).unwrap();
        for line in text.lines().skip(1) {
            let (key, value) = line.split_once('=').unwrap();
            let other = match (key, value) {
                ("gate", "1") => "2",
                ("gate", _) => "1",
                (_, "7001") => "7002",
                _ => "7001",
            };
            save::run(&preset, key, other, &out).unwrap();
            let (was, is) = (format!("\n{line}\n"), format!("\n{key}={other}\n"));
            assert_eq!(fs::read_to_string(&out).unwrap(), text.replace(&was, &is), "{}", preset.display());
            // and back, in its place
            save::run(&out, key, value, &out).unwrap();
            assert_eq!(fs::read_to_string(&out).unwrap(), text, "{}", preset.display());
            saved += 1;
        }
    }
    assert_eq!(names(&folder), ["saved.score"]);
    assert!(saved >= 12 * 5);
    println!("{saved} values");
}

/// Every preset with each line of `gate`, and without one: it stands after `hz`, and no other line is another.
#[test]
fn the_gate_of_a_preset() {
    let folder = folder("the_gate_of_a_preset");
    let out = folder.join("saved.score");
    for preset in presets() {
        let stood = fs::read_to_string(&preset).unwrap();
        let without: String = stood.split_inclusive('\n').filter(|line| !line.starts_with("gate=")).collect();
        let (head, rest) = without.split_at(without.find("frames=").unwrap());
        fs::write(&out, &stood).unwrap();
        for (value, line) in [("2", "gate=2\n"), ("1", "gate=1\n"), ("none", ""), ("none", ""), ("1", "gate=1\n")] {
            save::run(&out, "gate", value, &out).unwrap();
            assert_eq!(fs::read_to_string(&out).unwrap(), [head, line, rest].concat(), "{}", preset.display());
        }
    }
    assert_eq!(names(&folder), ["saved.score"]);
}

#[test]
fn what_fails_leaves_everything() {
    const SCORE: &str = "osc=lfo\nhz=48000\nframes=480\nrate=500000\ndepth=-5000000\nreset=nan\n";
    let folder = folder("what_fails_leaves_everything");
    fs::write(folder.join("good"), SCORE).unwrap();
    fs::write(folder.join("cut"), &SCORE[..SCORE.len() - 1]).unwrap();
    fs::write(folder.join("no_number"), SCORE.replace("480\n", "480 \n")).unwrap();
    fs::write(folder.join("long"), SCORE.repeat(20)).unwrap();
    fs::write(folder.join("out"), "what stood there").unwrap();
    fs::create_dir(folder.join("folder")).unwrap();
    let stood = names(&folder);
    for (preset, key, value, out, said) in [
        ("missing", "rate", "0", "out", "missing: "),
        ("folder", "rate", "0", "out", "folder: "),
        ("cut", "rate", "0", "out", "cut: refused by 21: "),
        ("no_number", "rate", "0", "out", "no_number: refused by 22: "),
        ("long", "rate", "0", "out", "long: refused by 20: "),
        ("good", "rate", "10000001", "out", "rate=10000001: refused by 23: "),
        ("good", "rate", "-2147483648", "out", "rate=-2147483648: refused by 23: "),
        ("good", "hz", "999", "out", "hz=999: refused by 23: "),
        ("good", "frames", "0", "out", "frames=0: refused by 23: "),
        ("good", "rate", "99999999999", "out", "rate=99999999999: number too large"),
        ("good", "rate", "", "out", "rate=: cannot parse"),
        ("good", "rate", "0.5", "out", "rate=0.5: invalid digit"),
        ("good", "rate", "NaN", "out", "rate=NaN: invalid digit"),
        ("good", "hz", "nan", "out", "hz=nan: invalid digit"),
        ("good", "frames", "-1", "out", "frames=-1: invalid digit"),
        ("good", "gate", "0", "out", "gate=0: neither issue 1 nor 2"),
        ("good", "gate", "3", "out", "gate=3: neither issue 1 nor 2"),
        ("good", "gate", "-1", "out", "gate=-1: invalid digit"),
        ("good", "gate", "nan", "out", "gate=nan: invalid digit"),
        ("good", "gate", "", "out", "gate=: cannot parse"),
        ("good", "voct", "0", "out", "voct=0: neither "),
        ("good", "osc", "vco", "out", "osc=vco: neither "),
        ("good", "Rate", "0", "out", "Rate=0: neither "),
        ("good", "", "0", "out", "=0: neither "),
        ("good", "rate", "0", "nowhere/out", "nowhere/out: "),
        ("good", "rate", "0", "folder", "folder: "),
    ] {
        let error = save::run(&folder.join(preset), key, value, &folder.join(out)).unwrap_err();
        assert!(error.contains(said), "{error}, and not {said}");
        assert_eq!(names(&folder), stood, "{said}");
        assert_eq!(fs::read_to_string(folder.join("good")).unwrap(), SCORE, "{said}");
        assert_eq!(fs::read_to_string(folder.join("out")).unwrap(), "what stood there", "{said}");
    }
}
