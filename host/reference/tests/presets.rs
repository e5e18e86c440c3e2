//! The presets, by the table that describes them, and the gallery's pictures of them.
use std::collections::BTreeSet;
use std::fs;
use std::path::{Path, PathBuf};

fn repository() -> &'static Path {
    Path::new(env!("CARGO_MANIFEST_DIR")).ancestors().nth(2).unwrap()
}

fn preset(name: &str) -> PathBuf {
    repository().join("presets").join(name).with_extension("score")
}

/// The names, without their ending, of a folder's files that have it.
fn names(folder: &str, ending: &str) -> BTreeSet<String> {
    let files = fs::read_dir(repository().join(folder)).unwrap().map(|file| file.unwrap().path());
    files
        .filter(|file| file.extension().is_some_and(|its| its == ending))
        .map(|file| file.file_stem().unwrap().to_str().unwrap().to_owned())
        .collect()
}

/// Each row of the tables, or of those below a heading: a preset's name and what `render` claims at its end.
fn described(heading: &str) -> Vec<(String, String)> {
    let readme = fs::read_to_string(repository().join("presets/README.md")).unwrap();
    let (_, tables) = readme.split_once(heading).expect(heading);
    let cell = |cell: &str| cell.trim().trim_matches('`').to_owned();
    let rows = tables.lines().filter_map(|line| line.strip_prefix("| `"));
    rows.map(|row| {
        let cells: Vec<&str> = row.trim_end_matches('|').split('|').collect();
        (cell(cells[0]), cell(cells[cells.len() - 1]))
    })
    .collect()
}

#[test]
fn presets_are_as_described() {
    let described = described("# Presets\n");
    let named: BTreeSet<String> = described.iter().map(|(name, _)| name.clone()).collect();
    assert_eq!(named, names("presets", "score"));
    assert!(named.len() >= 12);
    for (name, claimed) in &described {
        let score = fs::read(preset(name)).unwrap();
        let text = program::render(&score);
        let last = text.strip_suffix(b"\n").unwrap().rsplit(|&byte| byte == b'\n').next().unwrap();
        assert_eq!(last.escape_ascii().to_string(), *claimed, "{name}");
        #[cfg(quiver)]
        assert!(text == reference::render(&score), "{name}: the reference prints another text");
        let refused = reference::score::read(&score).is_err();
        assert!(!refused, "{name}");
    }
    println!("{} presets", described.len());
}

/// What the table says of `deaf`: but for the marks its frames are those of `concert_a`.
#[test]
fn deaf_sounds_as_concert_a() {
    let [deaf, concert_a] = ["deaf", "concert_a"].map(|name| {
        let text = String::from_utf8(program::render(&fs::read(preset(name)).unwrap())).unwrap();
        let (frames, _) = text.split_once("begun=").unwrap();
        frames.to_owned()
    });
    let marks = concert_a.matches("mark=clean\n").count();
    assert!(marks == 480 && deaf == concert_a.replace("mark=clean\n", "mark=steered\n"), "{marks} frames");
}

/// What the table says of `metronome`.
#[test]
fn metronome_beats_six_times() {
    let text = String::from_utf8(program::render(&fs::read(preset("metronome")).unwrap())).unwrap();
    assert_eq!(text.matches("\neoc=4014000000000000\n").count(), 6);
    assert_eq!(text.matches("\neoc=0000000000000000\n").count(), 194);
}

#[test]
fn long_presets_last_a_second() {
    let long = described("\n## A second or more\n");
    assert!(long.len() >= 7);
    for (name, _) in long {
        let score = reference::score::read(&fs::read(preset(&name)).unwrap()).unwrap();
        assert!(score.frames >= score.hz && score.hz >= 44100, "{name}: {score:?}");
    }
}

#[test]
fn the_gallery_is_drawn_anew() {
    let page = fs::read_to_string(repository().join("docs/gallery.md")).unwrap();
    let pictures = names("docs/gallery", "svg");
    for name in &pictures {
        let (text, hz) = match frames::text(name) {
            Some(text) => (text.unwrap(), frames::HZ),
            None => {
                let score = fs::read(preset(name)).unwrap();
                let hz = reference::score::read(&score).unwrap().hz;
                (String::from_utf8(program::render(&score)).unwrap(), hz)
            }
        };
        assert!(text.contains("begun="), "{name}");
        let stored = fs::read_to_string(repository().join("docs/gallery").join(name).with_extension("svg")).unwrap();
        assert!(picture::svg(&text, hz).unwrap() == stored, "{name}: its picture is drawn otherwise today");
        assert!(stored.len() < 60_000, "{name}: {} bytes", stored.len());
        assert!(page.contains(&format!("(gallery/{name}.svg)")), "{name} isn't on the page");
    }
    assert_eq!(page.matches(".svg)").count(), pictures.len());
    for name in frames::NAMES {
        assert!(pictures.contains(name), "{name} has no picture");
    }
    println!("{} pictures", pictures.len());
}
