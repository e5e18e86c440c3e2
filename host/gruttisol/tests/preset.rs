//! The example program: it renders each preset, and claims what the presets' table says of it.
use gruttisol::score::Score;
use std::fs;
use std::path::Path;

#[allow(dead_code)]
#[path = "../examples/preset.rs"]
mod preset;

#[test]
fn each_preset_is_claimed_as_described() {
    let presets = Path::new(env!("CARGO_MANIFEST_DIR")).join("../../presets");
    let table = fs::read_to_string(presets.join("README.md")).unwrap();
    let mut rows = 0;
    for row in table.lines().filter_map(|line| line.strip_prefix("| `")) {
        let name = row.split('`').next().unwrap();
        let score = Score::parse(&fs::read(presets.join(name).with_extension("score")).unwrap()).unwrap();
        let (loudest, tally) = preset::render(&score).unwrap();
        let [begun, finished, ..] = *tally.counts();
        assert_eq!(begun, score.frames(), "{name}");
        assert_eq!(row.contains("`claimed=yes`"), finished == begun, "{name}");
        assert!(loudest <= 5.0, "{name}: {loudest}");
        rows += 1;
    }
    assert!(rows >= 12);
}
