//! docs/SCORE.md: what the page says that a score prints, is refused by and is marked with.
use std::fs;
use std::path::Path;

fn page() -> String {
    let repository = Path::new(env!("CARGO_MANIFEST_DIR")).ancestors().nth(2).unwrap();
    fs::read_to_string(repository.join("docs/SCORE.md")).unwrap()
}

/// What the program prints for a score, and so the reference.
fn rendered(score: &str) -> String {
    let text = program::render(score.as_bytes());
    #[cfg(quiver)]
    assert!(text == reference::render(score.as_bytes()), "the reference prints another text of\n{score}");
    String::from_utf8(text).unwrap()
}

/// The fenced texts of the page, in order: a score and what it prints.
fn example(page: &str) -> (String, String) {
    let fenced: Vec<String> = page.split("```\n").skip(1).step_by(2).map(str::to_owned).collect();
    let [score, printed] = <[String; 2]>::try_from(fenced).unwrap();
    (score, printed)
}

/// The rows of the table below a heading, as cells without their backquotes.
fn table(page: &str, heading: &str) -> Vec<Vec<String>> {
    let (_, below) = page.split_once(heading).expect(heading);
    let rows =
        below.lines().skip_while(|line| !line.starts_with("|---")).skip(1).take_while(|line| line.starts_with('|'));
    let cells = |row: &str| row.trim_matches('|').split('|').map(|cell| cell.trim().replace('`', "")).collect();
    rows.map(cells).collect()
}

/// The inputs of an oscillator, by the table of its own section.
fn inputs(page: &str, osc: &str) -> Vec<String> {
    table(page, &format!("### `osc={osc}`")).into_iter().map(|row| row[0].clone()).collect()
}

/// A score of ten frames by the page's order of keys. The inputs are half a volt but for the one given.
fn score(page: &str, osc: &str, (input, value): (&str, &str)) -> String {
    let mut text = format!("osc={osc}\nhz=48000\nframes=10\n");
    for key in inputs(page, osc) {
        text += &format!("{key}={}\n", if key == input { value } else { "500000" });
    }
    text
}

#[test]
fn the_example() {
    let (score, printed) = example(&page());
    assert_eq!(rendered(&score), printed);
}

#[test]
fn each_oscillator_has_the_inputs_that_the_page_lists() {
    let page = page();
    for (osc, outputs) in [("vco", 4), ("lfo", 6), ("supersaw", 2), ("formant", 1)] {
        let text = rendered(&score(&page, osc, ("", "")));
        assert!(text.ends_with("claimed=yes\n"), "{osc}: {text}");
        let (_, section) = page.split_once(&format!("### `osc={osc}`")).unwrap();
        let (_, named) = section.split_once("\nPrints ").unwrap();
        let printed = text.lines().skip(2).take(outputs).map(|line| line.split_once('=').unwrap().0);
        for name in printed {
            assert!(named.split("\n\n").next().unwrap().contains(&format!("`{name}`")), "{osc} {name}");
        }
    }
}

/// With a pulse width of `nan`: never high, and low beyond 5 V where a turn begins.
#[test]
fn the_square_of_a_width_that_is_nan() {
    let text = rendered(&score(&page(), "vco", ("pw", "nan")).replace("frames=10\n", "frames=4800\n"));
    let bits = text.lines().filter_map(|line| line.strip_prefix("sqr="));
    let volts: Vec<f64> = bits.map(|bits| f64::from_bits(u64::from_str_radix(bits, 16).unwrap())).collect();
    let least = volts.iter().copied().fold(0.0, f64::min);
    let most = volts.iter().copied().fold(-10.0, f64::max);
    assert!(least == -10.0 && (-0.5..=0.0).contains(&most), "{least} to {most}");
    assert!(volts.iter().filter(|&&volts| volts == -5.0).count() > 4000);
}

/// Each text that the page says is refused, in the place of the line of its key.
#[test]
fn refusals() {
    let (good, _) = example(&page());
    let rows = table(&page(), "## What is refused");
    assert_eq!(rows.len(), 4);
    let mut tried = 0;
    for row in &rows[1..] {
        for line in row[2].split(", ") {
            let key = line.split(['=', ':']).next().unwrap().to_lowercase();
            let kept = |its: &&str| !its.starts_with(&format!("{key}="));
            let at = match key.as_str() {
                "gate" => 2, // the example has none: after hz
                _ => good.lines().position(|its| !kept(&its)).unwrap(),
            };
            let mut lines: Vec<&str> = good.lines().filter(kept).collect();
            lines.insert(at, line);
            assert_eq!(rendered(&(lines.join("\n") + "\n")), row[0].clone() + "\n", "{line}");
            tried += 1;
        }
    }
    assert!(tried >= 15);
    for (text, number) in [("", 21), (good.trim_end(), 21), (&(good.clone() + "\n"), 21), (&"x".repeat(1025), 20)] {
        assert_eq!(rendered(text), format!("refused={number}\n"));
    }
}

#[test]
fn inputs_that_are_nan() {
    let page = page();
    let rows = table(&page, "## Inputs that are `nan`");
    let listed: Vec<(String, String)> = rows.iter().map(|row| (row[0].clone(), row[1].clone())).collect();
    let all = ["vco", "lfo", "supersaw", "formant"]
        .map(|osc| inputs(&page, osc).into_iter().map(move |key| (osc.to_owned(), key)));
    assert_eq!(listed, all.into_iter().flatten().collect::<Vec<_>>());
    for row in rows {
        let text = rendered(&score(&page, &row[0], (&row[1], "nan")));
        assert_eq!(text.matches(&format!("mark={}\n", row[2])).count(), 10, "{row:?}");
    }
}
