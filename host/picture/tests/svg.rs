//! Pictures of small texts.
use picture::svg;
use std::collections::BTreeSet;

const HZ: u32 = 48000;

const END: &str = "begun=5\nfinished=2\ncleared=0\nnotfinite=1\nlost=1\nsteered=1\nclaimed=no\n";

/// 0, 5, -5 V, the NaN and 0 V on one output, 1 V throughout on the other; the third frame is lost, the fourth not finite, the fifth steered.
fn five_frames() -> String {
    let frame = |n, mark, up| format!("n={n}\nmark={mark}\nup={up}\nflat=3FF0000000000000\n");
    [
        frame(0, "clean", "0000000000000000"),
        frame(1, "clean", "4014000000000000"),
        frame(2, "lost", "C014000000000000"),
        frame(3, "notfinite", "7FF8000000000000"),
        frame(4, "steered", "0000000000000000"),
        END.into(),
    ]
    .concat()
}

/// Every element is closed by its own name, its values are quoted, and its text holds no bare `<` or `&`.
fn well_formed(svg: &str) {
    let mut open = vec![];
    let mut rest = svg;
    while let Some((text, tag)) = rest.split_once('<') {
        assert!(!text.contains(['>', '&']), "{text}");
        let (tag, after) = tag.split_once('>').expect("a tag that ends");
        rest = after;
        let name = tag.split_whitespace().next().unwrap();
        if let Some(name) = name.strip_prefix('/') {
            assert_eq!(open.pop(), Some(name));
            continue;
        }
        assert!(tag.matches('"').count() == 2 * tag.matches("=\"").count() && !tag.contains(['<', '&']), "{tag}");
        if !tag.ends_with('/') {
            open.push(name);
        }
    }
    assert!(open.is_empty() && rest.trim().is_empty(), "{open:?} stay open before {rest}");
}

/// A text of clean frames with one output.
fn wave(samples: impl IntoIterator<Item = f64>) -> String {
    let frame = |(n, volts): (usize, f64)| format!("n={n}\nmark=clean\nout={:016X}\n", volts.to_bits());
    samples.into_iter().enumerate().map(frame).chain([END.to_owned()]).collect()
}

/// The texts of a picture, with their places, in its order.
fn labels(svg: &str) -> Vec<(f64, f64, &str)> {
    let texts = svg.split("<text ").skip(1).map(|rest| rest.split_once('>').unwrap());
    let number = |tag: &str, key: &str| tag.split_once(key).unwrap().1.split('"').next().unwrap().parse().unwrap();
    texts.map(|(tag, rest)| (number(tag, "x=\""), number(tag, "y=\""), rest.split('<').next().unwrap())).collect()
}

/// The labels of the axis with this unit: those on its line, after it.
fn axis<'a>(svg: &'a str, unit: &str) -> Vec<(f64, &'a str)> {
    let labels = labels(svg);
    let &(_, line, _) = labels.iter().find(|(_, _, label)| *label == unit).expect(unit);
    let on_it = labels.into_iter().filter(|&(x, y, _)| y == line && x > 8.0);
    on_it.map(|(x, _, label)| (x, label)).collect()
}

#[test]
fn points_and_marks() {
    let svg = svg(&five_frames(), HZ).unwrap();
    well_formed(&svg);
    assert!(svg.starts_with("<svg xmlns=\"http://www.w3.org/2000/svg\" viewBox=\""));
    // 640 wide from 96 on, 44 either way of the middle, and the curve ends before the NaN; after it a point alone is a stroke
    let up = "points=\"96.0,76.0 224.0,32.0 352.0,120.0\"";
    let after = "points=\"608.0,76.0 609.0,76.0\"";
    let flat = "points=\"96.0,144.0 224.0,144.0 352.0,144.0 480.0,144.0 608.0,144.0\"";
    assert!(svg.contains(up) && svg.contains(after) && svg.contains(flat), "{svg}");
    assert_eq!(svg.matches("<polyline").count(), 3);
    assert!(svg.contains(">up<") && svg.contains(">flat<"));
    assert!(svg.contains("x=\"352.0\"") && svg.contains("<title>lost: frames 2 to 2</title>"));
    assert!(svg.contains("x=\"480.0\"") && svg.contains("<title>notfinite: frames 3 to 3</title>"));
    assert!(svg.contains("x=\"608.0\"") && svg.contains("<title>steered: frames 4 to 4</title>"));
    assert!(svg.contains("begun=5   finished=2   cleared=0   notfinite=1   lost=1   steered=1   claimed=no"));
}

/// Neighbouring frames of one mark are one stretch, and a gap in a wave makes two curves.
#[test]
fn stretches_and_gaps() {
    let sample = |n: u32| if matches!(n, 3 | 4) { "7FF0000000000000" } else { "3FF0000000000000" };
    let mark = |n: u32| if matches!(n, 3 | 4 | 7) { "notfinite" } else { "clean" };
    let frames: String = (0..9).map(|n| format!("n={n}\nmark={}\nout={}\n", mark(n), sample(n))).collect();
    let svg = svg(&(frames + END), HZ).unwrap();
    well_formed(&svg);
    assert_eq!(svg.matches("<polyline").count(), 2);
    assert_eq!(svg.matches("<title>").count(), 2);
    assert!(svg.contains("notfinite: frames 3 to 4") && svg.contains("notfinite: frames 7 to 7"));
}

/// Of many frames the lowest and the highest of those that stand together are drawn, so a picture stays small.
#[test]
fn many_frames() {
    let svg = svg(&wave((0..480_000).map(|n| if n % 2 == 0 { 5.0 } else { -5.0 })), HZ).unwrap();
    well_formed(&svg);
    assert!(svg.len() < 20_000, "{} bytes", svg.len());
    assert!(svg.contains("points=\"96.0,120.0 96.0,32.0 97.3,120.0 97.3,32.0 "), "{}", &svg[..1000]);
}

/// As many outputs as any oscillator has, the Lfo, each in a colour of its own, with as many points as are drawn.
#[test]
fn six_outputs() {
    const NAMES: [&str; 6] = ["sin", "tri", "saw", "sqr", "sin_uni", "eoc"];
    let outputs = |volts: f64| NAMES.map(|name| format!("{name}={:016X}\n", volts.to_bits())).concat();
    let frame = |n: u32| format!("n={n}\nmark=clean\n{}", outputs(if n % 2 == 0 { 5.0 } else { -5.0 }));
    let svg = svg(&((0..1000).map(frame).collect::<String>() + END), HZ).unwrap();
    well_formed(&svg);
    let colour = |name: &str| svg.split_once(&format!("\">{name}</text>")).unwrap().0.rsplit('"').next().unwrap();
    let colours: BTreeSet<&str> = NAMES.into_iter().map(colour).collect();
    assert_eq!(colours.len(), NAMES.len(), "{colours:?}");
    assert!(colours.iter().all(|colour| svg.matches(&format!("stroke=\"{colour}\"")).count() == 1), "{colours:?}");
    assert!(svg.len() < 75_000, "{} bytes", svg.len());
}

/// Volts stand at the left of the wave, and never in more than three digits; the least range that holds the wave is taken.
#[test]
fn volts_are_round() {
    for (largest, range) in [
        (0.0, "0.1"),
        (1e-300, "0.1"),
        (0.1, "0.1"),
        (0.100001, "0.2"),
        (0.21, "0.25"),
        (0.3, "0.5"),
        (5.0, "5"),
        (5.000000000000001, "10"),
        (23.534535699753178, "25"),
        (-26.0, "50"),
        (51.0, "100"),
        (4e4, "50000"),
        (60001.0, "1.0e5"),
        (2.1e7, "2.5e7"),
        (1e308, "1.0e308"),
        (f64::MAX, "1.8e308"),
    ] {
        let svg = svg(&wave([0.0, largest]), HZ).unwrap();
        well_formed(&svg);
        let labels = labels(&svg);
        for (label, y) in [(format!("{range} V"), 36.0), ("0".into(), 80.0), (format!("-{range} V"), 124.0)] {
            assert!(labels.contains(&(90.0, y, &label)), "{label} of {largest}: {labels:?}");
        }
        // what ends there doesn't reach the wave, which begins at 96, nor stand at the names
        assert_eq!(svg.matches("<g text-anchor=\"end\"><text x=\"90\"").count(), 1);
    }
}

#[test]
fn frames_above_and_time_below() {
    let drawn = |frames: usize, hz| svg(&wave(vec![1.0; frames]), hz).unwrap();
    let said = |svg: &str, unit| axis(svg, unit).iter().map(|(_, label)| *label).collect::<Vec<_>>().join(" ");
    for (frames, hz, unit, time, numbers) in [
        (480, 48000, "ms", "0 1 2 3 4 5 6 7 8 9 10", "0 50 100 150 200 250 300 350 400 450"),
        (1920, 48000, "ms", "0 5 10 15 20 25 30 35 40", "0 200 400 600 800 1000 1200 1400 1600 1800"),
        (240, 48000, "ms", "0.0 0.5 1.0 1.5 2.0 2.5 3.0 3.5 4.0 4.5 5.0", "0 50 100 150 200"),
        (441, 44100, "ms", "0 1 2 3 4 5 6 7 8 9 10", "0 50 100 150 200 250 300 350 400"),
        (999, 1000, "ms", "0 100 200 300 400 500 600 700 800 900", "0 100 200 300 400 500 600 700 800 900"),
        (
            1000,
            1000,
            "seconds",
            "0.0 0.1 0.2 0.3 0.4 0.5 0.6 0.7 0.8 0.9 1.0",
            "0 100 200 300 400 500 600 700 800 900 1000",
        ),
        (
            96000,
            48000,
            "seconds",
            "0.0 0.2 0.4 0.6 0.8 1.0 1.2 1.4 1.6 1.8 2.0",
            "0 10000 20000 30000 40000 50000 60000 70000 80000 90000",
        ),
        (1, 48000, "ms", "0.000 0.005 0.010 0.015 0.020", "0 1"),
        (1, 192_000, "ms", "0.000 0.001 0.002 0.003 0.004 0.005", "0 1"),
    ] {
        let svg = drawn(frames, hz);
        well_formed(&svg);
        assert_eq!(said(&svg, unit), time, "{frames} frames at {hz}");
        assert_eq!(said(&svg, "frame"), numbers, "{frames} frames at {hz}");
    }
    // a label stands where its frame and its time are: the picture's 640 are 40 ms
    let svg = drawn(1920, 48000);
    assert_eq!(axis(&svg, "ms")[..3], [(96.0, "0"), (176.0, "5"), (256.0, "10")]);
    assert_eq!(axis(&svg, "frame")[..3], [(96.0, "0"), (162.7, "200"), (229.3, "400")]);
    assert!(svg.contains("M176.0 32V124") && svg.contains("M162.7 28V32"), "{svg}");
}

/// The legend has the colours that stand behind frames, and no others.
#[test]
fn a_legend_of_the_marks_that_occur() {
    let colours = [("notfinite", "#f8c9c4"), ("lost", "#fbe3b5"), ("cleared", "#cfe3f7"), ("steered", "#e3d5f5")];
    for mask in 0..16 {
        let marks: Vec<_> = (0..4).filter(|n| mask >> n & 1 == 1).map(|n| colours[n]).collect();
        let named = marks.iter().map(|(mark, _)| *mark).chain(["clean"]);
        let frames = named.enumerate().map(|(n, mark)| format!("n={n}\nmark={mark}\nout=3FF0000000000000\n"));
        let svg = svg(&(frames.collect::<String>() + END), HZ).unwrap();
        well_formed(&svg);
        for (n, (mark, colour)) in marks.iter().enumerate() {
            let x = 96 + 130 * n;
            let square =
                format!("<rect x=\"{x}\" y=\"170\" width=\"12\" height=\"12\" fill=\"{colour}\" stroke=\"#999\"/>");
            assert!(svg.contains(&square), "{square}\n{svg}");
            assert!(labels(&svg).contains(&((x + 18) as f64, 180.0, &format!("{mark} frames"))), "{svg}");
            assert_eq!(svg.matches(colour).count(), 2, "{colour}: behind a frame, and here");
        }
        assert_eq!(svg.matches(" frames<").count(), marks.len());
        // the last line is within the picture
        let height = if marks.is_empty() { 168 } else { 188 };
        assert!(svg.contains(&format!("viewBox=\"0 0 760 {height}\"")), "{svg}");
    }
}

/// A row without any finite sample says so; one that has a single one, or one among others that stand together, shows it.
#[test]
fn rows_of_few_finite_samples() {
    let nothing = svg(&wave([f64::NAN, f64::INFINITY]), HZ).unwrap();
    well_formed(&nothing);
    assert!(nothing.contains(">no finite sample<") && !nothing.contains("<polyline") && !nothing.contains(" V<"));
    let one = svg(&wave([5.0]), HZ).unwrap();
    assert!(one.contains("points=\"96.0,32.0 97.0,32.0\"") && !one.contains("no finite sample"));
    let few = svg(&wave((0..2000).map(|n| if n % 2 == 0 { f64::NAN } else { 5.0 })), HZ).unwrap();
    assert!(few.contains("points=\"96.0,32.0 96.0,32.0 97.3,32.0 ") && !few.contains("no finite sample"));
}

#[test]
fn rates_that_are_no_scores() {
    let text = five_frames();
    assert!(svg(&text, 1000).is_ok() && svg(&text, 192_000).is_ok());
    for hz in [0, 999, 192_001, u32::MAX] {
        let why = format!("{hz} Hz isn't the rate of a score, which is from 1000 to 192000");
        assert_eq!(svg(&text, hz).unwrap_err(), why);
    }
}

#[test]
fn texts_that_are_no_render() {
    let good = five_frames();
    let cases = [
        ("refused=22\n".to_owned(), "the score was refused by 22: there is nothing to draw"),
        (String::new(), "the text ends before line 1"),
        (END.to_owned(), "line 1 isn't the first line of a frame"),
        ("hello\n".to_owned(), "line 1 isn't a key, an equals sign and a value"),
        (good.replace("n=0\n", "n=1\n"), "line 1 isn't the next frame"),
        (good.replacen("mark=", "mood=", 1), "line 2 isn't the line of mark"),
        (good.replacen("=clean", "=clear", 1), "line 2 isn't the line of a mark"),
        (good.replacen("up=0000", "up=", 1), "line 3 isn't a sample of 16 digits"),
        (good.replacen("up=0", "up=g", 1), "line 3 isn't a sample of 16 digits"),
        (good.replacen("up", "<b>", 1), "line 3 isn't a key, an equals sign and a value"),
        (good.replacen("n=1\nmark=clean\nup", "n=1\nmark=clean\ndown", 1), "line 7 isn't the output that is due"),
        (good.replace("claimed=no\n", ""), "the text ends before line 27"),
        (good.replace("lost=1\n", ""), "line 25 isn't the line of lost"),
        (good.replace("steered=1\n", ""), "line 26 isn't the line of steered"),
        (good[..40].to_owned(), "line 4 isn't a key, an equals sign and a value"),
    ];
    for (text, why) in cases {
        assert_eq!(svg(&text, HZ).unwrap_err(), why, "{text}");
    }
}

/// The tool itself: the rate, the text by a file or its input, and what it says of a refusal and of bad words.
#[test]
fn the_command() {
    use std::io::Write;
    use std::process::{Command, Stdio};
    let picture = || Command::new(env!("CARGO_BIN_EXE_picture"));
    let drawn = |text: &str| {
        let mut run = picture();
        run.arg("48000").stdin(Stdio::piped()).stdout(Stdio::piped()).stderr(Stdio::piped());
        let mut run = run.spawn().unwrap();
        run.stdin.take().unwrap().write_all(text.as_bytes()).unwrap();
        run.wait_with_output().unwrap()
    };
    let (text, refused) = (five_frames(), drawn("refused=21\n"));
    let file = std::path::Path::new(env!("CARGO_TARGET_TMPDIR")).join("five_frames");
    std::fs::write(&file, &text).unwrap();
    let file = file.to_str().unwrap();
    assert_eq!(drawn(&text).stdout, svg(&text, HZ).unwrap().as_bytes());
    assert_eq!(picture().args(["48000", file]).output().unwrap().stdout, svg(&text, HZ).unwrap().as_bytes());
    assert_eq!((refused.status.code(), refused.stdout.len()), (Some(1), 0));
    assert_eq!(refused.stderr, b"picture: the score was refused by 21: there is nothing to draw\n");
    let usage = "usage: picture HZ [FILE]\n";
    let no_number = |word: &str| format!("picture: {word} isn't a whole number of Hz\n{usage}");
    let no_rate = "picture: 48 Hz isn't the rate of a score, which is from 1000 to 192000\n";
    for (words, status, said) in [
        (&[][..], 2, usage.to_owned()),
        (&["48000", file, "three"], 2, usage.to_owned()),
        (&[file], 2, no_number(file)),
        (&["48000.0", file], 2, no_number("48000.0")),
        (&["-48000", file], 2, no_number("-48000")),
        (&["48", file], 1, no_rate.to_owned()),
        (&["48000", "no_such_file"], 1, "picture: no_such_file: No such file or directory (os error 2)\n".to_owned()),
    ] {
        let run = picture().args(words).output().unwrap();
        assert_eq!(String::from_utf8(run.stderr).unwrap(), said, "{words:?}");
        assert_eq!((run.status.code(), run.stdout.len()), (Some(status), 0), "{words:?}");
    }
}
