//! A render drawn: a row for each output, one below the other, and behind them the frames that aren't clean. Above the rows stand
//! the frames' numbers; below them the time, what `render` counted, and what the colours behind the frames mean.
use crate::text::Render;
use std::fmt::Write;

/// Width of a wave.
const WIDTH: f64 = 640.0;
/// Points of a wave at most, which keeps a picture of six outputs below 75 KB. Of more frames, some stand together, and
/// the lowest and the highest of them are drawn.
const POINTS: usize = 1000;
/// Height of a wave from its lowest to its highest volts.
const HEIGHT: f64 = 88.0;
/// From a row to the next.
const ROW: f64 = 112.0;
const LEFT: f64 = 96.0;
const TOP: f64 = 32.0;
/// From a line of text to the next.
const LINE: f64 = 20.0;
/// From a colour of the legend to the next.
const ENTRY: f64 = 130.0;
/// Parts of an axis at most, so that its labels have room.
const PARTS: f64 = 10.0;
/// How the axes' strokes and the lines of 0 V are drawn.
const LIGHT: &str = "stroke=\"#000\" stroke-opacity=\".2\"";
const COLOURS: [&str; 6] = ["#1f6fb2", "#c2571a", "#2f855a", "#8a3ffc", "#b83280", "#7a6a00"];
/// The marks that aren't clean, and what stands behind their frames.
const BEHIND: [(&str, &str); 4] =
    [("notfinite", "#f8c9c4"), ("lost", "#fbe3b5"), ("cleared", "#cfe3f7"), ("steered", "#e3d5f5")];

/// The picture of a render with `hz` frames a second.
pub fn svg(render: &Render, hz: u32) -> String {
    let frames = render.marks.len();
    let legend: Vec<_> = BEHIND.into_iter().filter(|(mark, _)| render.marks.iter().any(|its| its == mark)).collect();
    let below = TOP + ROW * (render.outputs.len() - 1) as f64 + HEIGHT;
    let lines = if legend.is_empty() { 2.0 } else { 3.0 };
    let (width, height) = (LEFT + WIDTH + 24.0, below + lines * LINE + 8.0);
    let mut svg = format!(
        "<svg xmlns=\"http://www.w3.org/2000/svg\" viewBox=\"0 0 {width} {height}\" \
         font-family=\"sans-serif\" font-size=\"12\" fill=\"#444\">\n\
         <rect width=\"{width}\" height=\"{height}\" fill=\"#fff\"/>\n"
    );
    for (mark, from, to) in stretches(&render.marks) {
        let (x, end) = (place(from, frames), place(to, frames));
        let colour = BEHIND.into_iter().find(|(its, _)| *its == mark).unwrap().1;
        let (width, height) = ((end - x).max(1.0), below - TOP);
        writeln!(
            svg,
            "<rect x=\"{x:.1}\" y=\"{TOP}\" width=\"{width:.1}\" height=\"{height}\" fill=\"{colour}\">\
             <title>{mark}: frames {from} to {}</title></rect>",
            to - 1
        )
        .unwrap();
    }
    let (unit, units) = if frames < hz as usize { ("ms", 1000.0) } else { ("seconds", 1.0) };
    let time = frames as f64 * units / f64::from(hz);
    axis(&mut svg, "frame", &ticks(frames as f64, 0), [TOP - 4.0, TOP], TOP - 10.0);
    axis(&mut svg, unit, &ticks(time, -9), [TOP, below + 4.0], below + 18.0);
    for (row, (name, wave)) in render.outputs.iter().enumerate() {
        let middle = TOP + HEIGHT / 2.0 + ROW * row as f64;
        draw(&mut svg, name, wave, middle, COLOURS[row % COLOURS.len()]);
    }
    let line = |n: f64| below + n * LINE;
    writeln!(svg, "<text x=\"{LEFT}\" y=\"{}\">{}</text>", line(2.0), render.end.join("   ")).unwrap();
    for (n, (mark, colour)) in legend.into_iter().enumerate() {
        let x = LEFT + ENTRY * n as f64;
        writeln!(
            svg,
            "<rect x=\"{x}\" y=\"{}\" width=\"12\" height=\"12\" fill=\"{colour}\" stroke=\"#999\"/>\
             <text x=\"{}\" y=\"{}\">{mark} frames</text>",
            line(3.0) - 10.0,
            x + 18.0,
            line(3.0)
        )
        .unwrap();
    }
    svg + "</svg>\n"
}

/// An axis with its unit: at each tick a stroke between two heights, and its label on the line `y`.
fn axis(svg: &mut String, unit: &str, ticks: &[(f64, String)], [from, to]: [f64; 2], y: f64) {
    let strokes: String = ticks.iter().map(|(x, _)| format!("M{x:.1} {from}V{to}")).collect();
    write!(svg, "<path d=\"{strokes}\" {LIGHT}/>\n<text x=\"8\" y=\"{y}\">{unit}</text><g text-anchor=\"middle\">")
        .unwrap();
    for (x, label) in ticks {
        write!(svg, "<text x=\"{x:.1}\" y=\"{y}\">{label}</text>").unwrap();
    }
    svg.push_str("</g>\n");
}

/// The ticks of an axis of this length, as places and labels: the least of 1, 2 and 5 times a power of ten apart that makes few
/// enough parts, the power being no lower than the least one.
fn ticks(length: f64, least: i32) -> Vec<(f64, String)> {
    let mut steps = (least..).flat_map(|power| [1, 2, 5].map(|digit| (power, decimal(digit, power))));
    let (power, step) = steps.find(|(_, step)| length / step <= PARTS).unwrap();
    let decimals = usize::try_from(-power).unwrap_or(0);
    let ticks = (0..=(length / step) as u32).map(|n| f64::from(n) * step);
    ticks.map(|at| (LEFT + at / length * WIDTH, format!("{at:.decimals$}"))).collect()
}

/// Digits times a power of ten, as near as a number comes to it.
fn decimal(digits: u32, power: i32) -> f64 {
    format!("{digits}e{power}").parse().unwrap()
}

/// One wave with its name, its volts and the line of 0 V.
fn draw(svg: &mut String, name: &str, wave: &[f64], middle: f64, colour: &str) {
    writeln!(svg, "<text x=\"8\" y=\"{}\" font-size=\"14\" fill=\"{colour}\">{name}</text>", middle + 4.0).unwrap();
    let curves = curves(wave);
    if curves.is_empty() {
        writeln!(svg, "<text x=\"{}\" y=\"{}\">no finite sample</text>", LEFT + 8.0, middle + 4.0).unwrap();
        return;
    }
    let range = range(wave);
    let y = |volts: f64| middle - volts / range * HEIGHT / 2.0;
    let (end, beside, volts) = (LEFT + WIDTH, LEFT - 6.0, volts(range));
    writeln!(
        svg,
        "<g text-anchor=\"end\"><text x=\"{beside}\" y=\"{}\">{volts} V</text>\
         <text x=\"{beside}\" y=\"{}\">0</text><text x=\"{beside}\" y=\"{}\">-{volts} V</text></g>\n\
         <path d=\"M{LEFT} {middle}H{end}\" {LIGHT}/>",
        y(range) + 4.0,
        middle + 4.0,
        y(-range) + 4.0,
    )
    .unwrap();
    for curve in curves {
        let points: Vec<String> = curve.iter().map(|&(x, volts)| format!("{x:.1},{:.1}", y(volts))).collect();
        let points = points.join(" ");
        writeln!(svg, "<polyline points=\"{points}\" fill=\"none\" stroke=\"{colour}\"/>").unwrap();
    }
}

/// Volts either way that a row shows: the least of 1, 2, 2.5 and 5 times a power of ten, from 0.1 V on, that holds the wave.
fn range(wave: &[f64]) -> f64 {
    let largest = wave.iter().filter(|x| x.is_finite()).fold(0.0, |most: f64, x| most.max(x.abs()));
    let mut ranges = (-2..).flat_map(|power| [10, 20, 25, 50].map(|digits| decimal(digits, power)));
    ranges.find(|&range| largest <= range).unwrap().min(f64::MAX)
}

/// Volts in few digits.
fn volts(range: f64) -> String {
    if range < 1e5 {
        range.to_string()
    } else {
        format!("{range:.1e}")
    }
}

/// The place of a frame across the picture.
fn place(frame: usize, frames: usize) -> f64 {
    LEFT + frame as f64 * WIDTH / frames as f64
}

/// A wave as curves of places and volts, broken where there is no finite sample. A point alone becomes a short stroke.
fn curves(wave: &[f64]) -> Vec<Vec<(f64, f64)>> {
    let together = if wave.len() > POINTS { wave.len().div_ceil(POINTS / 2) } else { 1 };
    let mut curves = vec![vec![]];
    for (i, samples) in wave.chunks(together).enumerate() {
        let x = place(i * together, wave.len());
        let finite = || samples.iter().copied().filter(|volts| volts.is_finite());
        match (finite().reduce(f64::min), finite().reduce(f64::max)) {
            (Some(lowest), Some(highest)) => {
                let curve = curves.last_mut().unwrap();
                curve.push((x, lowest));
                if samples.len() > 1 {
                    curve.push((x, highest));
                }
            }
            _ => curves.push(vec![]),
        }
    }
    curves.retain(|curve| !curve.is_empty());
    for curve in &mut curves {
        if let [(x, volts)] = curve[..] {
            curve.push((x + 1.0, volts));
        }
    }
    curves
}

/// The marks that aren't clean, each with the first frame that has it and the first after it that hasn't.
fn stretches(marks: &[String]) -> Vec<(&str, usize, usize)> {
    let mut stretches: Vec<(&str, usize, usize)> = vec![];
    for (n, mark) in marks.iter().enumerate().filter(|(_, mark)| *mark != "clean") {
        match stretches.last_mut() {
            Some((last, _, to)) if last == mark && *to == n => *to += 1,
            _ => stretches.push((mark, n, n + 1)),
        }
    }
    stretches
}
