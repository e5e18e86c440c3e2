//! The helpers that the oscillators share against the Rust's, to the last bit.
use crate::draw::{Draw, PITCH};
use crate::pair::turned;
use crate::script::{alike, hex};
use gruttisol::common as ours;
use quiver::modules::common as rust;

/// Arguments drawn for each helper.
const DRAWS: usize = 2_000_000;

/// Compares a helper with the Rust's on drawn arguments.
fn each(name: &str, ours: fn(f64, f64) -> f64, theirs: fn(f64, f64) -> f64, drawn: fn(&mut Draw) -> (f64, f64)) {
    let mut draw = Draw::new(1);
    for _ in 0..DRAWS {
        let (x, y) = drawn(&mut draw);
        let (a, b) = (ours(x, y), theirs(x, y));
        assert!(alike(a, b), "{name} of {} and {}: {}, the Rust's {}", hex(x), hex(y), hex(a), hex(b));
    }
    println!("{name}: {DRAWS} arguments; no difference");
}

/// A phase and an increment, now and then odd.
fn place(draw: &mut Draw) -> (f64, f64) {
    let t = if draw.one_in(20) { draw.odd() } else { draw.phase() };
    let dt = match draw.below(20) {
        0 => draw.odd(),
        1 => t,
        2 => 1.0 - t,
        3..=8 => draw.between(0.0, 1.0),
        _ => draw.between(0.0, 0.1),
    };
    (t, dt)
}

pub fn pitch() {
    each("voct_to_hz", |x, _| ours::voct_to_hz(x), |x, _| rust::voct_to_hz(x), |draw| (draw.value(&PITCH, 4), 0.0));
}

/// A number to wrap, and nothing.
fn unwrapped(draw: &mut Draw) -> (f64, f64) {
    // beside some of these the floor changes, or the number is finite no more
    const CORNERS: [f64; 8] = [0.0, 1.0, 2.0, 2.5, 0.25, 1.0 / (1u64 << 60) as f64, f64::MAX, f64::INFINITY];
    let x = match draw.below(8) {
        0 => draw.odd(),
        1 => draw.between(-1e6, 1e6),
        2 => draw.between(-3.0, 3.0).round() + draw.between(-1e-15, 1e-15),
        3 => {
            let corner = draw.of(&CORNERS);
            let near = draw.about(corner);
            draw.of(&[near, -near])
        }
        _ => draw.between(-1.5, 2.5),
    };
    (x, 0.0)
}

pub fn wrap() {
    each("wrap_phase", |x, _| ours::wrap_phase(x), |x, _| rust::wrap_phase(x), unwrapped);
}

/// The Rust's wrap doesn't say whether it passes a turn; Rust's own floor does.
pub fn turn() {
    each("wrap_turned", |x, _| ours::wrap_turned(x).into(), |x, _| turned(x).into(), unwrapped);
}

pub fn steps() {
    each("polyblep", ours::polyblep, rust::polyblep, place);
}

pub fn corners() {
    each("polyblamp", ours::polyblamp, rust::polyblamp, place);
}
