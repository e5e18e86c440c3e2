//! What docs/HARMONICS.md says of each level of each wave, held to the bank's own numbers, and of the level that is played, to ticks.
use gruttisol::gate::ISSUE_1;
use gruttisol::wavetable::{Controls, Wavetable};
use std::f64::consts::TAU;

const PAGE: &str = include_str!("../../../docs/HARMONICS.md");
const LEVEL: usize = 256;
const LEVELS: usize = Wavetable::TABLE / LEVEL;
/// Far above what rounding leaves of a partial that isn't there, far below the faintest that is.
const AUDIBLE: f64 = 1e-6;
/// The partials of the two formants, each by its times the note and its loudness.
const AH: [(f64, f64); 4] = [(1.0, 1.0), (2.7, 0.5), (4.6, 0.3), (9.6, 0.15)];
const OH: [(f64, f64); 4] = [(1.0, 1.0), (1.5, 0.6), (3.0, 0.4), (10.0, 0.15)];

/// The sheet under a heading of the page: of each wave a number for each level.
fn sheet(heading: &str) -> Vec<Vec<usize>> {
    let (_, below) = PAGE.split_once(&format!("\n## {heading}\n")).expect(heading);
    let lines = below.lines().skip_while(|line| !line.starts_with('|')).take_while(|line| line.starts_with('|'));
    let cells = |row: &'static str| row.trim_matches('|').split('|').skip(1);
    lines.skip(2).map(|row| cells(row).map(|cell| cell.trim().parse().expect(row)).collect()).collect()
}

/// The waves of a bank, each a list of its levels.
fn waves() -> Vec<Vec<Vec<f64>>> {
    let mut bank = vec![f64::NAN; Wavetable::BANK];
    Wavetable::fill_bank(&mut bank).unwrap();
    bank.chunks(Wavetable::TABLE).map(|wave| wave.chunks(LEVEL).map(<[f64]>::to_vec).collect()).collect()
}

/// How much of a harmonic a level has.
fn amplitude(level: &[f64], harmonic: usize) -> f64 {
    let along = |turned: fn(f64) -> f64| {
        let angle = |i: usize| TAU * ((harmonic * i % LEVEL) as f64) / LEVEL as f64;
        level.iter().enumerate().map(|(i, x)| x * turned(angle(i))).sum::<f64>() * 2.0 / LEVEL as f64
    };
    along(f64::sin).hypot(along(f64::cos))
}

/// Whether the page says that a wave has a harmonic, where a level reaches so far.
fn has(wave: usize, harmonic: usize) -> bool {
    match wave {
        1 | 3 => harmonic % 2 == 1,
        4 => harmonic % 4 != 0,
        5 => harmonic % 8 != 0,
        _ => true,
    }
}

#[test]
fn harmonics_up_to_the_sheets_number() {
    let (highest, sounding) = (sheet("The sheet"), sheet("How many partials sound"));
    for (wave, levels) in waves()[..6].iter().enumerate() {
        for (level, numbers) in levels.iter().enumerate() {
            let heard: Vec<usize> = (0..LEVEL / 2).filter(|&harmonic| amplitude(numbers, harmonic) > AUDIBLE).collect();
            let said: Vec<usize> = (1..=highest[wave][level]).filter(|&harmonic| has(wave, harmonic)).collect();
            assert_eq!(heard, said, "wave {wave}, level {level}");
            assert_eq!(heard.len(), sounding[wave][level], "wave {wave}, level {level}");
        }
    }
}

/// The formants' partials aren't all harmonics, so a level is held to the sum of so many of them: of no other number it is.
#[test]
fn partials_of_the_formants() {
    let (highest, sounding, waves) = (sheet("The sheet"), sheet("How many partials sound"), waves());
    for (wave, partials) in [(6, AH), (7, OH)] {
        for (level, numbers) in waves[wave].iter().enumerate() {
            let at = |i: usize, &(times, loud): &(f64, f64)| (TAU * times * i as f64 / LEVEL as f64).sin() * loud * 0.5;
            let sum = |count: usize, i: usize| partials[..count].iter().map(|partial| at(i, partial)).sum::<f64>();
            let is = |&count: &usize| numbers.iter().enumerate().all(|(i, x)| (x - sum(count, i)).abs() < AUDIBLE);
            assert_eq!((0..=4).filter(is).collect::<Vec<_>>(), [sounding[wave][level]], "wave {wave}, level {level}");
            let reached = partials.iter().filter(|(times, _)| *times <= highest[wave][level] as f64).count();
            assert_eq!(reached, sounding[wave][level], "wave {wave}, level {level}");
        }
    }
}

/// Each number in this bank is its level, so that a tick says which one it read: just below and just above the pitches where a level can end.
#[test]
fn the_level_that_is_played() {
    let bank: Vec<f64> = (0..Wavetable::BANK).map(|cell| (cell / LEVEL % LEVELS) as f64).collect();
    let half_rate = 24000.0;
    for (wave, highest) in sheet("The sheet").iter().enumerate() {
        for hz in (1..=65).flat_map(|n| [0.999999, 1.000001].map(|beside| half_rate / n as f64 * beside)) {
            let v_oct = (hz / 261.6255653005986_f64).log2();
            let controls = Controls { v_oct, table: wave as f64 / 7.0, morph: 0.0, sync: 0.0 };
            let ticked = Wavetable::new(2.0 * half_rate, ISSUE_1).unwrap().tick(&controls, &bank).unwrap();
            let said = highest.iter().position(|&number| number as f64 <= half_rate / hz).unwrap_or(LEVELS - 1);
            assert_eq!((ticked.volts.out / 5.0).round() as usize, said, "wave {wave}, {hz} Hz");
        }
    }
}
