//! The wavetable oscillator on both sides, over one bank.
use crate::draw::{Control, Draw, GATE, PITCH, UNIT};
use crate::pair::{advanced, block, both, refusal};
use crate::rust;
use crate::script::{mark, unchanged, Counts, Pair};
use gruttisol::answer::{Mark, Refused};
use gruttisol::wavetable as ours;
use quiver::modules::oscillators::probe::Bank;
use std::sync::OnceLock;

pub struct Wavetable {
    ours: ours::Wavetable,
    theirs: rust::Wavetable,
    bank: &'static Bank,
}

/// Banks that no fill makes: numbers of any size, and some that aren't finite.
fn own_banks() -> &'static [Box<Bank>; 2] {
    static BANKS: OnceLock<[Box<Bank>; 2]> = OnceLock::new();
    BANKS.get_or_init(|| {
        let mut draw = Draw::new(1);
        [100, 3].map(|rarely| {
            let mut bank: Box<Bank> = Box::new([[[0.0; 256]; 8]; 8]);
            bank.as_flattened_mut().as_flattened_mut().fill_with(|| {
                if draw.one_in(rarely) {
                    draw.odd()
                } else {
                    draw.between(-1.0, 1.0)
                }
            });
            bank
        })
    })
}

/// The bank as it is lent to ours.
fn numbers(bank: &'static Bank) -> &'static [f64] {
    bank.as_flattened().as_flattened()
}

impl Pair for Wavetable {
    const NAME: &'static str = "wavetable";
    const CONTROLS: &'static [Control] = &[PITCH, UNIT, UNIT, GATE];
    const PORTS: usize = 1;
    const MASKED: bool = false;
    const REFUSALS: &'static [u32] = &[1, 2, 4, 7, 52];
    const THRESHOLD: Option<usize> = Some(rust::Wavetable::THRESHOLD);
    both!(ours::Wavetable, 5, 2);

    fn new(sample_rate: f64, threshold: f64, draw: &mut Draw) -> Result<Self, Refused> {
        let ours = ours::Wavetable::new(sample_rate, threshold)?;
        let theirs = rust::Wavetable::new(sample_rate, threshold);
        let bank = if draw.one_in(4) { own_banks()[draw.below(2) as usize].as_ref() } else { theirs.bank() };
        Ok(Wavetable { ours, theirs, bank })
    }

    fn invent(&self, controls: &[f64], draw: &mut Draw) -> ([f64; 5], [u64; 2]) {
        let [key] = draw.keys([controls[0]]);
        let val = draw.under(&[key], Draw::hertz);
        let [_, _, _, threshold, _] = self.ours().0;
        let floats = [draw.phase(), draw.state_rate(), draw.previous(), draw.state_threshold(threshold), val];
        (floats, [key, draw.valid()])
    }

    fn refusal(&[phase, rate, _, threshold, _]: &[f64; 5], _: &[u64; 2]) -> u32 {
        refusal(rate, &[phase], Some(threshold))
    }

    /// Tries banks of another size.
    fn lend(&mut self, controls: &[f64], _ticks: usize, draw: &mut Draw, counts: &mut Counts) -> Result<(), String> {
        if draw.one_in(200) {
            let whole = numbers(self.bank);
            let longer = [whole, &[0.0]].concat();
            for bank in [&longer, &whole[1..], &whole[..draw.below(16384) as usize], &[]] {
                unchanged(self, counts, 4, |pair| pair.tick_of(controls, bank).map(drop))?;
            }
        }
        Ok(())
    }

    /// The list holds no bank: `replay` fills the Rust's own.
    fn storable(&self, _floats: &[f64; 5]) -> bool {
        !own_banks().iter().any(|bank| std::ptr::eq(self.bank, bank.as_ref()))
    }

    fn ours_tick(&mut self, controls: &[f64], _wanted: u32, samples: &mut [f64]) -> Result<Mark, Refused> {
        let (mark, out) = self.tick_of(controls, numbers(self.bank))?;
        samples.copy_from_slice(&[out]);
        Ok(mark)
    }

    block!(self, _wanted, [v_oct, table, morph, sync], numbers(self.bank));

    fn theirs_tick(&mut self, controls: &[f64], wanted: u32, samples: &mut [f64], _counts: &mut Counts) -> Mark {
        let (before, _) = self.theirs.flat();
        self.theirs.lend(self.bank);
        self.theirs.body(controls.try_into().unwrap(), wanted, samples.try_into().unwrap());
        let (after, _) = self.theirs.flat();
        mark(samples.iter().copied(), [], [advanced(before, controls[3], after)], controls)
    }
}

impl Wavetable {
    fn tick_of(&mut self, controls: &[f64], bank: &[f64]) -> Result<(Mark, f64), Refused> {
        let [v_oct, table, morph, sync] = *controls else { unreachable!() };
        let ticked = self.ours.tick(&ours::Controls { v_oct, table, morph, sync }, bank)?;
        Ok((ticked.mark, ticked.volts.out))
    }
}
