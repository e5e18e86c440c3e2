//! Numbers for scripts: usual ones, and those that a function on floats is most likely to get wrong.
use random::Random;

/// What a control mostly is, and where its rules change.
pub struct Control {
    pub lo: f64,
    pub hi: f64,
    pub corners: &'static [f64],
    /// Whether it is a gate, which rises and falls more often than others change.
    pub gate: bool,
}

/// A pitch, clamped at 32 octaves either way.
pub const PITCH: Control = Control { lo: -6.0, hi: 6.0, corners: &[-32.0, 32.0, 9.0, 10.0, 12.0], gate: false };
/// An exponent of 2, whose power is 0, exact, or infinite from here on.
pub const OCTAVES: Control =
    Control { lo: -5.0, hi: 5.0, corners: &[-1022.0, -1023.0, 1023.0, 1024.0, 0.5, 1015.0, -1074.0], gate: false };
pub const VOLTS: Control = Control { lo: -5.0, hi: 5.0, corners: &[-5.0, 5.0, 10.0, 1e6], gate: false };
pub const UNIT: Control = Control { lo: -0.1, hi: 1.1, corners: &[0.0, 1.0, 0.5, 0.05, 0.95], gate: false };
pub const BOTH_WAYS: Control = Control { lo: -1.1, hi: 1.1, corners: &[-1.0, 0.0, 1.0], gate: false };
pub const GATE: Control = Control { lo: -5.0, hi: 10.0, corners: &[0.0, LOW, HIGH, 5.0], gate: true };

/// What a gate must rise above, in volts: the threshold of issue 1 and that of issue 2. No other is taken.
pub const HIGH: f64 = 2.5;
pub const LOW: f64 = 1.0;
pub const THRESHOLDS: [f64; 2] = [HIGH, LOW];

/// The NaN that ours takes any for, as a memo's key.
pub const ONE_NAN: u64 = 0x7ff8_0000_0000_0000;

pub struct Draw {
    random: Random,
    /// Whether every NaN that is drawn is `ONE_NAN`, so that a memo may hold a number under a NaN; else NaNs are of all kinds.
    pub one_nan: bool,
}

impl Draw {
    pub fn new(seed: u64) -> Self {
        Draw { random: Random::new(seed), one_nan: false }
    }

    pub fn of_one_nan(seed: u64) -> Self {
        Draw { one_nan: true, ..Draw::new(seed) }
    }

    pub fn bits(&mut self) -> u64 {
        self.random.bits()
    }

    pub fn below(&mut self, n: u64) -> u64 {
        self.bits() % n
    }

    pub fn one_in(&mut self, n: u64) -> bool {
        self.below(n) == 0
    }

    pub fn of<T: Copy>(&mut self, all: &[T]) -> T {
        all[self.below(all.len() as u64) as usize]
    }

    pub fn between(&mut self, lo: f64, hi: f64) -> f64 {
        self.random.between(lo, hi)
    }

    /// The number or one beside it.
    pub fn about(&mut self, x: f64) -> f64 {
        match self.below(4) {
            0 => x.next_down(),
            1 => x.next_up(),
            _ => x,
        }
    }

    /// A number that no rule expects: NaNs, infinities, zeros, the smallest and the largest, any bits.
    pub fn odd(&mut self) -> f64 {
        let x = match self.below(12) {
            0 => f64::NAN,
            1 => f64::from_bits(0x7ff0_0000_0000_0000 | self.bits() >> 12), // NaNs of all kinds, and infinity
            2 => f64::INFINITY,
            3 => 0.0,
            4 => f64::from_bits(self.bits() >> 12), // below the normal numbers
            5 => f64::MIN_POSITIVE,
            6 => f64::from_bits(1),
            7 => f64::MAX,
            8 => self.between(1e300, 1e308),
            9 => self.between(0.0, 1e-300),
            10 => f64::powi(2.0, self.below(2046) as i32 - 1022),
            _ => f64::from_bits(self.bits()),
        };
        let x = if self.one_in(2) { -x } else { x };
        if self.one_nan && x.is_nan() {
            f64::from_bits(ONE_NAN)
        } else {
            x
        }
    }

    pub fn usual(&mut self, of: &Control) -> f64 {
        if of.gate {
            // low, the thresholds themselves among it, high for one of them, or for both
            match self.below(16) {
                0 | 1 => self.about(HIGH),
                2 | 3 => self.about(LOW),
                4..=7 => self.between(of.lo, LOW),
                8 | 9 => self.between(LOW, HIGH),
                _ => self.between(HIGH, of.hi),
            }
        } else {
            self.between(of.lo, of.hi)
        }
    }

    /// A value of a control, with corners and odd ones about once in `rarely`.
    pub fn value(&mut self, of: &Control, rarely: u64) -> f64 {
        match self.below(2 * rarely) {
            0 => self.odd(),
            1 => {
                let corner = self.of(of.corners);
                self.about(corner)
            }
            _ => self.usual(of),
        }
    }

    /// A rate that is taken.
    pub fn rate(&mut self) -> f64 {
        match self.below(8) {
            0 => 1000.0,
            1 => 192000.0,
            2 => self.of(&[1000f64.next_up(), 192000f64.next_down(), 22050.0, 96000.0]),
            3 => 44100.0,
            4 => 48000.0,
            5 => self.between(1000.0, 192000.0),
            6 => self.between(1000.0, 10000.0),
            _ => self.between(1000.0, 192000.0).floor(),
        }
    }

    /// A rate that is refused by 1.
    pub fn bad_rate(&mut self) -> f64 {
        let listed = [
            999.5,
            1000f64.next_down(),
            192000f64.next_up(),
            192001.0,
            0.0,
            -0.0,
            -48000.0,
            f64::NAN,
            f64::INFINITY,
            f64::NEG_INFINITY,
            f64::MAX,
            f64::from_bits(1),
        ];
        self.of(&listed)
    }

    /// A state's rate: mostly one that is taken.
    pub fn state_rate(&mut self) -> f64 {
        if self.one_in(40) {
            self.bad_rate()
        } else {
            self.rate()
        }
    }

    /// A threshold that is refused by 2.
    pub fn bad_threshold(&mut self) -> f64 {
        let listed = [
            LOW.next_down(),
            LOW.next_up(),
            HIGH.next_down(),
            HIGH.next_up(),
            -LOW,
            -HIGH,
            0.0,
            -0.0,
            1.5,
            5.0,
            f64::NAN,
            f64::INFINITY,
            f64::NEG_INFINITY,
            f64::MAX,
            f64::from_bits(1),
            f64::MIN_POSITIVE.next_down(),
        ];
        match self.odd() {
            x if self.one_in(4) && !THRESHOLDS.contains(&x) => x,
            _ => self.of(&listed),
        }
    }

    /// A state's threshold: mostly this one, now and then the other, or one that is refused.
    pub fn state_threshold(&mut self, mostly: f64) -> f64 {
        match self.below(32) {
            0 | 1 => self.bad_threshold(),
            2..=5 => self.of(&THRESHOLDS),
            _ => mostly,
        }
    }

    /// A state's phase: mostly in [0, 1), with the places where rules change.
    pub fn phase(&mut self) -> f64 {
        match self.below(40) {
            0 => self.of(&[1.0, 1.5, f64::NAN, f64::INFINITY, f64::NEG_INFINITY, -f64::from_bits(1), -0.25]),
            1..=4 => self.of(&[0.0, -0.0, 1f64.next_down(), f64::from_bits(1), f64::MIN_POSITIVE, 1e-17]),
            5..=8 => {
                let corner = self.of(&[0.5, 0.25, 0.4, 0.8, 0.05, 0.95, 1.0 / 7.0]);
                self.about(corner)
            }
            _ => self.between(0.0, 1f64.next_down()),
        }
    }

    /// What a gate was before.
    pub fn previous(&mut self) -> f64 {
        self.value(&GATE, 8)
    }

    /// A memo's frequency: whatever its maker liked.
    pub fn hertz(&mut self) -> f64 {
        match self.below(4) {
            0 => self.odd(),
            1 => self.between(-5000.0, 5000.0),
            _ => self.between(20.0, 5000.0),
        }
    }

    /// A filter's value.
    pub fn level(&mut self) -> f64 {
        match self.below(8) {
            0 => self.odd(),
            _ => self.tame_level(),
        }
    }

    pub fn tame_level(&mut self) -> f64 {
        self.between(-1.0, 1.0)
    }

    /// A memo's keys: the bits of what it is to be asked next, or others.
    pub fn keys<const N: usize>(&mut self, asked: [f64; N]) -> [u64; N] {
        let likely = self.one_in(2);
        asked.map(|x| {
            let x = if likely || self.one_in(2) { x } else { self.value(&PITCH, 2) };
            x.to_bits()
        })
    }

    /// A value, drawn so, for a memo that holds these keys. Any NaN is the one NaN to us, where the Rust tells their bits apart; so where
    /// there are NaNs of all kinds a key that is one comes with the value that it has, a NaN too, and both sides agree whether they hit or
    /// not.
    pub fn under(&mut self, keys: &[u64], drawn: fn(&mut Draw) -> f64) -> f64 {
        let value = drawn(self);
        if !self.one_nan && keys.iter().any(|&key| f64::from_bits(key).is_nan()) {
            f64::NAN
        } else {
            value
        }
    }

    /// A memo's `valid`: any word but 0 says that it holds.
    pub fn valid(&mut self) -> u64 {
        match self.below(8) {
            0 | 1 => 0,
            2 => self.bits(),
            _ => 1,
        }
    }
}
