//! Gates: what one must rise above to be taken. Banks of presets of issue 1 have one threshold, those from issue 2 on, for controllers
//! whose gates reach only about three volts, another. An oscillator with a gate is made with one of the two.

/// Volts that a gate of issue 1 must rise above.
pub const ISSUE_1: f64 = 2.5;
/// Volts that a gate of issue 2 must rise above.
pub const ISSUE_2: f64 = 1.0;

/// The issue that a bank of presets is of.
#[derive(Clone, Copy, PartialEq, Eq, Debug)]
pub enum Issue {
    One = 1,
    Two = 2,
}

impl Issue {
    /// Both, in the order of their numbers.
    pub const ALL: [Issue; 2] = [Issue::One, Issue::Two];

    /// The issue of this number, if it is one's.
    pub fn of_number(number: u64) -> Option<Issue> {
        Issue::ALL.into_iter().find(|&issue| issue as u64 == number)
    }

    /// Volts that its gates must rise above.
    pub fn threshold(self) -> f64 {
        match self {
            Issue::One => ISSUE_1,
            Issue::Two => ISSUE_2,
        }
    }
}
