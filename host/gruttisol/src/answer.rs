//! What calls answer: done or refused, and a tick its mark with its volts.
use std::{error, fmt};

/// The number that refused a call. The call left the state and every lent slice as they stood.
#[derive(Clone, Copy, PartialEq, Eq, Debug)]
pub struct Refused(pub u32);

impl fmt::Display for Refused {
    fn fmt(&self, f: &mut fmt::Formatter<'_>) -> fmt::Result {
        let why = match self.0 {
            1 => "the sample rate isn't from 1,000 to 192,000",
            2 => "the state is no oscillator's, or the threshold no issue's",
            3 => "the lent line is too short",
            4 => "the bank isn't of 16,384 numbers, or the part or table isn't one of it",
            5 => "too few draws for a trigger or for noise",
            6 => "a draw isn't below 2^53",
            7 => "the tally's counts don't add up, or it is full",
            20 => "the score has more than 1,024 bytes",
            21 => "a line of the score is wrong, missing or one too many, or its oscillator isn't known",
            22 => "a number of the score isn't written as one",
            23 => "a number of the score is out of its range",
            24 => "the lent text is too short for the score",
            50..=55 => "a slice of another length than the boundary takes",
            _ => "a number that no call refuses by",
        };
        write!(f, "refused by {}: {why}", self.0)
    }
}

impl error::Error for Refused {}

/// How an accepted tick went: the first of these that applies, as they stand here. The numbers are those that an exported tick
/// answers and a block writes. Only a clean tick is finished.
#[derive(Clone, Copy, PartialEq, Eq, Debug)]
pub enum Mark {
    /// The string zeroed its line.
    Cleared = 11,
    /// A wanted output isn't finite, or what stands before its clamp.
    NotFinite = 12,
    /// A phase plus its increment isn't finite.
    Lost = 13,
    /// A control that was given is NaN, be it a gate or one that no wanted output depends on; infinities don't count. The sound is
    /// finite, and may not be what was meant.
    Steered = 15,
    Clean = 14,
}

impl Mark {
    /// All marks, in the order of their numbers.
    pub const ALL: [Mark; 5] = [Mark::Cleared, Mark::NotFinite, Mark::Lost, Mark::Clean, Mark::Steered];

    /// The mark of this number, if it is one's.
    #[inline]
    pub fn of_number(number: u32) -> Option<Mark> {
        Mark::ALL.into_iter().find(|&mark| mark as u32 == number)
    }

    /// The word that stands for it in texts.
    pub fn word(self) -> &'static str {
        match self {
            Mark::Cleared => "cleared",
            Mark::NotFinite => "notfinite",
            Mark::Lost => "lost",
            Mark::Steered => "steered",
            Mark::Clean => "clean",
        }
    }
}

/// An accepted tick.
#[derive(Clone, Copy, PartialEq, Debug)]
pub struct Ticked<V> {
    pub mark: Mark,
    pub volts: V,
}

/// A call without samples: 0 says that it was done.
#[inline]
pub(crate) fn done(code: u32) -> Result<(), Refused> {
    if code == 0 {
        Ok(())
    } else {
        Err(Refused(code))
    }
}

/// A tick: the number of a mark says that it was accepted.
#[inline]
pub(crate) fn ticked<V>(code: u32, volts: V) -> Result<Ticked<V>, Refused> {
    match Mark::of_number(code) {
        Some(mark) => Ok(Ticked { mark, volts }),
        None => Err(Refused(code)),
    }
}
