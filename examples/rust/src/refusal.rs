//! The refusals of the header, by name and by number.

use std::fmt;

/// What a call answers: nothing or a result, or the refusal.
pub type Result<T> = std::result::Result<T, Refusal>;

/// Why a call was refused.
#[derive(Clone, Copy, Debug, PartialEq, Eq, Hash)]
pub enum Refusal {
    /// 1: no axes, or more than four.
    AxisCount,
    /// 2: an axis of fewer than four points, or a buffer whose length disagrees.
    DimensionMismatch,
    /// 3: more than 16,777,216 points.
    TooManyPoints,
    /// 4: scratch is shorter than twice the longest axis.
    ScratchTooSmall,
    /// 5: a knot not above the one before it, or a step not above zero.
    NotIncreasing,
    /// 6: a query on a regular map whose cell cannot be represented.
    Unrepresentable,
    /// 7: no such axis, or no such line on it.
    NoSuchLine,
    /// 8: the line is solved already.
    AlreadySolved,
    /// 9: the line is not due yet.
    NotDue,
    /// A number that this wrapper does not know: the library is a newer one.
    Other(u32),
}

impl Refusal {
    /// The refusal with this number; none for 0, which is no refusal.
    pub fn from_number(number: u32) -> Option<Refusal> {
        Some(match number {
            0 => return None,
            1 => Refusal::AxisCount,
            2 => Refusal::DimensionMismatch,
            3 => Refusal::TooManyPoints,
            4 => Refusal::ScratchTooSmall,
            5 => Refusal::NotIncreasing,
            6 => Refusal::Unrepresentable,
            7 => Refusal::NoSuchLine,
            8 => Refusal::AlreadySolved,
            9 => Refusal::NotDue,
            other => Refusal::Other(other),
        })
    }

    /// Its number in the header.
    pub fn number(self) -> u32 {
        match self {
            Refusal::AxisCount => 1,
            Refusal::DimensionMismatch => 2,
            Refusal::TooManyPoints => 3,
            Refusal::ScratchTooSmall => 4,
            Refusal::NotIncreasing => 5,
            Refusal::Unrepresentable => 6,
            Refusal::NoSuchLine => 7,
            Refusal::AlreadySolved => 8,
            Refusal::NotDue => 9,
            Refusal::Other(number) => number,
        }
    }

    /// What it means.
    pub fn text(self) -> &'static str {
        match self {
            Refusal::AxisCount => "a map has one to four axes",
            Refusal::DimensionMismatch => "an axis has fewer than four points, or a buffer's length disagrees",
            Refusal::TooManyPoints => "the map has more than 16,777,216 points",
            Refusal::ScratchTooSmall => "scratch is shorter than twice the longest axis",
            Refusal::NotIncreasing => "the knots of an axis do not rise, or a step is not above zero",
            Refusal::Unrepresentable => "a query is no number, is infinite, or is too far away to be placed",
            Refusal::NoSuchLine => "there is no such axis, or no such line on it",
            Refusal::AlreadySolved => "the line is solved already",
            Refusal::NotDue => "the line is not due yet: a line of a lower axis that crosses it is not solved",
            Refusal::Other(_) => "a number that this wrapper does not know",
        }
    }
}

impl fmt::Display for Refusal {
    fn fmt(&self, f: &mut fmt::Formatter<'_>) -> fmt::Result {
        write!(f, "refused ({}): {}", self.number(), self.text())
    }
}

impl std::error::Error for Refusal {}

/// The answer of a call, as a result.
pub(crate) fn answer(number: u32) -> Result<()> {
    match Refusal::from_number(number) {
        None => Ok(()),
        Some(refusal) => Err(refusal),
    }
}
