//! What can be found wrong.

use super::plan::Level;
use std::fmt;

/// A rule that was broken.
#[derive(Debug, Clone, PartialEq, Eq)]
pub enum Broken {
    /// Another line was expected.
    Expected(String),
    /// More was printed than the input asks for.
    TooMuch,
    /// The last line has no newline, or what is printed is no text.
    NoText,
    NoSuchPart,
    NotOff,
    NotRising,
    NotOn,
    IsOff,
    /// A part that is needed isn't on, or its level doesn't suit.
    NotServed,
    /// Not one level up or down, or not 1 to 15.
    NoStep,
    /// The level doesn't suit a part that needs it.
    DoesNotSuit,
    Needed,
    /// More is drawn after the step than is given.
    DrawsTooMuch,
    /// Somebody was granted it.
    TakenAway,
    /// It was asked so many times at most, and can't be good, or is bad.
    CannotBeGood,
    /// Nothing was asked that can be told.
    NothingToTell,
    /// Done is told, and the part isn't on at that level.
    NotDone,
    /// 5 is told, and it can be.
    CanBe,
    /// 6 is told, and it can't be.
    CannotBe,
    /// 6 is told, and no needed part can have been found not good 64 times.
    NotTried,
    /// Something happened without a tick.
    NoTick,
    /// A want wasn't told within 256 ticks.
    Late,
    /// More askings in a tick than there may be.
    TooManyAskings,
    /// It was quiet, and levels aren't the least.
    NotLean(Vec<Level>),
    /// It was quiet, and something was asked of the board.
    NotQuiet,
}

/// What was found wrong, and where.
#[derive(Debug, Clone)]
pub struct Fault {
    pub broken: Broken,
    /// The input's line, from 1 on.
    pub line: u64,
    /// The output's line, from 1 on.
    pub printed: usize,
    /// What that says.
    pub says: String,
}

impl fmt::Display for Fault {
    fn fmt(&self, f: &mut fmt::Formatter) -> fmt::Result {
        write!(f, "{:?}: up to line {} of the input, at line {} of the output: {:?}", self.broken, self.line, self.printed, self.says)
    }
}
