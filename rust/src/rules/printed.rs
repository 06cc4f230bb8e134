//! What is printed in a tick.

use super::plan::{Level, PartId};
use super::users::UserId;
use std::fmt;

#[derive(Clone, Copy, Debug)]
pub enum Step {
    Raise(PartId),
    Good(PartId),
    Level(PartId, Level),
    Lower(PartId),
}

#[derive(Clone, Copy, Debug, PartialEq, Eq)]
pub enum Answer {
    Done,
    CannotBe,
    NotGood,
}

#[derive(Clone, Copy, Debug)]
pub enum Happening {
    Step(Step),
    Told(UserId, Answer),
}

impl Happening {
    /// What this line says, if it says what happened in a tick.
    pub fn read(line: &str) -> Option<Happening> {
        let words: Vec<&str> = line.split(' ').collect();
        let part = |word: &str| word.parse().ok().map(PartId);
        let user = |word: &str| word.parse().ok().map(UserId);
        let happening = match words[..] {
            ["raise", x] => Happening::Step(Step::Raise(part(x)?)),
            ["good", x] => Happening::Step(Step::Good(part(x)?)),
            ["level", x, level] => Happening::Step(Step::Level(part(x)?, level.parse().ok()?)),
            ["lower", x] => Happening::Step(Step::Lower(part(x)?)),
            [u, "done"] => Happening::Told(user(u)?, Answer::Done),
            [u, "no", "5"] => Happening::Told(user(u)?, Answer::CannotBe),
            [u, "no", "6"] => Happening::Told(user(u)?, Answer::NotGood),
            _ => return None,
        };
        // Numbers are written in one way only.
        (happening.to_string() == line).then_some(happening)
    }
}

impl fmt::Display for Happening {
    fn fmt(&self, f: &mut fmt::Formatter) -> fmt::Result {
        match self {
            Happening::Step(Step::Raise(x)) => write!(f, "raise {}", x.0),
            Happening::Step(Step::Good(x)) => write!(f, "good {}", x.0),
            Happening::Step(Step::Level(x, level)) => write!(f, "level {} {level}", x.0),
            Happening::Step(Step::Lower(x)) => write!(f, "lower {}", x.0),
            Happening::Told(u, Answer::Done) => write!(f, "{} done", u.0),
            Happening::Told(u, Answer::CannotBe) => write!(f, "{} no 5", u.0),
            Happening::Told(u, Answer::NotGood) => write!(f, "{} no 6", u.0),
        }
    }
}
