//! Parts that rise slowly or never, and what can be known of how often they were asked.

use super::askings::Askings;
use super::fault::Broken;
use super::plan::{MAX_PARTS, PartId};

/// So often a rising part is found not good before 6 may be told.
const TRIES: u64 = 64;

#[derive(Clone, Copy)]
enum Pace {
    /// Good when it's asked the nth time.
    Nth(u64),
    Never,
    /// `bad` or `slow` came between ticks that can't be told apart.
    Unknown,
}

#[derive(Clone, Copy)]
struct Part {
    /// In effect since it was raised.
    pace: Pace,
    /// In effect from its next raising on.
    next: Pace,
    /// `next` was changed within the span.
    loose: bool,
    /// The span in which it was raised, or a 6 was told since.
    since: usize,
    raised: usize,
    /// So often it was found not good since it was raised, at the least, before `since`.
    asked: u64,
}

pub struct Paces {
    parts: [Part; MAX_PARTS],
}

impl Paces {
    pub fn new() -> Self {
        let first = Part { pace: Pace::Nth(1), next: Pace::Nth(1), loose: false, since: 0, raised: 0, asked: 0 };
        Paces { parts: [first; MAX_PARTS] }
    }

    /// `within`: between ticks that can't be told apart.
    pub fn bad(&mut self, x: PartId, within: bool) {
        let part = &mut self.parts[x.0];
        part.next = Pace::Never;
        part.pace = if within { Pace::Unknown } else { Pace::Never };
        part.loose = within;
    }

    pub fn slow(&mut self, x: PartId, askings: u32, within: bool) {
        let part = &mut self.parts[x.0];
        part.next = Pace::Nth(u64::from(askings));
        if within {
            part.pace = Pace::Unknown;
            part.loose = true;
        }
    }

    pub fn span_ends(&mut self) {
        for part in &mut self.parts {
            part.loose = false;
        }
    }

    pub fn raised(&mut self, x: PartId, span: usize) {
        let part = &mut self.parts[x.0];
        part.pace = if part.loose { Pace::Unknown } else { part.next };
        part.since = span;
        part.raised = span;
        part.asked = 0;
    }

    /// It was found good: the askings before that weren't printed.
    pub fn good(&mut self, x: PartId, span: usize, askings: &mut Askings) -> Result<(), Broken> {
        let part = &self.parts[x.0];
        match part.pace {
            Pace::Unknown => Ok(()),
            Pace::Never => Err(Broken::CannotBeGood),
            Pace::Nth(n) => {
                let before = (n - 1).checked_sub(part.asked).ok_or(Broken::CannotBeGood)?;
                askings.hidden(part.raised, span, before);
                Ok(())
            }
        }
    }

    /// 6 is told because of one of these rising parts.
    pub fn six(&mut self, rising: impl Iterator<Item = PartId>, span: usize, askings: &mut Askings) -> Result<(), Broken> {
        let may_be: Vec<PartId> = rising.filter(|x| self.may_be_tried(*x)).collect();
        match may_be[..] {
            [] => return Err(Broken::NotTried),
            [x] => {
                let part = &mut self.parts[x.0];
                askings.hidden(part.since, span, TRIES);
                part.asked += TRIES;
            }
            // Which of them it was can't be known.
            _ => {}
        }
        for part in &mut self.parts {
            part.since = span;
        }
        Ok(())
    }

    /// Whether it can have been found not good 64 times since it was raised or a 6 was told.
    fn may_be_tried(&self, x: PartId) -> bool {
        let part = &self.parts[x.0];
        match part.pace {
            Pace::Nth(n) => part.asked + TRIES < n,
            Pace::Never | Pace::Unknown => true,
        }
    }
}
