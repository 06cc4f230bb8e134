//! What was seen in an output.

use super::printed::{Answer, Happening};

/// To know that it was worth seeing.
#[derive(Default, Clone, Debug)]
pub struct Account {
    pub plans: u64,
    pub no_plans: u64,
    pub no_lines: u64,
    pub ticks: u64,
    pub steps: u64,
    pub done: u64,
    pub fives: u64,
    /// Of those, where it was only that too much would be drawn.
    pub too_much: u64,
    pub sixes: u64,
    pub oldest: u64,
}

impl Account {
    pub(super) fn count(&mut self, happening: Happening) {
        match happening {
            Happening::Step(_) => self.steps += 1,
            Happening::Told(_, Answer::Done) => self.done += 1,
            Happening::Told(_, Answer::CannotBe) => self.fives += 1,
            Happening::Told(_, Answer::NotGood) => self.sixes += 1,
        }
    }
}

impl std::ops::AddAssign for Account {
    fn add_assign(&mut self, other: Account) {
        self.plans += other.plans;
        self.no_plans += other.no_plans;
        self.no_lines += other.no_lines;
        self.ticks += other.ticks;
        self.steps += other.steps;
        self.done += other.done;
        self.fives += other.fives;
        self.too_much += other.too_much;
        self.sixes += other.sixes;
        self.oldest = self.oldest.max(other.oldest);
    }
}
