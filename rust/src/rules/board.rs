//! The data sheet: what may be done to a board.

use super::fault::Broken;
use super::plan::{Level, MAX_PARTS, PartId, Plan, is_level};
use super::printed::Step;

#[derive(Clone, Copy, PartialEq, Eq, Debug)]
pub enum State {
    Off,
    Rising,
    On(Level),
}

impl State {
    /// A rising part needs and draws what it does at level 1.
    fn level(self) -> Level {
        match self {
            State::Off => 0,
            State::Rising => 1,
            State::On(level) => level,
        }
    }
}

pub struct Board {
    states: [State; MAX_PARTS],
}

fn must(rule: bool, broken: Broken) -> Result<(), Broken> {
    if rule { Ok(()) } else { Err(broken) }
}

impl Board {
    pub fn new() -> Self {
        Board { states: [State::Off; MAX_PARTS] }
    }

    pub fn state(&self, x: PartId) -> State {
        self.states[x.0]
    }

    /// Does a step, if the data sheet allows it and nobody loses what they were granted.
    pub fn step(&mut self, plan: &Plan, granted: impl Iterator<Item = (PartId, Level)>, step: Step) -> Result<(), Broken> {
        let (Step::Raise(x) | Step::Good(x) | Step::Level(x, _) | Step::Lower(x)) = step;
        must(x.0 < plan.len(), Broken::NoSuchPart)?;
        let state = self.state(x);
        let held = granted.filter(|&(part, _)| part == x).map(|(_, level)| level).max().unwrap_or(0);
        let after = match step {
            Step::Raise(_) => {
                must(state == State::Off, Broken::NotOff)?;
                must(self.is_served(plan, x, 1), Broken::NotServed)?;
                State::Rising
            }
            Step::Good(_) => {
                must(state == State::Rising, Broken::NotRising)?;
                State::On(1)
            }
            Step::Level(_, level) => {
                let State::On(now) = state else { return Err(Broken::NotOn) };
                must(is_level(level) && now.abs_diff(level) == 1, Broken::NoStep)?;
                must(self.is_served(plan, x, level), Broken::NotServed)?;
                must(self.suits(plan, x, level), Broken::DoesNotSuit)?;
                must(held <= level, Broken::TakenAway)?;
                State::On(level)
            }
            Step::Lower(_) => {
                must(state != State::Off, Broken::IsOff)?;
                must(!self.is_needed(plan, x), Broken::Needed)?;
                must(held == 0, Broken::TakenAway)?;
                State::Off
            }
        };
        let mut levels = self.levels(plan);
        levels[x.0] = after.level();
        must(plan.is_given(&levels), Broken::DrawsTooMuch)?;
        self.states[x.0] = after;
        Ok(())
    }

    /// Whether it is on at that level or more.
    pub fn is_on_at(&self, x: PartId, level: Level) -> bool {
        matches!(self.state(x), State::On(now) if now >= level)
    }

    /// Each part is at its level, on, and off where that is 0.
    pub fn is_at(&self, levels: &[Level]) -> bool {
        levels.iter().zip(&self.states).all(|(&level, &state)| state == if level == 0 { State::Off } else { State::On(level) })
    }

    pub fn levels(&self, plan: &Plan) -> Vec<Level> {
        plan.ids().map(|x| self.state(x).level()).collect()
    }

    /// Everything that x needs is on, between the least for this level and the most.
    fn is_served(&self, plan: &Plan, x: PartId, level: Level) -> bool {
        plan.needs(x).iter().all(|n| matches!(self.state(n.on), State::On(on) if n.least_at(level) <= on && on <= n.most))
    }

    /// The level suits every part that needs x and isn't off.
    fn suits(&self, plan: &Plan, x: PartId, level: Level) -> bool {
        plan.ids().filter(|&z| self.state(z) != State::Off).all(|z| {
            let at = self.state(z).level();
            plan.needs(z).iter().filter(|n| n.on == x).all(|n| n.least_at(at) <= level && level <= n.most)
        })
    }

    fn is_needed(&self, plan: &Plan, x: PartId) -> bool {
        plan.ids().any(|z| self.state(z) != State::Off && plan.needs(z).iter().any(|n| n.on == x))
    }
}
