//! A board in memory, with parts that rise slowly or never.

use super::plan::MAX_PARTS;
use super::print::Print;

pub const ASKINGS: u32 = 1024;

#[derive(Clone, Copy, PartialEq, Eq)]
pub enum State {
    Off,
    Rising,
    On(u8),
}

impl State {
    pub fn level(self) -> u8 {
        match self {
            State::Off => 0,
            State::Rising => 1,
            State::On(level) => level,
        }
    }
}

/// When a rising part is found good: when it's asked so many times more, or never.
#[derive(Clone, Copy)]
enum Pace {
    After(u32),
    Never,
}

pub struct Board {
    pub states: [State; MAX_PARTS],
    /// How often the board may still be asked in this tick.
    pub left: u32,
    pace: [Pace; MAX_PARTS],
    /// In effect from the next raising on.
    next_pace: [Pace; MAX_PARTS],
}

impl Board {
    pub fn new() -> Self {
        Board { states: [State::Off; MAX_PARTS], left: ASKINGS, pace: [Pace::After(1); MAX_PARTS], next_pace: [Pace::After(1); MAX_PARTS] }
    }

    pub fn slow(&mut self, x: usize, askings: u32) {
        self.next_pace[x] = Pace::After(askings);
    }

    pub fn bad(&mut self, x: usize) {
        self.pace[x] = Pace::Never;
        self.next_pace[x] = Pace::Never;
    }

    pub fn raise(&mut self, x: usize, out: &mut Print) {
        self.left -= 1;
        self.states[x] = State::Rising;
        self.pace[x] = self.next_pace[x];
        out.step("raise ", x);
    }

    pub fn good(&mut self, x: usize, out: &mut Print) -> bool {
        self.left -= 1;
        match &mut self.pace[x] {
            Pace::After(askings) if *askings > 1 => {
                *askings -= 1;
                false
            }
            Pace::After(_) => {
                self.states[x] = State::On(1);
                out.step("good ", x);
                true
            }
            Pace::Never => false,
        }
    }

    pub fn level(&mut self, x: usize, level: u8, out: &mut Print) {
        self.left -= 1;
        self.states[x] = State::On(level);
        out.level(x, level);
    }

    pub fn lower(&mut self, x: usize, out: &mut Print) {
        self.left -= 1;
        self.states[x] = State::Off;
        out.step("lower ", x);
    }
}
