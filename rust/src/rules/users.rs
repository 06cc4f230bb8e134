//! Users and what they want.

use super::fault::Broken;
use super::plan::{Level, PartId, Plan, is_level};

const USERS: usize = 32;
/// A want is told within so many ticks.
const IN_TIME: u64 = 256;

#[derive(Clone, Copy, PartialEq, Eq, Debug)]
pub struct UserId(pub usize);

#[derive(Clone, Copy, Default)]
enum Wish {
    #[default]
    Nothing,
    /// Asked, and so many ticks passed since.
    Asked(PartId, Level, u64),
    Granted(PartId, Level),
}

#[derive(Default)]
pub struct Users {
    wishes: [Wish; USERS],
}

/// A want that is being told.
pub struct Asked {
    pub part: PartId,
    pub level: Level,
    /// Ticks that it may still wait.
    pub left: u64,
}

impl Users {
    /// 0 if the want is taken, else what it is turned away by.
    pub fn want(&mut self, plan: &Plan, user: u32, part: u32, level: Level) -> u32 {
        if user as usize >= USERS || part as usize >= plan.len() || !is_level(level) {
            return 1;
        }
        match &mut self.wishes[user as usize] {
            wish @ Wish::Nothing => {
                *wish = Wish::Asked(PartId(part as usize), level, 0);
                0
            }
            _ => 2,
        }
    }

    pub fn give(&mut self, user: u32) -> u32 {
        match self.wishes.get_mut(user as usize) {
            None => 1,
            Some(Wish::Nothing) => 3,
            Some(wish) => {
                *wish = Wish::Nothing;
                0
            }
        }
    }

    pub fn granted(&self) -> impl Iterator<Item = (PartId, Level)> {
        self.wishes.iter().filter_map(|wish| match wish {
            Wish::Granted(part, level) => Some((*part, *level)),
            _ => None,
        })
    }

    pub fn anybody_waits(&self) -> bool {
        self.wishes.iter().any(|wish| matches!(wish, Wish::Asked(..)))
    }

    /// What the user asked, if it waits and may still be told.
    pub fn asked(&self, user: UserId) -> Result<Asked, Broken> {
        match self.wishes.get(user.0) {
            Some(&Wish::Asked(part, level, age)) if age < IN_TIME => Ok(Asked { part, level, left: IN_TIME - age }),
            Some(Wish::Asked(..)) => Err(Broken::Late),
            _ => Err(Broken::NothingToTell),
        }
    }

    /// The user that waits is told.
    pub fn told(&mut self, user: UserId, done: bool) {
        if let Wish::Asked(part, level, _) = self.wishes[user.0] {
            self.wishes[user.0] = if done { Wish::Granted(part, level) } else { Wish::Nothing };
        }
    }

    /// Ticks pass. Returns the age of the oldest want that still waits.
    pub fn tick(&mut self, ticks: u64) -> Result<u64, Broken> {
        let mut oldest = 0;
        for wish in &mut self.wishes {
            if let Wish::Asked(_, _, age) = wish {
                *age += ticks;
                oldest = oldest.max(*age);
            }
        }
        if oldest < IN_TIME { Ok(oldest) } else { Err(Broken::Late) }
    }
}
