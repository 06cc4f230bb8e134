//! Plans: as they are written, and once they are taken.

use super::lines::PartLine;

pub const MAX_PARTS: usize = 64;
pub const MAX_NEEDS: usize = 4;
/// The highest level.
pub const TOP: u8 = 15;

/// What a part draws, by its level; 0 where it is off.
pub type Draws = [u32; TOP as usize + 1];

pub const NO_DRAWS: Draws = [0; TOP as usize + 1];

#[derive(Clone, Copy)]
pub struct Need {
    pub on: u8,
    pub most: u8,
    /// By the level of the part that needs it; 0 where it is off.
    pub least: [u8; TOP as usize + 1],
}

impl Need {
    pub const NONE: Need = Need { on: 0, most: 0, least: [0; TOP as usize + 1] };

    fn makes_sense(&self, part: usize) -> bool {
        usize::from(self.on) < part && self.least[1] >= 1 && self.least.is_sorted() && self.most <= TOP
    }
}

/// All needs one after the other; those of part x are from `first[x]` up to `first[x + 1]`.
#[derive(Clone)]
pub struct Plan {
    parts: usize,
    first: [u16; MAX_PARTS + 1],
    needs: Vec<Need>,
    draws: Vec<Draws>,
    gives: u32,
}

impl Plan {
    pub fn parts(&self) -> usize {
        self.parts
    }

    pub fn needs(&self, part: usize) -> &[Need] {
        &self.needs[usize::from(self.first[part])..usize::from(self.first[part + 1])]
    }

    /// What all parts draw at these levels.
    pub fn drawn(&self, levels: &[u8]) -> u64 {
        self.draws.iter().zip(levels).map(|(draws, &level)| u64::from(draws[usize::from(level)])).sum()
    }

    pub fn gives(&self) -> u64 {
        u64::from(self.gives)
    }
}

/// A plan that is being written.
pub struct Draft {
    plan: Plan,
    spoilt: bool,
}

impl Draft {
    pub fn new() -> Self {
        let plan = Plan { parts: 0, first: [0; MAX_PARTS + 1], needs: Vec::new(), draws: Vec::new(), gives: u32::MAX };
        Draft { plan, spoilt: false }
    }

    pub fn add(&mut self, part: &PartLine) {
        let x = self.plan.parts;
        let needs = &part.needs[..part.count];
        let apart = (1..needs.len()).all(|i| needs[..i].iter().all(|n| n.on != needs[i].on));
        let in_place = x < MAX_PARTS && part.number as usize == x;
        let fits = !part.spoilt && in_place && part.draws.is_sorted() && apart && needs.iter().all(|n| n.makes_sense(x));
        if !fits {
            self.spoilt = true;
        }
        if self.spoilt {
            return;
        }
        self.plan.needs.extend_from_slice(needs);
        self.plan.draws.push(part.draws);
        self.plan.parts += 1;
        self.plan.first[x + 1] = self.plan.needs.len() as u16;
    }

    pub fn gives(&mut self, amount: u32) {
        self.plan.gives = amount;
    }

    /// The plan, if it can be taken.
    pub fn finish(self) -> Option<Plan> {
        (!self.spoilt).then_some(self.plan)
    }
}
