//! Plans, the least that serves wants, and what it draws.

use super::line::{NeedLine, PartLine};

pub const MAX_PARTS: usize = 64;
const MAX_NEEDS: usize = 4;
const TOP: u32 = 15;

pub type Level = u32;

#[derive(Clone, Copy, PartialEq, Eq, Hash, Debug)]
pub struct PartId(pub usize);

pub struct Need {
    pub on: PartId,
    levels: Vec<Level>,
    pub most: Level,
}

impl Need {
    /// What the other part must have at least while this one is at `level`; the last of the list holds for all that follow.
    pub fn least_at(&self, level: Level) -> Level {
        at(&self.levels, level)
    }
}

struct Part {
    draws: Vec<u32>,
    needs: Vec<Need>,
}

pub struct Plan {
    parts: Vec<Part>,
    gives: u32,
}

/// What was said of a plan before `run`.
pub struct Draft {
    parts: Vec<PartLine>,
    gives: u32,
}

impl Draft {
    pub fn new() -> Self {
        Draft { parts: Vec::new(), gives: u32::MAX }
    }

    pub fn part(&mut self, line: PartLine) {
        self.parts.push(line);
    }

    /// What was said of it before doesn't count any more.
    pub fn gives(&mut self, amount: u32) {
        self.gives = amount;
    }
}

impl Plan {
    /// The plan of these lines, unless one of the rules refuses it.
    pub fn of(draft: &Draft) -> Option<Plan> {
        let lines = &draft.parts;
        let in_order = lines.iter().enumerate().all(|(x, line)| line.part as usize == x);
        if !in_order || lines.len() > MAX_PARTS || !lines.iter().all(makes_sense) {
            return None;
        }
        let need = |n: &NeedLine| Need { on: PartId(n.on as usize), levels: n.levels.clone(), most: n.most };
        let part = |line: &PartLine| Part { draws: line.draws.clone(), needs: line.needs.iter().map(need).collect() };
        Some(Plan { parts: lines.iter().map(part).collect(), gives: draft.gives })
    }

    pub fn len(&self) -> usize {
        self.parts.len()
    }

    pub fn ids(&self) -> impl Iterator<Item = PartId> + use<> {
        (0..self.parts.len()).map(PartId)
    }

    pub fn needs(&self, x: PartId) -> &[Need] {
        &self.parts[x.0].needs
    }

    /// The lowest levels at which each want is served and each part that isn't off has what it needs at the least: from the wants on,
    /// whatever is too low is put up until nothing is.
    pub fn least(&self, wants: impl IntoIterator<Item = (PartId, Level)>) -> Vec<Level> {
        let mut levels = vec![0; self.len()];
        for (x, level) in wants {
            levels[x.0] = levels[x.0].max(level);
        }
        loop {
            let mut changed = false;
            for (x, part) in self.parts.iter().enumerate().filter(|(_, part)| !part.needs.is_empty()) {
                for need in &part.needs {
                    let at_least = need.least_at(levels[x]);
                    if levels[need.on.0] < at_least {
                        levels[need.on.0] = at_least;
                        changed = true;
                    }
                }
            }
            if !changed {
                return levels;
            }
        }
    }

    /// The levels fit, and no more is drawn than is given.
    pub fn can_be(&self, least: &[Level]) -> bool {
        self.fits(least) && self.is_given(least)
    }

    /// Whether no more is drawn at these levels than is given.
    pub fn is_given(&self, levels: &[Level]) -> bool {
        self.drawn(levels) <= u64::from(self.gives)
    }

    /// What is drawn at these levels.
    pub fn drawn(&self, levels: &[Level]) -> u64 {
        self.parts.iter().zip(levels).map(|(part, &level)| u64::from(at(&part.draws, level))).sum()
    }

    /// No level is above 15, or above what a part that isn't off allows at most.
    pub fn fits(&self, least: &[Level]) -> bool {
        self.ids().all(|x| least[x.0] <= TOP && (least[x.0] == 0 || self.needs(x).iter().all(|n| least[n.on.0] <= n.most)))
    }
}

/// A list's entry for this level: the last holds for all that follow. 0 for a part that is off, and where nothing is said.
fn at(list: &[u32], level: Level) -> u32 {
    match list {
        [.., last] if level > 0 => *list.get(level as usize - 1).unwrap_or(last),
        _ => 0,
    }
}

pub fn is_level(level: Level) -> bool {
    (1..=TOP).contains(&level)
}

fn makes_sense(line: &PartLine) -> bool {
    let mut others: Vec<u32> = line.needs.iter().map(|n| n.on).collect();
    others.sort_unstable();
    others.dedup();
    let each_once = others.len() == line.needs.len();
    is_list(&line.draws)
        && line.needs.len() <= MAX_NEEDS
        && each_once
        && line
            .needs
            .iter()
            .all(|need| need.on < line.part && is_list(&need.levels) && need.levels.iter().all(|&l| is_level(l)) && need.most <= TOP)
}

/// No more than the levels there are, and never falling.
fn is_list(list: &[u32]) -> bool {
    list.len() <= TOP as usize && list.windows(2).all(|w| w[0] <= w[1])
}
