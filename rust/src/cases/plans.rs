//! Plans that make sense.

use crate::rng::Rng;

pub struct Need {
    pub on: u32,
    pub levels: Vec<u32>,
    pub most: u32,
}

#[derive(Default)]
pub struct Part {
    /// At level 1, 2 and so on; empty where nothing is said of it.
    pub draws: Vec<u32>,
    pub needs: Vec<Need>,
}

pub struct Plan {
    pub parts: Vec<Part>,
    pub gives: Option<u32>,
}

impl Plan {
    /// A plan in which nothing is drawn.
    fn of(needs: impl Iterator<Item = Vec<Need>>) -> Plan {
        Plan { parts: needs.map(|needs| Part { needs, ..Part::default() }).collect(), gives: None }
    }

    pub fn len(&self) -> u32 {
        self.parts.len() as u32
    }

    pub fn is_empty(&self) -> bool {
        self.parts.is_empty()
    }

    fn part_lines(&self) -> Vec<String> {
        self.parts.iter().enumerate().map(|(x, part)| part_line(x as u32, part)).collect()
    }

    /// Its lines, with what is given at the end.
    pub fn lines(&self) -> Vec<String> {
        let mut lines = self.part_lines();
        lines.extend(self.gives.map(gives_line));
        lines
    }

    /// The same with what is given anywhere, and at times something else before it, which doesn't count.
    pub fn lines_with_gives_anywhere(&self, rng: &mut Rng) -> Vec<String> {
        let mut lines = self.part_lines();
        if let Some(gives) = self.gives {
            let at = rng.below(self.len() + 1);
            lines.insert(at as usize, gives_line(gives));
            if rng.percent(15) {
                let before = rng.below(at + 1);
                lines.insert(before as usize, gives_line(rng.pick(&[0, 1, 7, u32::MAX])));
            }
        }
        lines
    }

    /// What is drawn at the least for these wants.
    fn draws_for(&self, wants: &[(u32, u32)]) -> u64 {
        let mut levels = vec![0; self.parts.len()];
        for &(x, level) in wants {
            levels[x as usize] = level.max(levels[x as usize]);
        }
        let mut sum = 0;
        for (x, part) in self.parts.iter().enumerate().rev() {
            let level = levels[x];
            for need in &part.needs {
                let on = &mut levels[need.on as usize];
                *on = entry(&need.levels, level).max(*on);
            }
            sum += u64::from(entry(&part.draws, level));
        }
        sum
    }
}

/// A list's entry for this level, of which the last holds for all that follow; 0 for a part that is off.
pub fn entry(list: &[u32], level: u32) -> u32 {
    match level {
        0 => 0,
        _ => list.get(level as usize - 1).or(list.last()).copied().unwrap_or(0),
    }
}

fn gives_line(amount: u32) -> String {
    format!("gives {amount}")
}

pub fn part_line(x: u32, part: &Part) -> String {
    let numbers = |list: &[u32]| list.iter().map(u32::to_string).collect::<Vec<_>>().join(" ");
    let mut line = format!("part {x}");
    if !part.draws.is_empty() {
        line += &format!(" draws {}", numbers(&part.draws));
    }
    for (k, need) in part.needs.iter().enumerate() {
        let word = if k == 0 { "needs" } else { "and" };
        line += &format!(" {word} {} from {} most {}", need.on, numbers(&need.levels), need.most);
    }
    line
}

pub fn size(rng: &mut Rng) -> u32 {
    rng.pick(&[1, 2, 3, 4, 4, 5, 6, 6, 8, 8, 10, 12, 16, 20, 30, 48, 64])
}

/// Others with smaller numbers, up to `most` of them, each once.
fn others(rng: &mut Rng, x: u32, most: u32, near: bool) -> Vec<u32> {
    let count = most.min(x);
    let mut chosen = Vec::new();
    while (chosen.len() as u32) < count {
        let on = if near { x - 1 - rng.below(x.min(6)) } else { rng.below(x) };
        if !chosen.contains(&on) {
            chosen.push(on);
        }
    }
    chosen
}

/// A list that never falls, up to 15.
fn climbing(rng: &mut Rng, first: u32, steep: u32) -> Vec<u32> {
    let mut level = first;
    let length = rng.pick(&[1, 1, 2, 3, 5, 15]);
    (0..length)
        .map(|_| {
            let now = level;
            if rng.percent(steep) {
                level = (level + rng.from_to(1, 2)).min(15);
            }
            now
        })
        .collect()
}

/// Anything.
pub fn random(rng: &mut Rng) -> Plan {
    let plan = without_draws(rng);
    drawing(rng, plan, 60)
}

/// Anything in which nothing is drawn.
fn without_draws(rng: &mut Rng) -> Plan {
    let parts = if rng.percent(3) { 0 } else { size(rng) };
    let near = rng.percent(50);
    let steep = rng.pick(&[10, 30, 60]);
    let strict = rng.pick(&[5, 20, 50]);
    let many = rng.pick(&[1, 2, 4]);
    let needs = |x| {
        let count = rng.below(many + 1);
        let ons = others(rng, x, count, near);
        ons.into_iter()
            .map(|on| {
                let first = rng.pick(&[1, 1, 1, 2, 3]);
                let most = if rng.percent(strict) { rng.below(16) } else { 15 };
                Need { on, levels: climbing(rng, first, steep), most }
            })
            .collect()
    };
    Plan::of((0..parts).map(needs))
}

/// Each part needs the one before it at its own level.
pub fn chain(parts: u32) -> Plan {
    let needs = |x: u32| x.checked_sub(1).map(|on| Need { on, levels: (1..=15).collect(), most: 15 }).into_iter().collect();
    Plan::of((0..parts).map(needs))
}

/// Two chains from one root. The second stands the root at `most` at most.
pub fn fork(parts: u32, most: u32) -> Plan {
    let mut plan = chain(parts);
    let half = parts / 2;
    if half > 0 {
        plan.parts[half as usize].needs = vec![Need { on: 0, levels: vec![1], most }];
    }
    plan
}

/// Mosts so tight that most pairs can't be.
pub fn tight(rng: &mut Rng) -> Plan {
    let parts = rng.from_to(2, 30);
    let needs = |x| {
        let count = rng.from_to(1, 4);
        let ons = others(rng, x, count, false);
        ons.into_iter()
            .map(|on| {
                let first = rng.from_to(1, 6);
                let levels = climbing(rng, first, 30);
                let most = levels[0] + rng.below(3);
                Need { on, levels, most }
            })
            .collect()
    };
    Plan::of((0..parts).map(needs))
}

/// Whatever is on has all that it needs at 15.
pub fn high(parts: u32) -> Plan {
    let needs = |x: u32| (x.saturating_sub(4)..x).map(|on| Need { on, levels: vec![15], most: 15 }).collect();
    Plan::of((0..parts).map(needs))
}

/// The same with draws, so many times out of a hundred: and so much is given that it's about enough for a few wants.
pub fn drawing(rng: &mut Rng, mut plan: Plan, times: u32) -> Plan {
    if plan.is_empty() || !rng.percent(times) {
        return plan;
    }
    let scale = rng.pick(&[1, 3, 10, 1000, u32::MAX / 100, u32::MAX / 4, u32::MAX]);
    let share = rng.pick(&[20, 60, 100]);
    for part in &mut plan.parts {
        if rng.percent(share) {
            part.draws = draws(rng, scale);
        }
    }
    plan.gives = match rng.below(16) {
        0 => None,
        1 => Some(rng.pick(&[0, 1, scale, u32::MAX])),
        _ => {
            let wants: Vec<(u32, u32)> = (0..rng.from_to(1, 4)).map(|_| (rng.below(plan.len()), rng.pick(&[1, 1, 2, 3, 8, 15]))).collect();
            let enough = u32::try_from(plan.draws_for(&wants)).unwrap_or(u32::MAX);
            Some(match rng.below(4) {
                0 => enough.saturating_sub(1),
                1 => enough.saturating_add(rng.below(scale)),
                _ => enough,
            })
        }
    };
    plan
}

/// A list that never falls.
fn draws(rng: &mut Rng, scale: u32) -> Vec<u32> {
    let more = |rng: &mut Rng| rng.below(scale.saturating_add(1));
    let mut draw: u32 = match rng.below(6) {
        0 | 1 => 0,
        2 => scale,
        _ => more(rng),
    };
    let length = rng.pick(&[1, 1, 2, 3, 5, 14, 15]);
    let steep = rng.pick(&[10, 50, 100]);
    (0..length)
        .map(|_| {
            let now = draw;
            if rng.percent(steep) {
                draw = draw.saturating_add(more(rng));
            }
            now
        })
        .collect()
}

/// Any two of the parts can be on at level 1, and no three; all but the first, if that is their `root`.
pub fn pairs(rng: &mut Rng) -> (Plan, bool) {
    let enough = rng.pick(&[2, 4, 10, 100, 1_000_000, u32::MAX - 1, u32::MAX]);
    let root = rng.percent(40);
    let root_draws = if root { rng.pick(&[0, 1, 5]).min(u32::MAX - enough) } else { 0 };
    let mut plan = Plan { parts: Vec::new(), gives: Some(enough + root_draws) };
    if root {
        plan.parts.push(Part { draws: vec![root_draws], needs: Vec::new() });
    }
    for _ in 0..rng.pick(&[3, 3, 4, 10, 63]) {
        let first = rng.from_to(enough / 3 + 1, enough / 2);
        let mut draws = vec![first];
        if rng.percent(40) {
            draws.push(rng.pick(&[enough - enough / 2, enough, u32::MAX]));
        }
        let needs = if root { vec![Need { on: 0, levels: vec![1], most: 15 }] } else { Vec::new() };
        plan.parts.push(Part { draws, needs });
    }
    (plan, root)
}

/// The last part draws at level n what the first n others do together at level 15, and no more is given than all of them draw.
pub fn seesaw(rng: &mut Rng) -> Plan {
    let others = rng.pick(&[1, 2, 3, 5, 15]);
    let scale = rng.pick(&[1, 5, 1000, u32::MAX / 15]);
    let steep = rng.percent(50);
    let mut sum = 0;
    let mut last = Vec::new();
    let mut parts = Vec::new();
    for _ in 0..others {
        let draw = rng.from_to(1, scale);
        sum += draw;
        last.push(sum);
        let draws = if steep { (1..=15).map(|level| draw / 15 * level + draw % 15).collect() } else { vec![draw] };
        parts.push(Part { draws, needs: Vec::new() });
    }
    parts.push(Part { draws: last, needs: Vec::new() });
    Plan { parts, gives: Some(sum) }
}
