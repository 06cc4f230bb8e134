//! The plan: parts as boxes, in columns by how deep they stand, and an arrow from each to what it needs.

use super::story::Story;
use super::svg::{At, Svg};
use crate::rules::plan::{Need, PartId, Plan};

const BOX: u32 = 92;
const BETWEEN: u32 = 120;
const PORT: u32 = 14;
const SPACE: u32 = 18;
const HEAD: u32 = 26;
const TOP_LEVEL: u32 = 15;

/// Returns the corner at the lower right.
pub fn draw(svg: &mut Svg, story: &Story, (left, top): At) -> At {
    let plan = &story.plan;
    let gives = story.gives.map_or(String::new(), |amount| format!(" The board gives {amount}."));
    svg.text("head", (left, top + 10), "The plan");
    svg.text(
        "",
        (left + 64, top + 10),
        &format!("An arrow leads to what a part needs, with the least at its levels 1, 2, ..  and the most.{gives}"),
    );
    let columns = columns(plan);
    let mut places = vec![(0, 0); plan.len()];
    let mut bottom = top + HEAD;
    for (depth, column) in columns.iter().enumerate() {
        let x = left + depth as u32 * (BOX + BETWEEN);
        // Every second column stands a little lower, so that arrows past it go between its boxes more often.
        let mut y = top + HEAD + depth as u32 % 2 * SPACE;
        for part in column {
            places[part.0] = (x, y);
            y += height(plan, *part) + SPACE;
        }
        bottom = bottom.max(y);
    }
    for x in plan.ids() {
        for (port, need) in plan.needs(x).iter().enumerate() {
            arrow(svg, plan, &places, (x, port), need);
        }
    }
    for x in plan.ids() {
        let (across, down) = places[x.0];
        svg.rect("box", places[x.0], (BOX, height(plan, x)), "");
        svg.text("mid", (across + BOX / 2, down + 13), &format!("part {}", x.0));
        if let Some(draws) = draws(plan, x) {
            svg.text("small mid", (across + BOX / 2, down + 24), &draws);
        }
    }
    // After all arrows, so that none crosses a text.
    for x in plan.ids() {
        for (port, need) in plan.needs(x).iter().enumerate() {
            let (across, down) = from(&places, x, port);
            svg.text("small end halo", (across - 4, down - 2), &bounds(need));
        }
    }
    (left + columns.len() as u32 * (BOX + BETWEEN), bottom)
}

/// The parts that need nothing, then those that need only these, and so on; each column in the order of what its parts need.
fn columns(plan: &Plan) -> Vec<Vec<PartId>> {
    let mut depths: Vec<usize> = Vec::new();
    let mut columns: Vec<Vec<PartId>> = Vec::new();
    for x in plan.ids() {
        let depth = plan.needs(x).iter().map(|need| depths[need.on.0] + 1).max().unwrap_or(0);
        depths.push(depth);
        if depth == columns.len() {
            columns.push(Vec::new());
        }
        columns[depth].push(x);
    }
    let mut ranks = vec![0; plan.len()];
    for column in &mut columns {
        column.sort_by_key(|&x| {
            let needs = plan.needs(x);
            needs.iter().map(|need| ranks[need.on.0]).sum::<usize>() / needs.len().max(1)
        });
        let share = 1000 / column.len();
        column.iter().enumerate().for_each(|(rank, x)| ranks[x.0] = rank * share + share / 2);
    }
    columns
}

fn height(plan: &Plan, x: PartId) -> u32 {
    14 + PORT * (plan.needs(x).len() as u32).max(1)
}

/// Where a need's arrow begins.
fn from(places: &[At], x: PartId, port: usize) -> At {
    let (across, down) = places[x.0];
    (across, down + 14 + port as u32 * PORT)
}

fn arrow(svg: &mut Svg, plan: &Plan, places: &[At], (x, port): (PartId, usize), need: &Need) {
    let (x1, y1) = from(places, x, port);
    let (x2, y2) = (places[need.on.0].0 + BOX, places[need.on.0].1 + height(plan, need.on) / 2);
    let bend = BETWEEN / 2;
    svg.path("need", &format!("M{x1} {y1}C{} {y1} {} {y2} {x2} {y2}", x1 - bend, x2 + bend));
}

/// The least at each level, as far as it changes, and the most.
fn bounds(need: &Need) -> String {
    format!("{}..{}", listed((1..=TOP_LEVEL).map(|level| need.least_at(level).into()).collect()), need.most)
}

fn draws(plan: &Plan, x: PartId) -> Option<String> {
    let drawn = |level| {
        let mut levels = vec![0; plan.len()];
        levels[x.0] = level;
        plan.drawn(&levels)
    };
    (drawn(TOP_LEVEL) > 0).then(|| format!("draws {}", listed((1..=TOP_LEVEL).map(drawn).collect())))
}

/// The last holds for all that follow.
fn listed(mut list: Vec<u64>) -> String {
    while let [.., before, last] = list[..]
        && before == last
    {
        list.pop();
    }
    list.iter().map(u64::to_string).collect::<Vec<_>>().join(" ")
}
