//! Scripts without a purpose: wants, gives, ticks and moods of parts as they come.

use super::pen::Pen;
use super::plans::{self, Plan};

pub fn wander(pen: &mut Pen) {
    let plan = plans::random(&mut pen.rng);
    pen.plan(&plan);
    moods(pen, &plan, 20, 10);
    wandering(pen, &plan);
}

/// Some parts are slow, some bad, so many in a hundred.
pub fn moods(pen: &mut Pen, plan: &Plan, slow: u32, bad: u32) {
    for x in 0..plan.len() {
        if pen.rng.percent(slow) {
            let askings = pen.rng.pick(&[1, 2, 10, 63, 64, 65, 66, 128, 129, 200]);
            pen.slow(x, askings);
        }
        if pen.rng.percent(bad) {
            pen.bad(x);
        }
    }
}

pub fn wandering(pen: &mut Pen, plan: &Plan) {
    let mut busy = pen.rng.pick(&[10, 30, 100, 600]);
    for _ in 0..pen.rng.from_to(5, 60) {
        if pen.rng.percent(5) {
            busy = pen.rng.pick(&[0, 10, 30, 100, 600]);
        }
        let calls = busy / 100 + u32::from(pen.rng.percent(busy % 100));
        for _ in 0..calls {
            call(pen, plan);
        }
        if !plan.is_empty() && pen.rng.percent(4) {
            mood(pen, plan);
        }
        match pen.rng.below(60) {
            0 => pen.ticks(66),
            1 => pen.ticks(34),
            2 => pen.ticks(5),
            _ => pen.tick(),
        }
    }
}

fn call(pen: &mut Pen, plan: &Plan) {
    let users = pen.rng.pick(&[3, 8, 33]);
    let user = pen.rng.below(users);
    if pen.rng.percent(55) {
        let strange = pen.rng.percent(3);
        let part = if strange { plan.len() } else { pen.rng.below(plan.len().max(1)) };
        let level = if pen.rng.percent(3) { pen.rng.pick(&[0, 16, u32::MAX]) } else { level(pen) };
        pen.want(user, part, level);
    } else {
        pen.give(user);
    }
}

pub fn level(pen: &mut Pen) -> u32 {
    match pen.rng.below(3) {
        0 => pen.rng.pick(&[1, 2, 3]),
        1 => pen.rng.from_to(1, 15),
        _ => 1,
    }
}

fn mood(pen: &mut Pen, plan: &Plan) {
    let x = pen.rng.below(plan.len());
    match pen.rng.below(3) {
        0 => pen.bad(x),
        1 => pen.slow(x, 1),
        _ => {
            let askings = pen.rng.pick(&[2, 64, 65, 100]);
            pen.slow(x, askings);
        }
    }
}
