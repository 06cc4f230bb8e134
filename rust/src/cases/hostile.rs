//! Scripts that make it as hard as can be.

use super::pen::Pen;
use super::plans::{self, Plan};
use super::wander::{level, moods, wandering};

const USERS: u32 = 32;

fn all_slow(pen: &mut Pen, plan: &Plan, askings: u32) {
    (0..plan.len()).for_each(|x| pen.slow(x, askings));
}

/// A chain in which each part is good only at the last asking, or just too late; many want its end, and undo it in between.
pub fn slow_chain(pen: &mut Pen) {
    let parts = pen.rng.pick(&[4, 16, 40, 64]);
    let plan = plans::chain(parts);
    pen.plan(&plan);
    let askings = pen.rng.pick(&[2, 3, 63, 64, 64, 64, 65, 66, 130]);
    all_slow(pen, &plan, askings);
    let users = pen.rng.pick(&[1, 2, 8, 32]);
    for _ in 0..pen.rng.from_to(1, 4) {
        for u in 0..users {
            let part = parts - 1 - pen.rng.below(3);
            let level = pen.rng.pick(&[1, 15, 15]);
            pen.want(u, part, level);
        }
        let ticks = pen.rng.from_to(1, 12) + users / 4;
        pen.ticks(ticks);
        (0..users).for_each(|u| pen.give(u));
        if pen.rng.percent(30) {
            pen.ticks(66);
        }
    }
}

/// Wants on two sides of a fork that can't be together, each undoing what the one before needed.
pub fn undoing(pen: &mut Pen) {
    let parts = pen.rng.pick(&[4, 8, 20, 64]);
    let most = pen.rng.pick(&[1, 2, 7]);
    let plan = plans::drawing(&mut pen.rng, plans::fork(parts, most), 30);
    pen.plan(&plan);
    if pen.rng.percent(50) {
        let askings = pen.rng.pick(&[2, 20, 64, 65]);
        all_slow(pen, &plan, askings);
    }
    let sides = [parts / 2 - 1, parts - 1];
    let patient = pen.rng.percent(50);
    for round in 0..pen.rng.from_to(4, 24) {
        let user = round % 3;
        let high = pen.rng.pick(&[15, 15, most, 1]);
        pen.want(user, sides[round as usize % 2], high);
        let ticks = if patient { pen.rng.from_to(1, 7) } else { 1 };
        pen.ticks(ticks);
        if pen.rng.percent(90) {
            pen.give(user);
        }
    }
}

/// Some give back and want again in every tick, while others wait.
pub fn giving(pen: &mut Pen) {
    let parts = pen.rng.pick(&[2, 3, 20, 64]);
    let plan = if pen.rng.percent(50) { plans::chain(parts) } else { plans::fork(parts, 3) };
    let plan = plans::drawing(&mut pen.rng, plan, 15);
    pen.plan(&plan);
    if pen.rng.percent(60) {
        let askings = pen.rng.pick(&[64, 64, 65, 5]);
        all_slow(pen, &plan, askings);
    }
    let restless = pen.rng.pick(&[1, 1, 2, 31]);
    let first = pen.rng.below(USERS);
    let patient = (first + restless) % USERS;
    let ticks = pen.rng.pick(&[20, 60, 265]);
    for tick in 0..ticks {
        if tick % 100 == 1 {
            pen.want(patient, 0, 1);
        }
        for i in 0..restless {
            let user = (first + i) % USERS;
            if pen.rng.percent(95) {
                pen.give(user);
                let level = pen.rng.pick(&[1, 15]);
                pen.want(user, parts - 1, level);
            }
        }
        pen.tick();
    }
}

/// One gives back in every tick and wants the other side of a fork, too slow to be told in between, while another waits.
pub fn restless(pen: &mut Pen) {
    let plan = plans::fork(64, 1);
    pen.plan(&plan);
    let askings = pen.rng.pick(&[50, 64]);
    all_slow(pen, &plan, askings);
    let user = pen.rng.below(USERS);
    let patient = (user + pen.rng.from_to(1, USERS - 1)) % USERS;
    let sides = [31, 63];
    let ticks = pen.rng.pick(&[10, 40, 260]);
    for tick in 0..ticks {
        pen.give(user);
        pen.want(user, sides[tick as usize % 2], 15);
        if tick == 1 {
            pen.want(patient, 0, 1);
        }
        pen.tick();
    }
}

/// All wait, and each gives back about when it is told: what was raised slowly is undone for the next, who waits the longer.
pub fn waiting(pen: &mut Pen) {
    let parts = pen.rng.pick(&[8, 40, 64, 64]);
    let plan = plans::fork(parts, 1);
    pen.plan(&plan);
    let askings = pen.rng.pick(&[20, 64, 64]);
    all_slow(pen, &plan, askings);
    let sides = [parts / 2 - 1, parts - 1];
    let each = pen.rng.from_to(1, 4);
    for u in 0..USERS {
        pen.want(u, sides[u as usize % 2], 15);
    }
    for tick in 0..USERS * each {
        if tick > 0 && tick % each == 0 {
            pen.give(tick / each - 1);
        }
        pen.tick();
    }
}

/// Parts turn bad and good again, while they are off, rising and on.
pub fn flaky(pen: &mut Pen) {
    let plan = if pen.rng.percent(50) { plans::random(&mut pen.rng) } else { plans::chain(pen.rng.from_to(2, 12)) };
    pen.plan(&plan);
    moods(pen, &plan, 40, 20);
    if plan.is_empty() {
        return;
    }
    for _ in 0..pen.rng.from_to(5, 40) {
        let x = pen.rng.below(plan.len());
        match pen.rng.below(4) {
            0 => pen.bad(x),
            1 => pen.slow(x, 1),
            _ => {
                let askings = pen.rng.pick(&[2, 64, 65, 130]);
                pen.slow(x, askings);
            }
        }
        for _ in 0..pen.rng.below(3) {
            let user = pen.rng.below(4);
            let part = plan.len() - 1 - pen.rng.below(plan.len().min(3));
            let level = level(pen);
            pen.give(user);
            pen.want(user, part, level);
        }
        let ticks = pen.rng.pick(&[1, 1, 1, 2, 4]);
        pen.ticks(ticks);
    }
}

/// Each two of some wants can be, and no three.
pub fn pairs(pen: &mut Pen) {
    let (plan, root) = plans::pairs(&mut pen.rng);
    pen.plan(&plan);
    let slow = pen.rng.pick(&[0, 0, 30]);
    moods(pen, &plan, slow, slow / 3);
    let first = u32::from(root);
    let parts = plan.len() - first;
    for _ in 0..pen.rng.from_to(3, 20) {
        let start = pen.rng.below(parts);
        let users = pen.rng.pick(&[3, 3, 4]);
        let at_once = pen.rng.percent(30);
        for u in 0..users {
            let level = pen.rng.pick(&[1, 1, 1, 1, 2, 15]);
            pen.want(u, first + (start + u) % parts, level);
            if !at_once {
                pen.tick();
            }
        }
        let ticks = pen.rng.from_to(0, users);
        pen.ticks(ticks);
        for u in 0..users {
            if pen.rng.percent(60) {
                pen.give(u);
            }
        }
        if pen.rng.percent(5) {
            pen.ticks(34);
        }
    }
}

/// What is on must come down before anything goes up, as there is just enough for one of two: many small parts, or a large one.
pub fn seesaw(pen: &mut Pen) {
    let plan = plans::seesaw(&mut pen.rng);
    pen.plan(&plan);
    let large = plan.len() - 1;
    if pen.rng.percent(40) {
        let askings = pen.rng.pick(&[2, 64, 65, 600]);
        pen.slow(large, askings);
    }
    let high = pen.rng.pick(&[1, 15, 15]);
    for _ in 0..pen.rng.from_to(2, 10) {
        for x in 0..large {
            pen.want(x, x, high);
        }
        pen.ticks(large);
        // The first of them make room, and at times that isn't enough.
        let fewer = pen.rng.from_to(1, large);
        (0..fewer).for_each(|x| pen.give(x));
        let level = fewer + u32::from(pen.rng.percent(25));
        pen.want(31, large, level);
        let ticks = pen.rng.pick(&[1, 1, 2]);
        pen.ticks(ticks);
        pen.give(31);
        if pen.rng.percent(20) {
            let ticks = pen.rng.pick(&[1, 34]);
            pen.ticks(ticks);
        }
    }
}

/// Most pairs of wants can't be.
pub fn tight(pen: &mut Pen) {
    let plan = plans::tight(&mut pen.rng);
    let plan = plans::drawing(&mut pen.rng, plan, 40);
    pen.plan(&plan);
    moods(pen, &plan, 10, 5);
    wandering(pen, &plan);
}

/// Level 15 all through: a want takes all askings of a tick, or just more.
pub fn high(pen: &mut Pen) {
    let parts = pen.rng.pick(&[3, 20, 60, 61, 63, 64]);
    let plan = if pen.rng.percent(50) { plans::high(parts) } else { plans::chain(parts) };
    pen.plan(&plan);
    if pen.rng.percent(60) {
        let askings = pen.rng.pick(&[1, 2, 3, 4]);
        all_slow(pen, &plan, askings);
    }
    for round in 0..pen.rng.from_to(2, 5) {
        let level = pen.rng.pick(&[15, 15, 1, 14]);
        pen.want(round, parts - 1, level);
        let ticks = pen.rng.from_to(1, 4);
        pen.ticks(ticks);
        if pen.rng.percent(70) {
            pen.give(round);
            pen.want(30, 0, 1);
            let ticks = pen.rng.pick(&[1, 2, 70]);
            pen.ticks(ticks);
            pen.give(30);
        }
        if pen.rng.percent(30) {
            pen.ticks(66);
        }
    }
}

/// All users wait at once.
pub fn crowd(pen: &mut Pen) {
    let plan = match pen.rng.below(3) {
        0 => plans::random(&mut pen.rng),
        1 => plans::fork(pen.rng.pick(&[4, 20, 64]), 2),
        _ => plans::tight(&mut pen.rng),
    };
    let plan = plans::drawing(&mut pen.rng, plan, 30);
    pen.plan(&plan);
    moods(pen, &plan, 30, 10);
    for _ in 0..pen.rng.from_to(1, 4) {
        for u in 0..USERS {
            let part = pen.rng.below(plan.len().max(1));
            let level = level(pen);
            pen.want(u, part, level);
        }
        let ticks = pen.rng.pick(&[10, 34, 80]);
        pen.ticks(ticks);
        for u in 0..USERS {
            if pen.rng.percent(70) {
                pen.give(u);
            }
        }
    }
}
