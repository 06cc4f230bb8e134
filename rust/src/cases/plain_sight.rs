//! Scripts in which every tick that works for somebody stands alone, and parts change their moods only when nobody waits.
//!
//! Mostly one user waits at a time, with ticks enough until it's told; others hold things meanwhile. At times several wait, or what is
//! waited for is given back.

use super::pen::Pen;
use super::plans::{self, Plan};
use super::wander::level;

const USERS: u32 = 32;

pub fn script(pen: &mut Pen) {
    let plan = some_plan(pen);
    pen.plan(&plan);
    let mut script = Script { ticks_enough: plan.len() * 79 / 1024 + 1, busy: Vec::new(), moody: pen.rng.percent(15), plan };
    let slow = pen.rng.pick(&[0, 20, 60, 100]);
    for x in 0..script.plan.len() {
        if pen.rng.percent(slow) {
            script.mood(pen, x);
        }
    }
    let hold = pen.rng.pick(&[1, 2, 4, 8, 20]);
    for _ in 0..pen.rng.from_to(20, 120) {
        script.round(pen, hold);
    }
}

/// There is at least one part.
fn some_plan(pen: &mut Pen) -> Plan {
    let rng = &mut pen.rng;
    let parts = plans::size(rng);
    let plan = match rng.below(20) {
        0..14 => loop {
            let plan = plans::random(rng);
            if !plan.is_empty() {
                break plan;
            }
        },
        14 | 15 => plans::chain(parts),
        16 | 17 => plans::fork(parts, rng.from_to(1, 15)),
        18 => plans::high(parts),
        _ => plans::tight(rng),
    };
    plans::drawing(rng, plan, 25)
}

struct Script {
    plan: Plan,
    /// In so many ticks a want is told when nobody else waits.
    ticks_enough: u32,
    /// Who want something, or did until they were told that it can't be.
    busy: Vec<u32>,
    /// Parts may be bad, or so slow that 6 is told.
    moody: bool,
}

impl Script {
    fn round(&mut self, pen: &mut Pen, hold: u32) {
        while self.busy.len() as u32 >= hold || (!self.busy.is_empty() && pen.rng.percent(25)) {
            self.give(pen);
        }
        let crowd = if pen.rng.percent(10) { pen.rng.from_to(2, 6) } else { 1 };
        for _ in 0..crowd {
            self.want(pen);
        }
        if pen.rng.percent(6) {
            // Something is given back while somebody is served, or what is served itself.
            pen.tick();
            self.give(pen);
        }
        for _ in 0..crowd * self.ticks_enough {
            pen.tick();
        }
        if pen.rng.percent(18) {
            while !self.busy.is_empty() && pen.rng.percent(60) {
                self.give(pen);
            }
            self.idle(pen);
        }
    }

    fn want(&mut self, pen: &mut Pen) {
        let user = pen.rng.below(USERS);
        let part = pen.rng.below(self.plan.len());
        let level = level(pen);
        pen.want(user, part, level);
        if !self.busy.contains(&user) {
            self.busy.push(user);
        }
    }

    fn give(&mut self, pen: &mut Pen) {
        let at = pen.rng.below(self.busy.len() as u32);
        pen.give(self.busy.swap_remove(at as usize));
    }

    /// Nobody waits; at times for so long that everything comes down to the least.
    fn idle(&mut self, pen: &mut Pen) {
        let ticks = pen.rng.pick(&[5, 20, 31, 32, 33, 34, 40, 40, 40, 66, 200, 1000]);
        pen.line(&format!("tick {ticks}"));
        pen.mark();
        if pen.rng.percent(30) {
            let x = pen.rng.below(self.plan.len());
            self.mood(pen, x);
        }
    }

    fn mood(&self, pen: &mut Pen, x: u32) {
        match pen.rng.below(10) {
            0 if self.moody => pen.bad(x),
            1 if self.moody => {
                let askings = pen.rng.pick(&[65, 66, 100, 128, 129, 200]);
                pen.slow(x, askings);
            }
            2..6 => {
                let askings = pen.rng.from_to(1, 64);
                pen.slow(x, askings);
            }
            _ => {
                let askings = pen.rng.pick(&[1, 1, 2, 3, 10, 40, 62, 63, 63]);
                pen.slow(x, askings);
            }
        }
    }
}
