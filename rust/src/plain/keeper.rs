//! The keeper: serves those who wait in turn, goes down to the ceiling and up to the goal, and comes down when it was quiet.

use super::board::{ASKINGS, Board, State};
use super::least::{Levels, can_be, least};
use super::plan::{MAX_PARTS, Plan, TOP};
use super::print::Print;

const USERS: usize = 32;
/// Quiet ticks before everything comes down to the least.
const LINGER: u32 = 32;
/// How often a rising part is asked before 6 is told.
const TRIES: u8 = 64;

/// Why a call was turned away.
#[derive(Clone, Copy)]
pub enum Refusal {
    NoSuch = 1,
    WantsAlready = 2,
    WantsNothing = 3,
}

enum Answer {
    Done,
    CannotBe,
    NotGood,
}

#[derive(Clone, Copy, Default)]
struct Want {
    part: u8,
    level: u8,
}

/// A set of users.
#[derive(Clone, Copy, Default)]
struct Users(u32);

impl Users {
    fn has(self, u: usize) -> bool {
        self.0 >> u & 1 == 1
    }

    fn add(&mut self, u: usize) {
        self.0 |= 1 << u;
    }

    fn remove(&mut self, u: usize) {
        self.0 &= !(1 << u);
    }

    fn is_empty(self) -> bool {
        self.0 == 0
    }

    /// The first from `turn` on, round and round; there is one.
    fn first_from(self, turn: usize) -> usize {
        (self.0.rotate_right(turn as u32).trailing_zeros() as usize + turn) % USERS
    }
}

/// What a want is served by.
struct Aim {
    ceiling: Levels,
    goal: Levels,
}

pub struct Keeper {
    plan: Plan,
    board: Board,
    tried: [u8; MAX_PARTS],
    wants: [Want; USERS],
    waiting: Users,
    granted: Users,
    turn: usize,
    aim: Option<Aim>,
    quiet: u32,
}

impl Keeper {
    pub fn new(plan: Plan) -> Self {
        Keeper {
            plan,
            board: Board::new(),
            tried: [0; MAX_PARTS],
            wants: [Want::default(); USERS],
            waiting: Users::default(),
            granted: Users::default(),
            turn: 0,
            aim: None,
            quiet: 0,
        }
    }

    pub fn parts(&self) -> usize {
        self.plan.parts()
    }

    pub fn slow(&mut self, x: usize, askings: u32) {
        self.board.slow(x, askings);
    }

    pub fn bad(&mut self, x: usize) {
        self.board.bad(x);
    }

    pub fn want(&mut self, user: u32, part: u32, level: u32) -> Result<(), Refusal> {
        let u = user as usize;
        if u >= USERS || part as usize >= self.plan.parts() || !(1..=u32::from(TOP)).contains(&level) {
            return Err(Refusal::NoSuch);
        }
        if self.waiting.has(u) || self.granted.has(u) {
            return Err(Refusal::WantsAlready);
        }
        self.wants[u] = Want { part: part as u8, level: level as u8 };
        self.waiting.add(u);
        self.quiet = 0;
        Ok(())
    }

    pub fn give(&mut self, user: u32) -> Result<(), Refusal> {
        let u = user as usize;
        if u >= USERS {
            return Err(Refusal::NoSuch);
        }
        if !self.waiting.has(u) && !self.granted.has(u) {
            return Err(Refusal::WantsNothing);
        }
        self.waiting.remove(u);
        self.granted.remove(u);
        if self.turn == u {
            self.move_on();
        }
        self.quiet = 0;
        Ok(())
    }

    /// The least for what is granted.
    pub fn least(&self) -> Levels {
        least(&self.plan, &self.what_is_granted())
    }

    /// What is drawn now.
    pub fn drawn(&self) -> u64 {
        self.plan.drawn(&self.board.states.map(State::level))
    }

    pub fn tick(&mut self, out: &mut Print) {
        self.board.left = ASKINGS;
        if !self.waiting.is_empty() {
            self.turn = self.waiting.first_from(self.turn);
            if let Some(answer) = self.serve(out) {
                self.tell(&answer, out);
            }
        } else if self.quiet == LINGER {
            let levels = self.least();
            self.down(&levels, out);
        }
        self.quiet = if self.waiting.is_empty() { (self.quiet + 1).min(LINGER + 1) } else { 0 };
    }

    fn what_is_granted(&self) -> Levels {
        let mut levels = [0; MAX_PARTS];
        let mut rest = self.granted.0;
        while rest != 0 {
            let want = self.wants[rest.trailing_zeros() as usize];
            let level = &mut levels[usize::from(want.part)];
            *level = (*level).max(want.level);
            rest &= rest - 1;
        }
        levels
    }

    /// Works for the user whose turn it is; what it is told, unless the askings are used up before.
    fn serve(&mut self, out: &mut Print) -> Option<Answer> {
        let aim = match self.aim.take() {
            Some(aim) => aim,
            None => match self.take_aim() {
                Some(aim) => aim,
                None => return Some(Answer::CannotBe),
            },
        };
        let answer = if self.down(&aim.ceiling, out) { self.up(&aim.goal, out) } else { None };
        self.aim = Some(aim);
        answer
    }

    fn take_aim(&self) -> Option<Aim> {
        let Want { part, level } = self.wants[self.turn];
        let x = usize::from(part);
        let mut wanted = self.what_is_granted();
        wanted[x] = wanted[x].max(level);
        let ceiling = least(&self.plan, &wanted);
        if !can_be(&self.plan, &ceiling) {
            return None;
        }
        let mut alone = [0; MAX_PARTS];
        alone[x] = level;
        Some(Aim { ceiling, goal: least(&self.plan, &alone) })
    }

    /// From the last part to the first; true when it's through. It stops when the askings are used up, wherever it is then.
    fn down(&mut self, levels: &Levels, out: &mut Print) -> bool {
        for x in (0..self.plan.parts()).rev() {
            let to = levels[x];
            loop {
                if self.board.left == 0 {
                    return false;
                }
                if self.board.states[x].level() <= to {
                    break;
                }
                if to == 0 {
                    self.board.lower(x, out);
                } else {
                    let level = self.board.states[x].level() - 1;
                    self.board.level(x, level, out);
                }
            }
        }
        true
    }

    /// From the first part to the last; what is told when it's through, or a part isn't good.
    fn up(&mut self, goal: &Levels, out: &mut Print) -> Option<Answer> {
        for (x, &to) in goal.iter().enumerate().take(self.plan.parts()).filter(|&(_, &to)| to > 0) {
            loop {
                if self.board.left == 0 {
                    return None;
                }
                match self.board.states[x] {
                    State::On(level) if level >= to => break,
                    State::Rising if self.tried[x] == TRIES => return Some(Answer::NotGood),
                    _ => self.step_up(x, out),
                }
            }
        }
        Some(Answer::Done)
    }

    fn step_up(&mut self, x: usize, out: &mut Print) {
        match self.board.states[x] {
            State::Off => {
                self.board.raise(x, out);
                self.tried[x] = 0;
            }
            State::Rising => {
                if !self.board.good(x, out) {
                    self.tried[x] += 1;
                }
            }
            State::On(level) => self.board.level(x, level + 1, out),
        }
    }

    fn tell(&mut self, answer: &Answer, out: &mut Print) {
        let u = self.turn;
        self.waiting.remove(u);
        match answer {
            Answer::Done => {
                self.granted.add(u);
                out.told(u, " done");
            }
            Answer::CannotBe => out.told(u, " no 5"),
            Answer::NotGood => {
                self.tried = [0; MAX_PARTS];
                out.told(u, " no 6");
            }
        }
        self.move_on();
        self.quiet = 0;
    }

    fn move_on(&mut self) {
        self.turn = (self.turn + 1) % USERS;
        self.aim = None;
    }
}
