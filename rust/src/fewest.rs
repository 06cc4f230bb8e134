//! How many askings each want took, beside the fewest.
//!
//! When the turn comes to a want let S be the levels of all parts (off 0, rising 1), G what is granted, the **ceiling** T the least for G and
//! the want, and the **goal** L the least for the want alone. To come from S to a board where no part is above T and none is below L, with
//! nothing switched off that T keeps on, each part takes at the fewest
//!
//! - down, where S > T: one `lower` if T is 0, else S - T levels;
//! - up, where L > 0: if it's off one `raise`, N askings of `good` and L - 1 levels; if it rises the askings that are still missing and L - 1
//!   levels; if it's on below L the levels between.
//!
//! Every asking is of one part, so the sum is the fewest for all. A want that ends with 6 takes what stands before it on the way from the first
//! part to the last, and the askings up to the 64th in vain. One that can't be takes none. That is what a want has to take here, and the
//! tick it has to be told in, with 1,024 askings in each tick before. When nobody waits the board is left alone or comes down to the
//! least for G, by the fewest askings.
//!
//! Askings of `good` in vain aren't printed. There are N - 1 of them before a part is good; where a tick ends between them it's taken to have had
//! 1,024 askings. Unlike [`crate::rules`] this knows how the keeper works: who is served when, and what is aimed at.

use crate::play;
use crate::rules::board::{Board, State};
use crate::rules::line::{Line, ScriptLine, lines};
use crate::rules::plan::{Draft, Level, MAX_PARTS, Plan};
use crate::rules::printed::{Answer, Happening, Step};
use crate::rules::users::{UserId, Users};
use crate::rules::{Broken, Fault, judge};
use std::fmt;

const USERS: usize = 32;
const TRIES: u64 = 64;
const IN_A_TICK: u64 = 1024;

#[derive(Default, Clone, Debug)]
pub struct Counts {
    pub ticks: u64,
    /// Askings for wants, and for coming down when nobody waits.
    pub askings: u64,
    pub done: u64,
    pub sixes: u64,
    /// Told 5, and nothing was asked.
    pub fives: u64,
    /// Given back before they were told.
    pub given_back: u64,
    /// Turns that came while others waited too.
    pub in_a_crowd: u64,
    /// How often the board came down with nobody waiting.
    pub rests: u64,
    /// Of the askings for wants that were told, those that brought a part down to the ceiling.
    pub down: u64,
    /// Wants told done whose part was on at that level before, and what was asked for them all the same.
    pub had: u64,
    pub had_askings: u64,
}

impl std::ops::AddAssign for Counts {
    fn add_assign(&mut self, other: Counts) {
        self.ticks += other.ticks;
        self.askings += other.askings;
        self.done += other.done;
        self.sixes += other.sixes;
        self.fives += other.fives;
        self.given_back += other.given_back;
        self.in_a_crowd += other.in_a_crowd;
        self.rests += other.rests;
        self.down += other.down;
        self.had += other.had;
        self.had_askings += other.had_askings;
    }
}

#[derive(Debug)]
pub enum Failure {
    /// One of the rules was broken.
    Broken(Fault),
    Differs(Difference),
    /// What happened can't be known from what is printed.
    Unclear,
}

/// A want, or a rest, that took something else than the fewest.
#[derive(Debug)]
pub struct Difference {
    /// The input's line, from 1 on.
    pub line: u64,
    pub user: Option<UserId>,
    pub took: Took,
    pub fewest: Took,
}

#[derive(Clone, Copy, PartialEq, Eq, Debug)]
pub struct Took {
    pub askings: u64,
    pub ticks: u64,
    pub answer: Option<Answer>,
}

impl fmt::Display for Failure {
    fn fmt(&self, f: &mut fmt::Formatter) -> fmt::Result {
        match self {
            Failure::Broken(fault) => fault.fmt(f),
            Failure::Differs(Difference { line, user, took, fewest }) => {
                match user {
                    Some(user) => write!(f, "line {line}, user {}", user.0)?,
                    None => write!(f, "line {line}, nobody waits")?,
                }
                write!(f, ": {took:?}, where the fewest is {fewest:?}")
            }
            Failure::Unclear => write!(f, "what happened can't be known from what is printed"),
        }
    }
}

impl From<Broken> for Failure {
    fn from(_: Broken) -> Self {
        Failure::Unclear
    }
}

/// Plays the input, judges it, and counts.
pub fn of_input(input: &[u8]) -> Result<Counts, Failure> {
    let output = play(input);
    judge(input, &output).map_err(Failure::Broken)?;
    count(input, &output)
}

/// The input is of one plan, each tick for those who wait stands alone, and `bad` and `slow` come when nobody is served. The output keeps
/// the rules.
fn count(input: &[u8], output: &[u8]) -> Result<Counts, Failure> {
    let mut output = std::str::from_utf8(output).map_err(|_| Failure::Unclear)?.split_terminator('\n').peekable();
    let mut draft = Draft::new();
    let mut watch: Option<Watch> = None;
    // A tick was printed, and nothing after it.
    let mut open = false;
    for (number, line) in (1..).zip(lines(input)) {
        match (&mut watch, line) {
            (None, Some(Line::Part(part))) => draft.part(part),
            (None, Some(Line::Gives(amount))) => draft.gives(amount),
            (None, Some(Line::Run)) => watch = Some(Watch::new(Plan::of(&draft).ok_or(Failure::Unclear)?)),
            (None, _) | (_, Some(Line::New)) => return Err(Failure::Unclear),
            (Some(_), Some(Line::Script(ScriptLine::Tick(_)))) if open => return Err(Failure::Unclear),
            (Some(watch), Some(Line::Script(ScriptLine::Tick(ticks)))) => {
                open = true;
                let mut happenings = Vec::new();
                while let Some(happening) = output.peek().and_then(|line| Happening::read(line)) {
                    output.next();
                    happenings.push(happening);
                }
                watch.line = number;
                watch.ticks(u64::from(ticks), &happenings)?;
            }
            (Some(watch), Some(Line::Script(line @ (ScriptLine::Bad(_) | ScriptLine::Slow(..))))) => watch.mood(&line)?,
            (Some(watch), line) => {
                open = false;
                let taken = output.next() == Some("taken");
                if let Some(Line::Script(line)) = line
                    && taken
                {
                    watch.call(&line);
                }
            }
        }
    }
    Ok(watch.map(|watch| watch.counts).unwrap_or_default())
}

/// When a rising part is good: when it's asked the Nth time, or never.
type Pace = Option<u64>;

#[derive(Clone, Copy)]
struct Rise {
    /// In effect since it was raised, and from its next raising on.
    pace: Pace,
    next: Pace,
    /// So often it was found not good since it was raised; and since a 6 was told, too.
    asked: u64,
    tried: u64,
}

impl Rise {
    fn raised(self) -> Rise {
        Rise { pace: self.next, asked: 0, tried: 0, ..self }
    }

    /// Askings until it's good, or up to the last in vain if 6 comes before.
    fn missing(self) -> Result<u64, u64> {
        let tries = TRIES - self.tried;
        match self.pace {
            Some(n) if n - self.asked <= tries => Ok(n - self.asked),
            _ => Err(tries),
        }
    }

    fn found_not_good(&mut self, times: u64) {
        self.asked += times;
        self.tried += times;
    }
}

/// A want that is served.
struct Served {
    user: UserId,
    goal: Vec<Level>,
    fewest: Took,
    took: Took,
    down: u64,
    /// The part was on at that level already.
    had: bool,
}

struct Watch {
    plan: Plan,
    board: Board,
    users: Users,
    rises: [Rise; MAX_PARTS],
    turn: usize,
    served: Option<Served>,
    line: u64,
    counts: Counts,
}

/// Askings from these levels down to those.
fn way_down(from: &[Level], to: &[Level]) -> u64 {
    let one = |(&from, &to): (&Level, &Level)| if to == 0 { u64::from(from > 0) } else { u64::from(from.saturating_sub(to)) };
    from.iter().zip(to).map(one).sum()
}

impl Watch {
    fn new(plan: Plan) -> Self {
        let rise = Rise { pace: Some(1), next: Some(1), asked: 0, tried: 0 };
        Watch {
            plan,
            board: Board::new(),
            users: Users::default(),
            rises: [rise; MAX_PARTS],
            turn: 0,
            served: None,
            line: 0,
            counts: Counts::default(),
        }
    }

    /// A call that was taken.
    fn call(&mut self, line: &ScriptLine) {
        match *line {
            ScriptLine::Want { user, part, level } => {
                self.users.want(&self.plan, user, part, level);
            }
            ScriptLine::Give { user } => {
                let user = user as usize;
                self.counts.given_back += u64::from(self.waits(user));
                self.users.give(user as u32);
                if self.turn == user {
                    self.move_on();
                }
            }
            _ => {}
        }
    }

    fn mood(&mut self, line: &ScriptLine) -> Result<(), Failure> {
        if self.served.is_some() {
            return Err(Failure::Unclear);
        }
        match *line {
            ScriptLine::Bad(x) if (x as usize) < self.plan.len() => {
                let rise = &mut self.rises[x as usize];
                (rise.pace, rise.next) = (None, None);
            }
            ScriptLine::Slow(x, askings) if (x as usize) < self.plan.len() && askings > 0 => {
                self.rises[x as usize].next = Some(u64::from(askings));
            }
            _ => return Err(Failure::Unclear),
        }
        Ok(())
    }

    fn ticks(&mut self, ticks: u64, happenings: &[Happening]) -> Result<(), Failure> {
        self.counts.ticks += ticks;
        match (0..USERS).map(|i| (self.turn + i) % USERS).find(|&u| self.waits(u)) {
            None => self.rest(happenings),
            Some(head) if ticks == 1 => self.serve(UserId(head), happenings),
            Some(_) => Err(Failure::Unclear),
        }
    }

    fn waits(&self, user: usize) -> bool {
        self.users.asked(UserId(user)).is_ok()
    }

    fn move_on(&mut self) {
        self.turn = (self.turn + 1) % USERS;
        self.served = None;
    }

    /// Nobody waits: nothing is asked, or all comes down to the least.
    fn rest(&mut self, happenings: &[Happening]) -> Result<(), Failure> {
        if happenings.is_empty() {
            return Ok(());
        }
        let fewest = way_down(&self.board.levels(&self.plan), &self.plan.least(self.users.granted()));
        let mut askings = 0;
        for happening in happenings {
            let Happening::Step(step) = happening else { return Err(Failure::Unclear) };
            askings += self.step(*step)?;
        }
        self.counts.rests += 1;
        self.counts.askings += askings;
        let of = |askings| Took { askings, ticks: 1, answer: None };
        self.same(None, of(askings), of(fewest))
    }

    fn serve(&mut self, head: UserId, happenings: &[Happening]) -> Result<(), Failure> {
        self.turn = head.0;
        let mut served = match self.served.take() {
            Some(served) => served,
            None => self.take_aim(head)?,
        };
        let mut askings = 0;
        for happening in happenings {
            match *happening {
                Happening::Step(step) if served.took.answer.is_none() => askings += self.step(step)?,
                Happening::Told(user, answer) if user == head && served.took.answer.is_none() => served.took.answer = Some(answer),
                _ => return Err(Failure::Unclear),
            }
        }
        // The part that is asked in vain when the tick ends, if there is one.
        let rising = self.plan.ids().find(|x| served.goal[x.0] > 0 && self.board.state(*x) == State::Rising);
        let in_vain = match (served.took.answer, rising) {
            (None, Some(_)) => IN_A_TICK.saturating_sub(askings),
            (Some(Answer::NotGood), Some(x)) => TRIES - self.rises[x.0].tried,
            _ => 0,
        };
        if let Some(x) = rising {
            self.rises[x.0].found_not_good(in_vain);
            if self.rises[x.0].tried > TRIES {
                return Err(Failure::Unclear);
            }
        }
        askings += in_vain;
        served.took.askings += askings;
        served.took.ticks += 1;
        self.counts.askings += askings;
        match served.took.answer {
            None => self.served = Some(served),
            Some(answer) => self.told(&served, answer)?,
        }
        Ok(())
    }

    /// The turn comes to a want.
    fn take_aim(&mut self, user: UserId) -> Result<Served, Failure> {
        let asked = self.users.asked(user)?;
        let want = (asked.part, asked.level);
        let ceiling = self.plan.least(self.users.granted().chain([want]));
        let goal = self.plan.least([want]);
        let down = if self.plan.can_be(&ceiling) { way_down(&self.board.levels(&self.plan), &ceiling) } else { 0 };
        let (askings, answer) = match self.plan.can_be(&ceiling) {
            false => (0, Answer::CannotBe),
            true => match self.way_up(&ceiling, &goal) {
                Ok(up) => (down + up, Answer::Done),
                Err(up) => (down + up, Answer::NotGood),
            },
        };
        // After the last asking of a tick nothing is told in it.
        let fewest = Took { askings, ticks: askings / IN_A_TICK + 1, answer: Some(answer) };
        let took = Took { askings: 0, ticks: 0, answer: None };
        self.counts.in_a_crowd += u64::from((0..USERS).filter(|&u| self.waits(u)).count() > 1);
        Ok(Served { user, goal, fewest, took, down, had: self.board.is_on_at(want.0, want.1) })
    }

    /// Askings up to the goal once nothing is above the ceiling; or as far as it goes, if 6 is told.
    fn way_up(&self, ceiling: &[Level], goal: &[Level]) -> Result<u64, u64> {
        let mut askings = 0;
        for x in self.plan.ids().filter(|x| goal[x.0] > 0) {
            let to = goal[x.0];
            let rise = self.rises[x.0];
            let (raise, missing, level) = match self.board.state(x) {
                State::Off => (1, rise.raised().missing(), 1),
                State::Rising => (0, rise.missing(), 1),
                State::On(level) => (0, Ok(0), level.min(ceiling[x.0])),
            };
            askings += raise;
            match missing {
                Ok(missing) => askings += missing + u64::from(to.saturating_sub(level)),
                Err(in_vain) => return Err(askings + in_vain),
            }
        }
        Ok(askings)
    }

    /// Askings that this step took, with those in vain before it.
    fn step(&mut self, step: Step) -> Result<u64, Failure> {
        self.board.step(&self.plan, self.users.granted(), step)?;
        match step {
            Step::Raise(x) => {
                self.rises[x.0] = self.rises[x.0].raised();
                Ok(1)
            }
            Step::Good(x) => {
                let rise = self.rises[x.0];
                rise.pace.and_then(|n| n.checked_sub(rise.asked)).ok_or(Failure::Unclear)
            }
            Step::Level(..) | Step::Lower(_) => Ok(1),
        }
    }

    fn told(&mut self, served: &Served, answer: Answer) -> Result<(), Failure> {
        match answer {
            Answer::Done => self.counts.done += 1,
            Answer::CannotBe => self.counts.fives += 1,
            Answer::NotGood => {
                self.counts.sixes += 1;
                self.rises.iter_mut().for_each(|rise| rise.tried = 0);
            }
        }
        self.counts.down += served.down;
        if served.had && answer == Answer::Done {
            self.counts.had += 1;
            self.counts.had_askings += served.took.askings;
        }
        self.users.told(served.user, answer == Answer::Done);
        self.move_on();
        self.same(Some(served.user), served.took, served.fewest)
    }

    fn same(&self, user: Option<UserId>, took: Took, fewest: Took) -> Result<(), Failure> {
        if took == fewest { Ok(()) } else { Err(Failure::Differs(Difference { line: self.line, user, took, fewest })) }
    }
}

#[cfg(test)]
mod tests {
    use super::{Counts, Failure, count};

    /// Lines with `_` for gaps, and spaces between lines. 1 needs 0 at its own level, 3 needs 0 at most at 1; 2 needs
    /// nothing, and there isn't enough for it above level 1.
    fn of(script: &str, printed: &str) -> Result<Counts, Failure> {
        let lines = |text: &str| text.split(' ').filter(|l| !l.is_empty()).map(|l| l.replace('_', " ") + "\n").collect::<String>();
        let plan = "part 0\npart 1 needs 0 from 1 2 3 most 15\npart 2 draws 4 5\npart 3 needs 0 from 1 most 1\ngives 4\nrun\n";
        count((plan.to_string() + &lines(script)).as_bytes(), lines(printed).as_bytes())
    }

    fn askings(script: &str, printed: &str) -> u64 {
        of(script, printed).expect("the fewest").askings
    }

    /// Takes so many askings where so many are enough.
    fn differs(took: u64, fewest: u64, script: &str, printed: &str) {
        match of(script, printed) {
            Err(Failure::Differs(found)) => assert_eq!((found.took.askings, found.fewest.askings), (took, fewest)),
            other => panic!("{other:?}"),
        }
    }

    const UP: &str = "taken raise_0 good_0 level_0_2 raise_1 good_1 level_1_2 0_done";

    #[test]
    fn up() {
        assert_eq!(askings("0_want_1_2 tick_1", UP), 6);
        assert_eq!(askings("slow_0_63 0_want_1_2 tick_1", UP), 68);
        differs(8, 6, "0_want_1_2 tick_1", &UP.replace("0_done", "raise_2 good_2 0_done"));
        differs(8, 6, "0_want_1_2 tick_1", &UP.replace("raise_1", "level_0_3 level_0_2 raise_1"));
    }

    #[test]
    fn down_to_the_ceiling() {
        let script = "0_want_1_2 tick_1 0_give 1_want_1_1 tick_1";
        assert_eq!(askings(script, &format!("{UP} taken taken level_1_1 level_0_1 1_done")), 8);
        differs(6, 2, script, &format!("{UP} taken taken lower_1 lower_0 raise_0 good_0 raise_1 good_1 1_done"));
        differs(0, 2, script, &format!("{UP} taken taken 1_done"));
    }

    #[test]
    fn at_rest() {
        let script = "0_want_1_2 tick_1 0_give tick_40";
        assert_eq!(askings(script, &format!("{UP} taken lower_1 lower_0")), 8);
        assert_eq!(askings(script, &format!("{UP} taken")), 6);
        differs(3, 2, script, &format!("{UP} taken level_1_1 lower_1 lower_0"));
        differs(1, 2, script, &format!("{UP} taken lower_1"));
    }

    #[test]
    fn not_good() {
        let bad = "bad_1 0_want_1_2 tick_1";
        assert_eq!(askings(bad, "taken raise_0 good_0 level_0_2 raise_1 0_no_6"), 68);
        assert_eq!(askings(&format!("{bad} 0_want_1_2 tick_1"), "taken raise_0 good_0 level_0_2 raise_1 0_no_6 taken 0_no_6"), 132);
        differs(67, 68, bad, "taken raise_0 good_0 raise_1 0_no_6");
    }

    #[test]
    fn cannot_be() {
        let script = "0_want_1_2 tick_1 1_want_3_1 tick_1";
        assert_eq!(askings(script, &format!("{UP} taken 1_no_5")), 6);
        differs(2, 0, script, &format!("{UP} taken raise_2 good_2 1_no_5"));
        assert_eq!(askings("0_want_2_2 tick_1", "taken 0_no_5"), 0);
        differs(2, 0, "0_want_2_2 tick_1", "taken raise_2 good_2 0_no_5");
    }

    #[test]
    fn in_turn() {
        let script = "1_want_2_1 0_want_0_1 tick_1 32_give tick_1";
        assert_eq!(askings(script, "taken taken raise_0 good_0 0_done away_1 raise_2 good_2 1_done"), 4);
        assert!(matches!(of(script, "taken taken raise_2 good_2 1_done away_1 raise_0 good_0 0_done"), Err(Failure::Unclear)));
    }

    #[test]
    fn told_in_the_first_tick_with_room() {
        let late = of("slow_0_3 0_want_0_1 tick_1 32_give tick_1", "taken raise_0 good_0 away_1 0_done");
        assert!(matches!(late, Err(Failure::Differs(found)) if (found.took.ticks, found.fewest.ticks) == (2, 1)));
    }
}
