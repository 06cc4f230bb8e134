//! A script that is played: the board, its users, and the ticks that pass.

use super::account::Account;
use super::askings::Askings;
use super::board::{Board, State};
use super::fault::Broken;
use super::line::ScriptLine;
use super::pace::Paces;
use super::plan::{Level, PartId, Plan};
use super::printed::{Answer, Happening, Step};
use super::users::{UserId, Users};

/// So many ticks after a want was called, given back or told everything is at the least.
const QUIET: u64 = 64;

pub struct Script {
    plan: Plan,
    board: Board,
    users: Users,
    paces: Paces,
    askings: Askings,
    /// Ticks with no want called, given back or told, and none waiting, at the least.
    quiet: u64,
}

/// What is printed for a line.
pub enum Reply {
    Nothing,
    Line(String),
    NoLine,
}

/// What was seen in ticks that can't be told apart.
#[derive(Default)]
struct Seen {
    steps: u64,
    /// When somebody was told last: for how many ticks that want could still have waited.
    last_told: Option<u64>,
}

impl Script {
    pub fn new(plan: Plan) -> Self {
        Script { plan, board: Board::new(), users: Users::default(), paces: Paces::new(), askings: Askings::default(), quiet: 0 }
    }

    /// A line that isn't `tick`. `within`: it comes after ticks whose output can't be told from that of those after it.
    pub fn line(&mut self, line: &ScriptLine, within: bool) -> Reply {
        match *line {
            ScriptLine::Want { user, part, level } => {
                let why = self.users.want(&self.plan, user, part, level);
                self.called(why)
            }
            ScriptLine::Give { user } => {
                let why = self.users.give(user);
                self.called(why)
            }
            ScriptLine::Bad(x) if self.is_part(x) => {
                self.paces.bad(PartId(x as usize), within);
                Reply::Nothing
            }
            ScriptLine::Slow(x, askings) if self.is_part(x) && askings > 0 => {
                self.paces.slow(PartId(x as usize), askings, within);
                Reply::Nothing
            }
            ScriptLine::Least => {
                let levels: Vec<String> = self.least().iter().map(Level::to_string).collect();
                Reply::Line(levels.join(" "))
            }
            ScriptLine::Drawn => Reply::Line(self.plan.drawn(&self.board.levels(&self.plan)).to_string()),
            ScriptLine::Tick(_) => Reply::Nothing,
            ScriptLine::Bad(_) | ScriptLine::Slow(..) => Reply::NoLine,
        }
    }

    /// Ticks pass, and this happens in them.
    pub fn ticks(&mut self, ticks: u64, happenings: impl Iterator<Item = Happening>, account: &mut Account) -> Result<(), Broken> {
        let mut seen = Seen::default();
        for happening in happenings {
            if ticks == 0 {
                return Err(Broken::NoTick);
            }
            match happening {
                Happening::Step(step) => self.step(step, &mut seen)?,
                Happening::Told(user, answer) => self.told(user, answer, &mut seen, account)?,
            }
            account.count(happening);
        }
        self.askings.span(ticks, seen.steps);
        self.paces.span_ends();
        account.ticks += ticks;
        account.oldest = account.oldest.max(self.users.tick(ticks)?);
        self.pass_quiet(ticks, seen.last_told)
    }

    /// The script is over.
    pub fn end(self) -> Result<(), Broken> {
        if self.askings.have_room() { Ok(()) } else { Err(Broken::TooManyAskings) }
    }

    fn is_part(&self, x: u32) -> bool {
        (x as usize) < self.plan.len()
    }

    fn least(&self) -> Vec<Level> {
        self.plan.least(self.users.granted())
    }

    fn called(&mut self, why: u32) -> Reply {
        if why == 0 {
            self.quiet = 0;
            return Reply::Line("taken".into());
        }
        Reply::Line(format!("away {why}"))
    }

    fn step(&mut self, step: Step, seen: &mut Seen) -> Result<(), Broken> {
        if self.quiet >= QUIET {
            return Err(Broken::NotQuiet);
        }
        self.board.step(&self.plan, self.users.granted(), step)?;
        let span = self.askings.next_span();
        match step {
            Step::Raise(x) => self.paces.raised(x, span),
            Step::Good(x) => self.paces.good(x, span, &mut self.askings)?,
            Step::Level(..) | Step::Lower(_) => {}
        }
        seen.steps += 1;
        Ok(())
    }

    fn told(&mut self, user: UserId, answer: Answer, seen: &mut Seen, account: &mut Account) -> Result<(), Broken> {
        let asked = self.users.asked(user)?;
        let least = self.plan.least(self.users.granted().chain([(asked.part, asked.level)]));
        let can_be = self.plan.can_be(&least);
        match answer {
            Answer::Done if !self.board.is_on_at(asked.part, asked.level) => return Err(Broken::NotDone),
            Answer::CannotBe if can_be => return Err(Broken::CanBe),
            Answer::NotGood if !can_be => return Err(Broken::CannotBe),
            Answer::NotGood => {
                let alone = self.plan.least([(asked.part, asked.level)]);
                let rising = self.plan.ids().filter(|x| alone[x.0] > 0 && self.board.state(*x) == State::Rising);
                self.paces.six(rising, self.askings.next_span(), &mut self.askings)?;
            }
            Answer::CannotBe => account.too_much += u64::from(self.plan.fits(&least)),
            Answer::Done => {}
        }
        self.users.told(user, answer == Answer::Done);
        seen.last_told = Some(asked.left);
        Ok(())
    }

    fn pass_quiet(&mut self, ticks: u64, last_told: Option<u64>) -> Result<(), Broken> {
        if self.users.anybody_waits() {
            self.quiet = 0;
            return Ok(());
        }
        self.quiet = match last_told {
            // In which of the ticks isn't known: the last in which it could have been.
            Some(left) => ticks - ticks.min(left) + 1,
            None => self.quiet + ticks,
        };
        if self.quiet > QUIET {
            self.quiet = QUIET;
            let least = self.least();
            if !self.board.is_at(&least) {
                return Err(Broken::NotLean(self.board.levels(&self.plan)));
            }
        }
        Ok(())
    }
}
