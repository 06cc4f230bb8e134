//! Plans and scripts, line by line.

use super::keeper::{Keeper, Refusal};
use super::lines::{Line, RawLine, parse};
use super::plan::Draft;
use super::print::Print;

enum Mode {
    Plan(Draft),
    Script(Box<Keeper>),
    /// After a plan that was refused.
    PassingOver,
}

pub struct Session {
    mode: Mode,
    lines: u64,
    out: Print,
}

impl Session {
    pub fn new(room: usize) -> Self {
        Session { mode: Mode::Plan(Draft::new()), lines: 0, out: Print::with_room(room) }
    }

    pub fn printed(self) -> Vec<u8> {
        self.out.into_bytes()
    }

    pub fn read(&mut self, line: RawLine) {
        self.lines += 1;
        let line = line.and_then(parse);
        let was_line = match (&mut self.mode, line) {
            (_, Some(Line::New)) => {
                self.mode = Mode::Plan(Draft::new());
                true
            }
            (Mode::PassingOver, _) => true,
            (Mode::Plan(draft), Some(Line::Part(part))) => {
                draft.add(&part);
                true
            }
            (Mode::Plan(draft), Some(Line::Gives(amount))) => {
                draft.gives(amount);
                true
            }
            (Mode::Plan(_), Some(Line::Run)) => {
                self.run();
                true
            }
            (Mode::Script(keeper), Some(line)) => script(keeper, &line, &mut self.out),
            _ => false,
        };
        if !was_line {
            self.out.no_line(self.lines);
        }
    }

    fn run(&mut self) {
        let Mode::Plan(draft) = std::mem::replace(&mut self.mode, Mode::PassingOver) else { return };
        match draft.finish() {
            Some(plan) => self.mode = Mode::Script(Box::new(Keeper::new(plan))),
            None => self.out.line("no plan"),
        }
    }
}

/// A line of a script; false where it is none.
fn script(keeper: &mut Keeper, line: &Line, out: &mut Print) -> bool {
    match *line {
        Line::Want { user, part, level } => answer(keeper.want(user, part, level), out),
        Line::Give { user } => answer(keeper.give(user), out),
        Line::Tick(ticks) => {
            for _ in 0..ticks {
                keeper.tick(out);
            }
        }
        Line::Bad(x) if (x as usize) < keeper.parts() => keeper.bad(x as usize),
        Line::Slow(x, askings) if (x as usize) < keeper.parts() && askings > 0 => keeper.slow(x as usize, askings),
        Line::Least => out.levels(&keeper.least()[..keeper.parts()]),
        Line::Drawn => out.number(keeper.drawn()),
        _ => return false,
    }
    true
}

fn answer(taken: Result<(), Refusal>, out: &mut Print) {
    match taken {
        Ok(()) => out.line("taken"),
        Err(why) => out.away(why as u8),
    }
}
