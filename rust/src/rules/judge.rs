//! Goes through an input and what was printed for it, side by side.

use super::account::Account;
use super::fault::{Broken, Fault};
use super::line::{Line, ScriptLine, lines};
use super::plan::{Draft, Plan};
use super::printed::Happening;
use super::script::{Reply, Script};

/// Whether all rules were kept in this output of this input.
pub fn judge(input: &[u8], output: &[u8]) -> Result<Account, Fault> {
    let mut judge = Judge::new(output);
    let verdict = judge.all(input);
    verdict.map_err(|broken| judge.fault(broken))?;
    Ok(judge.account)
}

enum Mode {
    Plan(Draft),
    Script(Box<Script>),
    PassingOver,
}

struct Judge<'a> {
    output: Output<'a>,
    mode: Mode,
    /// The number of the line that is read.
    line: u64,
    /// Ticks since something was printed that isn't of a tick: what happened in them can't be told apart.
    ticks: Option<u64>,
    account: Account,
}

impl<'a> Judge<'a> {
    fn new(output: &'a [u8]) -> Self {
        Judge { output: Output::new(output), mode: Mode::Plan(Draft::new()), line: 0, ticks: None, account: Account::default() }
    }

    fn fault(&self, broken: Broken) -> Fault {
        Fault { broken, line: self.line, printed: self.output.at, says: self.output.last().into() }
    }

    fn all(&mut self, input: &[u8]) -> Result<(), Broken> {
        if !self.output.is_text {
            return Err(Broken::NoText);
        }
        for line in lines(input) {
            self.line += 1;
            self.read(line)?;
        }
        self.end_script()?;
        match self.output.next() {
            None => Ok(()),
            Some(_) => Err(Broken::TooMuch),
        }
    }

    fn read(&mut self, line: Option<Line>) -> Result<(), Broken> {
        match (&mut self.mode, line) {
            (_, Some(Line::New)) => {
                self.end_script()?;
                self.mode = Mode::Plan(Draft::new());
                Ok(())
            }
            (Mode::PassingOver, _) => Ok(()),
            (Mode::Plan(draft), Some(Line::Part(part))) => {
                draft.part(part);
                Ok(())
            }
            (Mode::Plan(draft), Some(Line::Gives(amount))) => {
                draft.gives(amount);
                Ok(())
            }
            (Mode::Plan(_), Some(Line::Run)) => self.run(),
            (Mode::Script(_), Some(Line::Script(line))) => self.script(&line),
            _ => self.no_line(),
        }
    }

    fn run(&mut self) -> Result<(), Broken> {
        let Mode::Plan(draft) = &self.mode else { return Ok(()) };
        if let Some(plan) = Plan::of(draft) {
            self.account.plans += 1;
            self.mode = Mode::Script(Box::new(Script::new(plan)));
            return Ok(());
        }
        self.account.no_plans += 1;
        self.mode = Mode::PassingOver;
        self.output.expect("no plan")
    }

    fn script(&mut self, line: &ScriptLine) -> Result<(), Broken> {
        if let ScriptLine::Tick(ticks) = line {
            self.ticks = Some(self.ticks.unwrap_or(0) + u64::from(*ticks));
            return Ok(());
        }
        if !matches!(line, ScriptLine::Bad(_) | ScriptLine::Slow(..)) {
            self.end_ticks()?;
        }
        let Mode::Script(script) = &mut self.mode else { return Ok(()) };
        match script.line(line, self.ticks.is_some()) {
            Reply::Nothing => Ok(()),
            Reply::Line(reply) => self.output.expect(&reply),
            Reply::NoLine => self.no_line(),
        }
    }

    fn no_line(&mut self) -> Result<(), Broken> {
        self.end_ticks()?;
        self.account.no_lines += 1;
        self.output.expect(&format!("line {}?", self.line))
    }

    /// What happened in the ticks that passed.
    fn end_ticks(&mut self) -> Result<(), Broken> {
        match (&mut self.mode, self.ticks.take()) {
            (Mode::Script(script), Some(ticks)) => {
                let happenings = std::iter::from_fn(|| self.output.next_happening());
                script.ticks(ticks, happenings, &mut self.account)
            }
            _ => Ok(()),
        }
    }

    fn end_script(&mut self) -> Result<(), Broken> {
        self.end_ticks()?;
        match std::mem::replace(&mut self.mode, Mode::PassingOver) {
            Mode::Script(script) => script.end(),
            Mode::Plan(_) | Mode::PassingOver => Ok(()),
        }
    }
}

struct Output<'a> {
    is_text: bool,
    lines: Vec<&'a str>,
    /// So many lines were read.
    at: usize,
}

impl<'a> Output<'a> {
    fn new(output: &'a [u8]) -> Self {
        let text = std::str::from_utf8(output).ok().filter(|t| t.is_empty() || t.ends_with('\n'));
        Output { is_text: text.is_some(), lines: text.unwrap_or("").split_terminator('\n').collect(), at: 0 }
    }

    fn next(&mut self) -> Option<&'a str> {
        let line = self.lines.get(self.at).copied();
        self.at += usize::from(line.is_some());
        line
    }

    /// The line that was read last.
    fn last(&self) -> &'a str {
        self.at.checked_sub(1).map_or("", |last| self.lines[last])
    }

    fn next_happening(&mut self) -> Option<Happening> {
        let happening = Happening::read(self.lines.get(self.at)?)?;
        self.at += 1;
        Some(happening)
    }

    fn expect(&mut self, line: &str) -> Result<(), Broken> {
        if self.next() == Some(line) { Ok(()) } else { Err(Broken::Expected(line.into())) }
    }
}
