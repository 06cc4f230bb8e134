//! What happened, call by call and tick by tick.
//!
//! Which tick a line was printed in can't be told from the output alone. So the script is played with `tick 1` and `least` in turn, N times for
//! `tick N`: `least` changes nothing, and what it prints ends the tick.

use super::NoPicture;
use crate::play;
use crate::rules::line::{Line, ScriptLine, lines};
use crate::rules::plan::{Draft, Level, PartId, Plan};
use crate::rules::printed::{Answer, Happening, Step};

/// With no call between them nothing happens any more after so many ticks: all wants are told in 256, and then 64 quiet ones pass.
const BUSY: u32 = 320;

#[derive(Clone, Copy, Debug)]
pub enum Call {
    Want(u32, u32, Level),
    Give(u32),
    Bad(PartId),
    Slow(PartId, u32),
}

#[derive(Clone, Debug)]
pub enum Event {
    /// What was called, and what it was turned away by.
    Call(Call, Option<String>),
    Step(Step),
    Told(usize, Answer),
}

/// Calls between ticks, or ticks.
pub enum Moment {
    Called(Event),
    Tick(Vec<Event>),
    /// So many ticks in which nothing happened.
    Idle(u64),
}

pub struct Story {
    pub plan: Plan,
    /// What the board gives, if that was said.
    pub gives: Option<u32>,
    pub moments: Vec<Moment>,
}

enum Played {
    Call(Call),
    Ticks(u32),
}

impl Story {
    /// Of the first plan and its script; what is no line in it is passed over.
    pub fn of(input: &[u8]) -> Result<Story, NoPicture> {
        let mut draft = Draft::new();
        let mut gives = None;
        let mut plan = None;
        let mut text = Vec::new();
        let mut script = Vec::new();
        for (raw, line) in input.split(|&b| b == b'\n').zip(lines(input)) {
            match (&plan, line) {
                (_, Some(Line::New)) => break,
                (None, Some(Line::Part(part))) => draft.part(part),
                (None, Some(Line::Gives(amount))) => {
                    draft.gives(amount);
                    gives = Some(amount);
                }
                (None, Some(Line::Run)) => plan = Some(Plan::of(&draft).ok_or(NoPicture::NoPlan)?),
                (Some(plan), Some(Line::Script(line))) => {
                    script.extend(split(plan, &line));
                    continue;
                }
                _ => continue,
            }
            text.extend_from_slice(raw);
            text.push(b'\n');
        }
        let plan = plan.ok_or(NoPicture::NoRun)?;
        script.iter().for_each(|played| text.extend_from_slice(played.line().as_bytes()));
        Ok(Story { plan, gives, moments: moments(&script, &play(&text)) })
    }
}

impl Played {
    fn line(&self) -> String {
        match self {
            Played::Call(Call::Want(user, part, level)) => format!("{user} want {part} {level}\n"),
            Played::Call(Call::Give(user)) => format!("{user} give\n"),
            Played::Call(Call::Bad(part)) => format!("bad {}\n", part.0),
            Played::Call(Call::Slow(part, askings)) => format!("slow {} {askings}\n", part.0),
            Played::Ticks(ticks) => format!("tick {ticks}\nleast\n"),
        }
    }
}

/// What is played for this line.
fn split(plan: &Plan, line: &ScriptLine) -> Vec<Played> {
    let known = |part: u32| plan.ids().nth(part as usize);
    let call = match *line {
        ScriptLine::Want { user, part, level } => Some(Call::Want(user, part, level)),
        ScriptLine::Give { user } => Some(Call::Give(user)),
        ScriptLine::Bad(part) => known(part).map(Call::Bad),
        ScriptLine::Slow(part, askings) => known(part).filter(|_| askings > 0).map(|part| Call::Slow(part, askings)),
        ScriptLine::Tick(ticks) => {
            let one_by_one = (0..ticks.min(BUSY)).map(|_| Played::Ticks(1));
            let rest = ticks.checked_sub(BUSY).filter(|&rest| rest > 0).map(Played::Ticks);
            return one_by_one.chain(rest).collect();
        }
        ScriptLine::Least | ScriptLine::Drawn => None,
    };
    call.map(Played::Call).into_iter().collect()
}

fn moments(script: &[Played], output: &[u8]) -> Vec<Moment> {
    let output = String::from_utf8_lossy(output);
    let mut output = output.split_terminator('\n');
    let mut moments = Vec::new();
    for played in script {
        match *played {
            Played::Call(call @ (Call::Want(..) | Call::Give(_))) => {
                let away = output.next().and_then(|line| line.strip_prefix("away ")).map(String::from);
                moments.push(Moment::Called(Event::Call(call, away)));
            }
            Played::Call(call) => moments.push(Moment::Called(Event::Call(call, None))),
            Played::Ticks(ticks) => {
                // Ends with the line that `least` prints.
                let events: Vec<Event> = output.by_ref().map_while(Happening::read).map(Event::from).collect();
                match moments.last_mut() {
                    Some(Moment::Idle(idle)) if events.is_empty() => *idle += u64::from(ticks),
                    _ if events.is_empty() => moments.push(Moment::Idle(ticks.into())),
                    _ => moments.push(Moment::Tick(events)),
                }
            }
        }
    }
    moments
}

impl From<Happening> for Event {
    fn from(happening: Happening) -> Self {
        match happening {
            Happening::Step(step) => Event::Step(step),
            Happening::Told(user, answer) => Event::Told(user.0, answer),
        }
    }
}
