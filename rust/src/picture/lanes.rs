//! The timeline: users above, and a lane for each part below them. Calls stand between the ticks; a tick is as wide as what happens in it.

use super::story::{Call, Event, Moment, Story};
use super::svg::{At, Svg};
use crate::rules::board::State;
use crate::rules::plan::PartId;
use crate::rules::printed::{Answer, Step};

const NAMES: u32 = 60;
const LEVEL: u32 = 3;
const TOP: u32 = 15;
const LANE: u32 = LEVEL * TOP + 9;
const ROW: u32 = 24;
const HEAD: u32 = 24;
const QUIET_TICK: u32 = 9;
/// More quiet ticks than these are drawn as a gap.
const QUIET: u64 = 8;
const GAP: u32 = 64;
const EDGE: u32 = 4;

/// The rows of users.
const WANT: u32 = 0;
const GIVE: u32 = 1;
const TOLD: u32 = 2;
const ROWS: u32 = 3;

struct Lanes<'a> {
    svg: &'a mut Svg,
    top: u32,
    /// So far it is drawn.
    x: u32,
    ticks: u64,
    bottom: u32,
    /// Where the last number on the axis ends.
    numbered: u32,
    /// Each part's state, and since where.
    parts: Vec<(State, u32)>,
}

/// Returns the corner at the lower right.
pub fn draw(svg: &mut Svg, story: &Story, (left, top): At) -> At {
    let count = story.plan.len() as u32;
    let rows = top + HEAD;
    let first = rows + ROWS * ROW;
    let bottom = first + count * LANE;
    let start = left + NAMES;
    legend(svg, (left, top));
    let parts = vec![(State::Off, start); story.plan.len()];
    let mut lanes = Lanes { svg, top: rows, x: start, ticks: 0, bottom, numbered: 0, parts };
    // What lies behind comes first.
    lanes.behind(&story.moments);
    let end = lanes.x;
    lanes.x = start;
    for (row, name) in ["want", "give", "told"].into_iter().enumerate() {
        lanes.svg.text("end", (start - 8, rows + row as u32 * ROW + 15), name);
    }
    for x in story.plan.ids() {
        let base = lanes.base(x);
        lanes.svg.text("end", (start - 8, base - 12), &format!("part {}", x.0));
        lanes.svg.path("lane", &format!("M{start} {base}H{end}"));
    }
    for moment in &story.moments {
        lanes.moment(moment);
    }
    for x in story.plan.ids() {
        lanes.turn(x, State::Off);
    }
    lanes.svg.text("end", (start - 8, bottom + 14), "tick");
    (end.max(left + 640), bottom + 20)
}

fn legend(svg: &mut Svg, (left, top): At) {
    let y = top + 6;
    let mut x = left;
    for (class, says) in [
        ("want", "want (user; part at level)"),
        ("away", "turned away"),
        ("give", "give"),
        ("done", "told done"),
        ("no", "told 5 or 6"),
        ("on", "level"),
        ("rising", "rising"),
    ] {
        svg.rect(class, (x, y - 6), (12, 10), "");
        svg.text("", (x + 17, y + 3), says);
        x += 32 + 5 * says.len() as u32;
    }
}

/// How wide this is.
fn width(event: &Event) -> u32 {
    match event {
        Event::Call(Call::Want(..), _) => 36,
        Event::Call(..) => 20,
        Event::Step(_) => 8,
        Event::Told(..) => 22,
    }
}

impl Lanes<'_> {
    /// The ticks.
    fn behind(&mut self, moments: &[Moment]) {
        for moment in moments {
            match moment {
                Moment::Called(event) => self.x += width(event),
                Moment::Tick(events) => self.tick(2 * EDGE + events.iter().map(width).sum::<u32>()),
                Moment::Idle(ticks) if *ticks > QUIET => self.gap(*ticks),
                Moment::Idle(ticks) => (0..*ticks).for_each(|_| self.tick(QUIET_TICK)),
            }
        }
    }

    fn tick(&mut self, width: u32) {
        self.ticks += 1;
        let class = if self.ticks.is_multiple_of(2) { "tick" } else { "odd" };
        self.svg.rect(class, (self.x, self.top), (width, self.bottom - self.top), &format!("tick {}", self.ticks));
        let number = self.ticks.to_string();
        if self.numbered < self.x {
            self.svg.text("small", (self.x, self.bottom + 13), &number);
            self.numbered = self.x + 5 * number.len() as u32 + 2;
        }
        self.x += width;
    }

    fn gap(&mut self, ticks: u64) {
        let says = format!("{ticks} quiet");
        // A long number takes more.
        let width = gap_width(ticks);
        self.svg.rect("gap", (self.x, self.top), (width, self.bottom - self.top), &says);
        self.svg.text("small mid", (self.x + width / 2, self.bottom + 13), &says);
        self.ticks += ticks;
        self.numbered = self.x + width - 1;
        self.x += width;
    }

    /// Level 0 in a part's lane.
    fn base(&self, x: PartId) -> u32 {
        self.top + ROWS * ROW + (x.0 as u32 + 1) * LANE
    }

    fn moment(&mut self, moment: &Moment) {
        match moment {
            Moment::Called(event) => self.event(event),
            Moment::Tick(events) => {
                self.x += EDGE;
                events.iter().for_each(|event| self.event(event));
                self.x += EDGE;
            }
            Moment::Idle(ticks) if *ticks > QUIET => self.x += gap_width(*ticks),
            Moment::Idle(ticks) => self.x += *ticks as u32 * QUIET_TICK,
        }
    }

    fn event(&mut self, event: &Event) {
        match event {
            Event::Call(call, away) => self.call(*call, away.as_deref()),
            Event::Told(user, answer) => {
                let (class, says) = match answer {
                    Answer::Done => ("done", "done"),
                    Answer::CannotBe => ("no", "no 5"),
                    Answer::NotGood => ("no", "no 6"),
                };
                self.mark(TOLD, class, &user.to_string(), says, &format!("{user} {says}"), true);
            }
            Event::Step(step) => {
                let (x, state) = match *step {
                    Step::Raise(x) => (x, State::Rising),
                    Step::Good(x) => (x, State::On(1)),
                    Step::Level(x, level) => (x, State::On(level)),
                    Step::Lower(x) => (x, State::Off),
                };
                self.turn(x, state);
            }
        }
        self.x += width(event);
    }

    fn call(&mut self, call: Call, away: Option<&str>) {
        let class = |taken| if away.is_some() { "away" } else { taken };
        let ending = away.map_or(String::new(), |by| format!(": away {by}"));
        match call {
            Call::Want(user, part, level) => {
                let below = if let Some(by) = away { format!("away {by}") } else { format!("{part} at {level}") };
                let says = format!("{user} want {part} {level}{ending}");
                self.mark(WANT, class("want"), &user.to_string(), &below, &says, false);
            }
            Call::Give(user) => {
                let below = away.map_or(String::new(), |by| format!("away {by}"));
                self.mark(GIVE, class("give"), &user.to_string(), &below, &format!("{user} give{ending}"), false);
            }
            Call::Bad(x) => self.svg.text("small halo", (self.x, self.base(x) - LEVEL * TOP + 4), "bad"),
            Call::Slow(x, askings) => self.svg.text("small halo", (self.x, self.base(x) - LEVEL * TOP + 4), &format!("slow {askings}")),
        }
    }

    /// A mark with a user's number in it, and a few words below.
    fn mark(&mut self, row: u32, class: &str, user: &str, below: &str, says: &str, white: bool) {
        let middle = self.x + if row == WANT { 18 } else { 10 };
        let y = self.top + row * ROW + 8;
        self.svg.circle(class, (middle, y), 7, says);
        self.svg.text(if white { "small mid white" } else { "small mid" }, (middle, y + 3), user);
        if !below.is_empty() {
            self.svg.text("small mid", (middle, y + 15), below);
        }
    }

    /// The part's state changes here; what it was is drawn.
    fn turn(&mut self, x: PartId, state: State) {
        let (was, since) = std::mem::replace(&mut self.parts[x.0], (state, self.x));
        let base = self.base(x);
        let width = self.x - since;
        match was {
            State::Off => {}
            State::Rising => self.svg.rect("rising", (since, base - LEVEL * TOP), (width, LEVEL * TOP), &format!("part {} rising", x.0)),
            State::On(level) => {
                let height = LEVEL * level;
                self.svg.rect("on", (since, base - height), (width, height), &format!("part {} at {level}", x.0));
                if width >= 8 {
                    self.svg.text("small mid", (since + width / 2, base - height - 2), &level.to_string());
                }
            }
        }
    }
}

fn gap_width(ticks: u64) -> u32 {
    GAP.max(5 * (ticks.to_string().len() as u32 + 6) + 8)
}
