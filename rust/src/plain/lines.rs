//! Lines of plans and scripts, and what they say.

use super::plan::{Draws, MAX_NEEDS, NO_DRAWS, Need, TOP};

const LONGEST: usize = 4096;

/// A line as it was read; `None` where it is too long to be one.
pub type RawLine<'a> = Option<&'a [u8]>;

/// All lines. The last may lack its newline.
pub fn lines(input: &[u8]) -> impl Iterator<Item = RawLine<'_>> {
    input.split_inclusive(|&b| b == b'\n').map(|line| {
        let text = line.strip_suffix(b"\n").unwrap_or(line);
        if text.len() > LONGEST {
            return None;
        }
        Some(text.strip_suffix(b"\r").unwrap_or(text))
    })
}

pub enum Line {
    New,
    Run,
    Part(PartLine),
    Gives(u32),
    Want { user: u32, part: u32, level: u32 },
    Give { user: u32 },
    Tick(u32),
    Bad(u32),
    Slow(u32, u32),
    Least,
    Drawn,
}

/// A part, what it draws and what it needs, as far as a plan can hold them.
pub struct PartLine {
    pub number: u32,
    pub draws: Draws,
    pub needs: [Need; MAX_NEEDS],
    pub count: usize,
    /// It says something that no plan can hold.
    pub spoilt: bool,
}

/// What a line says, wherever it stands; `None` where its form is that of no line.
pub fn parse(line: &[u8]) -> Option<Line> {
    let mut words = Words(line);
    let parsed = match words.next()? {
        b"new" => Line::New,
        b"run" => Line::Run,
        b"least" => Line::Least,
        b"drawn" => Line::Drawn,
        b"gives" => Line::Gives(words.number()?),
        b"part" => Line::Part(part(&mut words)?),
        b"tick" => Line::Tick(words.number()?),
        b"bad" => Line::Bad(words.number()?),
        b"slow" => Line::Slow(words.number()?, words.number()?),
        word => call(number(word)?, &mut words)?,
    };
    words.next().is_none().then_some(parsed)
}

fn call(user: u32, words: &mut Words) -> Option<Line> {
    match words.next()? {
        b"want" => Some(Line::Want { user, part: words.number()?, level: words.number()? }),
        b"give" => Some(Line::Give { user }),
        _ => None,
    }
}

fn part(words: &mut Words) -> Option<PartLine> {
    let mut part = PartLine { number: words.number()?, draws: NO_DRAWS, needs: [Need::NONE; MAX_NEEDS], count: 0, spoilt: false };
    let mut word = words.next();
    if word == Some(b"draws") {
        let levels;
        (levels, word) = draws(words, &mut part.draws)?;
        part.spoilt = levels > usize::from(TOP);
    }
    let mut more = match word {
        None => false,
        Some(b"needs") => true,
        Some(_) => return None,
    };
    while more {
        let (need, holds) = need(words)?;
        part.spoilt |= !holds;
        match part.needs.get_mut(part.count) {
            Some(place) => {
                *place = need;
                part.count += 1;
            }
            None => part.spoilt = true,
        }
        more = match words.next() {
            None => false,
            Some(b"and") => true,
            Some(_) => return None,
        };
    }
    Some(part)
}

/// For how many levels it is said, and the word after that.
fn draws<'a>(words: &mut Words<'a>, draws: &mut Draws) -> Option<(usize, Option<&'a [u8]>)> {
    let mut levels = 0;
    let mut word = words.next();
    while let Some(draw) = word.and_then(number) {
        levels += 1;
        if let Some(rest) = draws.get_mut(levels..) {
            rest.fill(draw);
        }
        word = words.next();
    }
    (levels > 0).then_some((levels, word))
}

/// A need, and whether a plan can hold it.
fn need(words: &mut Words) -> Option<(Need, bool)> {
    let on = words.number()?;
    if words.next()? != b"from" {
        return None;
    }
    let mut need = Need::NONE;
    let mut holds = true;
    let mut levels = 0;
    loop {
        let word = words.next()?;
        if word == b"most" {
            break;
        }
        let least = number(word)?;
        levels += 1;
        holds &= least <= u32::from(TOP) && levels <= usize::from(TOP);
        if holds {
            need.least[levels..].fill(least as u8);
        }
    }
    let most = words.number()?;
    holds &= levels > 0 && most <= u32::from(TOP);
    need.most = most.min(u32::from(TOP)) as u8;
    // A part of a number above 64 isn't one with a smaller number, whatever it is.
    need.on = on.min(u32::from(u8::MAX)) as u8;
    (levels > 0).then_some((need, holds))
}

struct Words<'a>(&'a [u8]);

impl<'a> Words<'a> {
    fn next(&mut self) -> Option<&'a [u8]> {
        let gap = |b: &u8| matches!(b, b' ' | b'\t');
        let start = self.0.iter().position(|b| !gap(b))?;
        let rest = &self.0[start..];
        let (word, rest) = rest.split_at(rest.iter().position(gap).unwrap_or(rest.len()));
        self.0 = rest;
        Some(word)
    }

    fn number(&mut self) -> Option<u32> {
        number(self.next()?)
    }
}

/// Decimal digits; too large a number counts as the largest.
fn number(word: &[u8]) -> Option<u32> {
    word.iter().try_fold(0u32, |n, b| b.is_ascii_digit().then(|| n.saturating_mul(10).saturating_add(u32::from(b - b'0'))))
}
