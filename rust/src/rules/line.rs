//! The lines of an input.

const LONGEST: usize = 4096;

/// What a line says, wherever it stands.
pub enum Line {
    New,
    Run,
    Part(PartLine),
    Gives(u32),
    Script(ScriptLine),
}

pub enum ScriptLine {
    Want { user: u32, part: u32, level: u32 },
    Give { user: u32 },
    Tick(u32),
    Bad(u32),
    Slow(u32, u32),
    Least,
    Drawn,
}

/// A `part` line of the right form; what it says may make no sense.
pub struct PartLine {
    pub part: u32,
    /// At level 1, 2 and so on; empty where nothing is said of it.
    pub draws: Vec<u32>,
    pub needs: Vec<NeedLine>,
}

pub struct NeedLine {
    pub on: u32,
    pub levels: Vec<u32>,
    pub most: u32,
}

/// All lines of an input; `None` for what is no line anywhere.
pub fn lines(input: &[u8]) -> impl Iterator<Item = Option<Line>> {
    let ends_with_newline = input.ends_with(b"\n");
    let body = if ends_with_newline { &input[..input.len() - 1] } else { input };
    let count = if input.is_empty() { 0 } else { body.split(|&b| b == b'\n').count() };
    body.split(|&b| b == b'\n').take(count).map(|raw| match raw.len() {
        0..=LONGEST => parse(raw.strip_suffix(b"\r").unwrap_or(raw)),
        _ => None,
    })
}

fn parse(text: &[u8]) -> Option<Line> {
    let text = std::str::from_utf8(text).ok()?;
    let words: Vec<&str> = text.split([' ', '\t']).filter(|word| !word.is_empty()).collect();
    match words[..] {
        ["new"] => Some(Line::New),
        ["run"] => Some(Line::Run),
        ["gives", amount] => Some(Line::Gives(number(amount)?)),
        ["part", part, ref rest @ ..] => {
            let (draws, rest) = draws(rest)?;
            Some(Line::Part(PartLine { part: number(part)?, draws, needs: needs(rest)? }))
        }
        _ => script(&words).map(Line::Script),
    }
}

fn script(words: &[&str]) -> Option<ScriptLine> {
    Some(match *words {
        [user, "want", part, level] => ScriptLine::Want { user: number(user)?, part: number(part)?, level: number(level)? },
        [user, "give"] => ScriptLine::Give { user: number(user)? },
        ["tick", ticks] => ScriptLine::Tick(number(ticks)?),
        ["bad", part] => ScriptLine::Bad(number(part)?),
        ["slow", part, askings] => ScriptLine::Slow(number(part)?, number(askings)?),
        ["least"] => ScriptLine::Least,
        ["drawn"] => ScriptLine::Drawn,
        _ => return None,
    })
}

/// What is said of the draws, and the words after it.
fn draws<'a, 'b>(words: &'b [&'a str]) -> Option<(Vec<u32>, &'b [&'a str])> {
    let ["draws", rest @ ..] = words else { return Some((Vec::new(), words)) };
    let end = rest.iter().position(|&word| word == "needs").unwrap_or(rest.len());
    let (amounts, rest) = rest.split_at(end);
    Some((numbers(amounts)?, rest))
}

fn needs(words: &[&str]) -> Option<Vec<NeedLine>> {
    match words {
        [] => Some(Vec::new()),
        ["needs", rest @ ..] => rest.split(|&word| word == "and").map(need).collect(),
        _ => None,
    }
}

fn need(words: &[&str]) -> Option<NeedLine> {
    let [on, "from", ref levels @ .., "most", most] = *words else { return None };
    Some(NeedLine { on: number(on)?, levels: numbers(levels)?, most: number(most)? })
}

/// At least one.
fn numbers(words: &[&str]) -> Option<Vec<u32>> {
    if words.is_empty() {
        return None;
    }
    words.iter().map(|word| number(word)).collect()
}

/// Decimal digits; too large a number counts as the largest.
fn number(word: &str) -> Option<u32> {
    let digits = !word.is_empty() && word.bytes().all(|b| b.is_ascii_digit());
    digits.then(|| word.parse().unwrap_or(u32::MAX))
}
