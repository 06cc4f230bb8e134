//! One case: played, judged, and compared with the plain keeper.

use crate::rules::{Account, Fault, judge};
use crate::{cases, plain, play};
use std::fmt;

#[derive(Debug)]
pub enum Failure {
    Broken(Fault),
    /// The plain keeper prints something else from this line of the output on.
    Differs {
        printed: usize,
        library: String,
        plain: String,
    },
}

impl fmt::Display for Failure {
    fn fmt(&self, f: &mut fmt::Formatter) -> fmt::Result {
        match self {
            Failure::Broken(fault) => fault.fmt(f),
            Failure::Differs { printed, library, plain } => {
                write!(f, "line {printed} of the output: the library says {library:?}, the plain keeper {plain:?}")
            }
        }
    }
}

/// Plays the input of a seed.
pub fn of_seed(seed: u64) -> Result<Account, Failure> {
    of_input(&cases::case(seed))
}

pub fn of_input(input: &[u8]) -> Result<Account, Failure> {
    let output = play(input);
    let account = judge(input, &output).map_err(Failure::Broken)?;
    match first_difference(&output, &plain::play(input)) {
        None => Ok(account),
        Some(differs) => Err(differs),
    }
}

fn first_difference(library: &[u8], plain: &[u8]) -> Option<Failure> {
    if library == plain {
        return None;
    }
    let (mut library, mut plain) = (library.split(|&b| b == b'\n'), plain.split(|&b| b == b'\n'));
    let text = |line: Option<&[u8]>| line.map_or_else(|| "nothing".into(), |l| String::from_utf8_lossy(l).into_owned());
    for printed in 1.. {
        let (one, other) = (library.next(), plain.next());
        if one != other {
            return Some(Failure::Differs { printed, library: text(one), plain: text(other) });
        }
    }
    None
}

/// A shorter input that fails too: lines are left out, many at once and then fewer, as long as it fails and isn't tried too often.
pub fn shortened(input: &[u8]) -> Vec<u8> {
    shortened_while(input, |shorter| of_input(shorter).is_err())
}

/// The same for what fails in another way.
pub fn shortened_while(input: &[u8], fails: impl Fn(&[u8]) -> bool) -> Vec<u8> {
    let mut tries = 1_000;
    let mut lines: Vec<&[u8]> = input.split_inclusive(|&b| b == b'\n').collect();
    let mut chunk = lines.len().div_ceil(2);
    while chunk > 0 {
        let mut start = 0;
        while start < lines.len() && tries > 0 {
            tries -= 1;
            let end = (start + chunk).min(lines.len());
            let rest = [&lines[..start], &lines[end..]].concat();
            if fails(&rest.concat()) {
                lines = rest;
            } else {
                start = end;
            }
        }
        chunk /= 2;
    }
    lines.concat()
}
