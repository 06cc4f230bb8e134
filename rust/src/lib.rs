//! The keeper of a board's power, called from Rust, and what it is tested and measured with.
//!
//! - [`play`] plays a whole input text and gives back what the program `buoy` would print;
//! - [`rules`] judges such an output by the board's data sheet and the promises;
//! - [`fewest`] counts what each want took, beside the fewest askings it can take;
//! - [`picture`] draws what the keeper does;
//! - [`cases`] makes plans and scripts, random and hostile;
//! - [`plain`] is another keeper with the same rules, unproved, to compare with;
//! - [`trial`] plays a case, judges it and compares it.

pub mod cases;
pub mod fewest;
pub mod picture;
pub mod plain;
pub mod rng;
pub mod rules;
pub mod sys;
pub mod trial;

/// Why there is no least.
#[cfg(not(feature = "plain"))]
#[derive(Clone, Copy, Debug, PartialEq, Eq)]
pub enum NoLeast {
    /// The text is no plan, or the plan makes no sense.
    NoPlan,
    /// It can't be: a level above 15, or above what a part allows, or more drawn than is given.
    CannotBe,
}

/// Whether a plan (`part` lines, up to `run` or its end) makes sense.
#[cfg(not(feature = "plain"))]
pub fn makes_sense(plan: &[u8]) -> bool {
    sys::check(plan) == 0
}

/// The least levels of a plan's 64 parts at most, where `wants[x]` is the level wanted of part x; 0 for parts that there aren't.
#[cfg(not(feature = "plain"))]
pub fn least(plan: &[u8], wants: &[u32]) -> Result<[u32; 64], NoLeast> {
    const CANT_BE: u32 = 5;
    let mut levels = [0; 64];
    match sys::least_into(plan, wants, &mut levels) {
        0 => Ok(levels),
        CANT_BE => Err(NoLeast::CannotBe),
        _ => Err(NoLeast::NoPlan),
    }
}

/// What `buoy` would print for this input.
pub fn play(input: &[u8]) -> Vec<u8> {
    // Mostly room enough for all, so that it's played once.
    let mut out = vec![0; 4 * input.len() + 4096];
    loop {
        if let Some(written) = sys::play_into(input, &mut out) {
            out.truncate(written);
            return out;
        }
        out = vec![0; 4 * out.len()];
    }
}
