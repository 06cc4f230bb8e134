//! The rules in plain words of Rust: judges what was printed for an input by the board's data sheet, the promises and the lines' form.
//!
//! Nothing here knows how the keeper works, and nothing is shared with [`crate::plain`]. What isn't printed (askings of a rising part
//! that isn't good yet) is bounded by what is.

mod account;
mod askings;
pub(crate) mod board;
mod fault;
mod judge;
pub(crate) mod line;
mod pace;
pub(crate) mod plan;
pub(crate) mod printed;
mod script;
pub(crate) mod users;

pub use account::Account;
pub use fault::{Broken, Fault};
pub use judge::judge;
