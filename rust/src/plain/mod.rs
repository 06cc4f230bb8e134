//! A plain keeper: the same rules and the same order of steps as the proved one, written for speed, with its own board in memory.
//!
//! For any input it prints the same bytes as the program `buoy`.

mod board;
mod keeper;
mod least;
mod lines;
mod plan;
mod print;
mod session;

/// What `buoy` would print for this input.
pub fn play(input: &[u8]) -> Vec<u8> {
    let mut session = session::Session::new(input.len());
    for line in lines::lines(input) {
        session.read(line);
    }
    session.printed()
}
