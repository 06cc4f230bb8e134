//! Inputs to try: plans and scripts, random and hostile, each made from a seed.
//!
//! After most ticks stands a line that prints something and changes nothing, so that what happens in one tick can be told from the next.

mod garbage;
mod hostile;
mod pen;
mod plain_sight;
pub mod plans;
mod wander;

use crate::rng::Rng;
use pen::Pen;

/// The input of a seed, of one plan or a few.
pub fn case(seed: u64) -> Vec<u8> {
    let mut rng = Rng::new(seed);
    let plans = rng.pick(&[1, 1, 1, 1, 1, 1, 1, 2, 3]);
    let mut pen = Pen::new(rng);
    for i in 0..plans {
        if i > 0 {
            pen.line("new");
        }
        one(&mut pen);
    }
    pen.into_bytes()
}

/// The input of a seed, of one plan, in which whose turn it is and what stands on the board is known from what is printed.
pub fn in_plain_sight(seed: u64) -> Vec<u8> {
    let mut pen = Pen::new(Rng::new(seed));
    plain_sight::script(&mut pen);
    pen.into_bytes()
}

/// A plan and its script.
fn one(pen: &mut Pen) {
    pen.messy = pen.rng.percent(10);
    match pen.rng.below(100) {
        0..40 => wander::wander(pen),
        40..46 => hostile::slow_chain(pen),
        46..53 => hostile::undoing(pen),
        53..57 => hostile::giving(pen),
        57..59 => hostile::restless(pen),
        59..66 => hostile::flaky(pen),
        66..73 => hostile::tight(pen),
        73..78 => hostile::pairs(pen),
        78..83 => hostile::seesaw(pen),
        83..88 => hostile::high(pen),
        88..91 => hostile::crowd(pen),
        91..93 => hostile::waiting(pen),
        93..97 => garbage::script(pen),
        _ => garbage::plan(pen),
    }
}

#[cfg(test)]
mod tests {
    use super::case;

    #[test]
    fn a_seed_gives_the_same_input() {
        assert!((0..50).all(|seed| case(seed) == case(seed)));
        assert_ne!(case(1), case(2));
    }
}
