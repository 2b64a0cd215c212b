//! Texts of document 02 and others near them. Each is a function of the seed
//! and its number alone.

mod deep;
mod exhaustive;
mod formula;
mod leaves;
mod long;
mod mutation;

pub use exhaustive::{FAMILIES, Family};

use crate::random::Random;

/// The text with this number.
pub fn text(seed: u64, number: u64) -> Vec<u8> {
    any(&mut Random::new(seed, number))
}

/// A text of a kind that is itself picked: half of them as made, half changed.
pub fn any(random: &mut Random) -> Vec<u8> {
    let mut text = match random.below(256) {
        0 => long::text(random),
        1..=19 => deep::text(random),
        20..=39 => leaves::near_a_limit(random),
        40..=43 => mutation::random_bytes(random),
        _ => short(random),
    };
    if random.once_in(2) {
        for _ in 0..random.pick(&[1, 1, 1, 2, 4]) {
            mutation::change(random, &mut text);
        }
    }
    text
}

/// A text of a formula with few leaves.
pub fn short(random: &mut Random) -> Vec<u8> {
    let size = random.pick(&[1, 2, 3, 4, 6, 9, 14, 20]);
    formula::text(random, size)
}
