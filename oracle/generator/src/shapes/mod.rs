//! Families of sheets, each rich in one thing.

mod chains;
mod deep;
mod identities;
mod merges;
mod mixed;
mod parts;
mod towers;

pub use deep::levels;
pub use parts::{ARGUMENTS_MAXIMUM, argument_count};

use crate::random::Random;
use crate::sheet::Sheet;

/// A sheet of a picked family.
pub fn any(random: &mut Random) -> Sheet {
    match random.below(20) {
        0..=7 => mixed::sheet(random),
        8..=10 => merges::sheet(random),
        11..=13 => identities::sheet(random),
        14..=16 => chains::sheet(random),
        17 => towers::sheet(random),
        _ => deep::sheet(random),
    }
}
