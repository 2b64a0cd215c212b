//! The port's C interface, and calls on lent lists through it.

pub mod calls;
pub mod damage;
pub mod difference;
mod interface;
pub mod lists;
pub mod names;
pub mod sheets;
pub mod text_lists;
pub mod texts;
#[cfg(feature = "writer")]
pub mod writings;

/// What the interface returns for a call that is not refused.
const ANSWERED: u64 = 0;

/// An answer, or the number of a refusal.
fn unless_refused<T>(number: u64, answer: T) -> Result<T, u64> {
    if number == ANSWERED { Ok(answer) } else { Err(number) }
}
