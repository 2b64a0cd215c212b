//! Sheets and texts for the comparison. Each is a function of the mode, the
//! seed and its number alone.

mod budgets;
mod constants;
mod damage;
mod examples;
mod exhaustive;
mod faults;
mod limits;
mod mode;
mod palette;
mod random;
mod shapes;
mod sheet;
pub mod texts;

pub use examples::examples;
pub use exhaustive::COUNT as EXHAUSTIVE_COUNT;
pub use mode::{Mode, sheet};
pub use random::Random;
