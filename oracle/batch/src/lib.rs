//! Frames, the command line of programs that answer sheets, and running such
//! programs.

mod command;
mod frame;
mod program;

pub use command::answers;
pub use frame::{read_frame, write_frame};
pub use program::serve;
