//! Formulas typed as text (document 02, request c), read in two ways that share
//! no more than 02's numbers: a reader with a stack of what is open, and for
//! short texts every derivation by the sentences of 02. And nodes written as
//! text (request d).

mod call;
mod derivation;
mod reader;
mod rivals;
mod splits;
mod token;
mod writer;

pub use call::{TextLists, read_text, read_text_by_definition};
pub use derivation::Derivation;
pub use reader::{Step, steps_of};
pub use rivals::rival_with_fewer_brackets;
pub use splits::derivations;
pub use writer::write_text;

use crate::refusal::Refusal;

/// The most bytes of a text.
pub const TEXT_BYTES_MAXIMUM: usize = 8_192;
/// The most brackets, minus factors and powers that stand one inside another.
pub const NESTING_MAXIMUM: usize = 64;
/// The byte that may stand anywhere but inside a name or number.
const BLANK: u8 = 0x20;
/// The byte before the 16 hex digits of a number's bits.
const BITS_SIGN: u8 = b'#';
const BITS_DIGITS: usize = 16;
/// The most digits of a whole number.
const WHOLE_DIGITS_MAXIMUM: usize = 9;

/// Refusal 1 of a text.
fn check_length(text: &[u8]) -> Result<(), Refusal> {
    if text.is_empty() || text.len() > TEXT_BYTES_MAXIMUM { Err(Refusal::Sheet) } else { Ok(()) }
}
