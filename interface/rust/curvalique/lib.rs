//! Safe calls of libcurvalique. What each call does is said in include/curvalique.h and docs/REFERENCE.md.
//!
//! Structs here grow with the library: they are made by functions, and a program that names the fields it reads compiles
//! unchanged when others come.

mod listing;
mod names;
pub mod raw;
mod refusal;
mod sheet;
mod store;
mod text;
mod writing;

pub use listing::{Listing, Outcome, Unread, list_sheet, read_listing};
pub use names::Names;
pub use refusal::Refusal;
pub use sheet::{RefusedSheet, SheetAnswer};
pub use store::{Node, Pruned, Simplified, Store};

pub const NODE_WORDS: usize = 22;
pub const ENTRY_BYTES: usize = 33;
pub const LONGEST_NAME: usize = 32;
pub const LISTING_BYTES: usize = 229_824;

// The forms of a sheet's answer and of a listing's first line.
pub const FORM_OK: u64 = 0;
pub const FORM_EMPTY: u64 = 1;
pub const FORM_SPENT: u64 = 2;
pub const FORM_REFUSED: u64 = 3;

// Why a listing is not read.
pub const WRONG_LINE: u64 = 1;
pub const TOO_FEW_WORDS: u64 = 2;
