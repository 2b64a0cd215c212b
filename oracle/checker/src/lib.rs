//! Document 01 as an independent program: the plain machine over a list of
//! nodes, its sheets and listing, its refusals, and the audit of lent lists;
//! and the texts of document 02.
//!
//! "01" in the comments is the scope document of the port, "02" that of the
//! later requests.

mod arithmetic;
mod audit;
mod call;
mod domain;
mod evaluation;
mod hash;
mod lent;
mod listing;
mod names;
mod natural;
mod node;
mod patterns;
mod prune;
mod record;
mod refusal;
mod run;
mod settings;
mod store;
mod strict;
mod text;
mod walk;

pub use audit::sound;
pub use call::{Call, CallAnswer, call};
pub use domain::{Outside, outside};
pub use evaluation::unequal_walk;
pub use hash::fnv_1a;
pub use lent::{LentStore, WORDS_PER_NODE};
pub use listing::{details, listing};
pub use names::{LentNames, NAME_BYTES, NAMES_MAXIMUM};
pub use node::{CANONICAL, Children, Control, Kind, Node, Operator};
pub use prune::{Pruned, prune};
pub use record::Record;
pub use refusal::Refusal;
pub use run::{Answer, Detail, End, Run, run};
pub use settings::{Setting, meaning_of_setting};
pub use store::{Noticed, Store};
pub use text::{
    Derivation, NESTING_MAXIMUM, Step, TEXT_BYTES_MAXIMUM, TextLists, derivations, read_text, read_text_by_definition,
    rival_with_fewer_brackets, steps_of, write_text,
};
pub use walk::{Mode, Walked, simplify};

/// The answer of the command line: the listing, and the details if asked for.
pub fn answer(sheet: &[u8], with_details: bool) -> Vec<u8> {
    let run = run(sheet);
    let mut text = listing(&run);
    if with_details {
        text.push_str(&details(&run));
    }
    text.into_bytes()
}
