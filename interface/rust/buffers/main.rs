//! Calls the library on damaged, small and empty lists, each in a block of its own of exactly the lent length, so that
//! valgrind sees any access outside. Checks what the header says of answers and refusals, and that what lies past the
//! used memory stays.
//!
//! Output: how many calls of each group there were of each outcome. A failed check stops it.

mod blocks;
mod chains;
mod lengths;
mod listing_calls;
mod name_calls;
mod null_lists;
mod operand_counts;
mod sheet_calls;
mod store_calls;
mod text_calls;
mod trial;

use std::env::args;
use std::io::{Read, stdin};
use std::process::exit;

use curvalique::NODE_WORDS;

use crate::store_calls::{grown_store, try_damaged_stores, try_stores_without_nodes};
use crate::trial::Trial;

const USAGE: &str = "usage: buffers ROUNDS < SHEET";
/// A round of names has as many calls as this many of the others.
const NAME_SHARE: u64 = 20;
/// The stores that are tried: nodes, slots, and how many calls made them.
const STORES: [(usize, usize, u64); 3] = [(40, 64, 300), (300, 256, 1_500), (300, 1_024, 1_500)];

fn try_all(rounds: u64, sheet: &[u8]) {
    let mut trial = Trial::new();
    null_lists::try_null_lists();
    try_stores_without_nodes(&mut trial);
    lengths::try_lengths();
    operand_counts::try_operand_counts();
    chains::try_long_chains();
    for (nodes, slots, calls) in STORES {
        let store = grown_store(&mut trial, nodes * NODE_WORDS, slots, calls);
        try_damaged_stores(&mut trial, &store, rounds);
        sheet_calls::try_sheets(&mut trial, &store, sheet, rounds);
        text_calls::try_texts(&mut trial, &store, rounds);
    }
    name_calls::try_names(&mut trial, rounds / NAME_SHARE);
    trial.print_outcomes();
}

fn main() {
    let rounds = args().nth(1).and_then(|argument| argument.parse().ok());
    let mut sheet = Vec::new();
    match (rounds, stdin().read_to_end(&mut sheet)) {
        (Some(rounds), Ok(_)) => try_all(rounds, &sheet),
        _ => {
            eprintln!("{USAGE}");
            exit(2);
        }
    }
}
