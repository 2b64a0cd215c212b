//! Lists of length 0, and lengths that are no multiple of a node's words.

use curvalique::{LISTING_BYTES, NODE_WORDS, Names, Outcome, Refusal, Store, Unread, list_sheet, read_listing};

use crate::blocks::Blocks;
use crate::trial::{UNTOUCHED_BYTE, check};

const FEWEST_SLOTS: usize = 64;
const FEW_NODES: u32 = 3;

fn try_empty_stores() {
    check(Store::fresh(&mut [], &mut []).err() == Some(Refusal::NO_SLOT_PLACE), "no slots");
    let mut lists = Store::lent(&mut [], &mut [], 0, FEWEST_SLOTS);
    check(lists.variable(1) == Err(Refusal::NOT_SOUND), "no lists");
    let mut blocks = Blocks::fresh(0, FEWEST_SLOTS);
    check(blocks.call(|store| store.variable(1)) == Err(Refusal::NO_NODE_PLACE), "a store without nodes");
    check(blocks.call(|store| store.function(1, &[])) == Err(Refusal::NO_NODE_PLACE), "no operands, no place");
}

fn try_empty_bytes() {
    let mut names = Names::lent(&mut [], 0);
    check(names.intern(b"x") == Err(Refusal::NO_NAME_PLACE), "no place for a name");
    check(names.intern(b"") == Err(Refusal::BAD_NAME_LENGTH), "an empty name");
    let mut room = Box::new([UNTOUCHED_BYTE; LISTING_BYTES]);
    let refused = Outcome::Refused { refusal: Refusal::BAD_SHEET, record: 0 };
    let read = read_listing(list_sheet(&[], &mut room), &mut []).map(|listing| listing.outcome);
    check(read == Ok(refused), "the listing of an empty sheet");
    check(read_listing(&[], &mut []).err() == Some(Unread::WrongLine(1)), "an empty listing");
}

fn fill(store: &mut Store) {
    for symbol in 0..FEW_NODES {
        check(store.variable(symbol) == Ok(symbol), "a place for a node");
    }
    check(store.variable(FEW_NODES) == Err(Refusal::NO_NODE_PLACE), "no place for one more");
}

/// Words past the last whole node are unused: as many nodes have place as without them, and they stay.
fn try_words_past_the_last_node() {
    for extra in 0..NODE_WORDS {
        let mut blocks = Blocks::fresh(FEW_NODES as usize * NODE_WORDS + extra, FEWEST_SLOTS);
        let before = blocks.copy();
        blocks.call(fill);
        check(blocks.stays_past(&before), "words past the last node stay");
        blocks.count += 1;
        check(blocks.call(|store| store.variable(0)) == Err(Refusal::NOT_SOUND), "a count over the lent nodes");
    }
}

pub fn try_lengths() {
    try_empty_stores();
    try_empty_bytes();
    try_words_past_the_last_node();
}
