//! What a call on copies of lent lists left, by the port and by the checker.

use checker::{LentStore, TextLists};

/// What differs in the lists, if anything.
pub fn of_lists(ours: &TextLists, expected: &TextLists) -> Option<&'static str> {
    if ours.names != expected.names {
        return Some("names");
    }
    of_stores(&ours.store, &expected.store)
}

/// What differs in the stores, if anything.
pub fn of_stores(ours: &LentStore, expected: &LentStore) -> Option<&'static str> {
    if ours.words != expected.words || ours.node_count != expected.node_count {
        Some("words")
    } else if ours.table_size != expected.table_size {
        Some("table size")
    } else if ours.slots != expected.slots {
        Some("slots")
    } else {
        None
    }
}
