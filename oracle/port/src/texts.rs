//! Reading a text, done by the port on lent lists.

use checker::TextLists;

use crate::interface::curvalique_read_text;
use crate::lists::Counts;
use crate::names::Entries;
use crate::{ANSWERED, unless_refused};

/// What stands behind the pointer for the id before a reading.
const NO_ID: u64 = 0xA5A5_A5A5_A5A5_A5A5;

/// Reads a text; the lists and counts are left as the port leaves them.
pub fn read(lists: &mut TextLists, text: &[u8]) -> Result<u64, u64> {
    let TextLists { store, names } = lists;
    let mut counts = Counts::of(store);
    let mut entries = Entries::of(names);
    let mut id = NO_ID;
    let refused = unsafe {
        curvalique_read_text(
            text.as_ptr(),
            text.len(),
            store.words.as_mut_ptr(),
            store.words.len(),
            store.slots.as_mut_ptr(),
            store.slots.len(),
            &mut counts.count,
            &mut counts.size,
            entries.bytes.as_mut_ptr(),
            entries.bytes.len(),
            &mut entries.count,
            &mut id,
        )
    };
    counts.put(store);
    entries.put(names);
    assert!(refused == ANSWERED || id == NO_ID, "a reading refused with {refused} left the id {id}");
    unless_refused(refused, id)
}
