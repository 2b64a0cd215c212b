//! Writing a node's text, done by the port into a lent buffer.

use checker::TextLists;

use crate::interface::curvalique_write_text;
use crate::names::Entries;
use crate::{ANSWERED, unless_refused};

/// What stands behind the pointer for the length before a writing, and in the buffer.
const NO_LENGTH: u64 = 0xA5A5_A5A5_A5A5_A5A5;
const FILLING: u8 = 0x7E;

/// Writes a node's text into a buffer of so many bytes: the text, if the rest of the buffer, and on a refusal all of it, stays.
pub fn write(lists: &TextLists, id: u32, buffer_length: usize) -> Result<Vec<u8>, u64> {
    let TextLists { store, names } = lists;
    let entries = Entries::of(names);
    let mut length = NO_LENGTH;
    let mut buffer = vec![FILLING; buffer_length];
    let refused = unsafe {
        curvalique_write_text(
            store.words.as_ptr(),
            store.words.len(),
            store.slots.as_ptr(),
            store.slots.len(),
            store.node_count,
            store.table_size as usize,
            entries.bytes.as_ptr(),
            entries.bytes.len(),
            entries.count,
            id,
            buffer.as_mut_ptr(),
            buffer.len(),
            &mut length,
        )
    };
    let written = if refused == ANSWERED { length as usize } else { 0 };
    assert!(refused == ANSWERED || length == NO_LENGTH, "a writing refused with {refused} left the length {length}");
    assert!(buffer[written..].iter().all(|byte| *byte == FILLING), "bytes past the text changed: {refused}, {length}");
    buffer.truncate(written);
    unless_refused(refused, buffer)
}
