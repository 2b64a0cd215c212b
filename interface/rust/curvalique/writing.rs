//! A node's text.

use crate::refusal::answered;
use crate::{Refusal, Store, raw};

impl Store<'_> {
    /// The text of a node, with the store's names, written to the lent bytes: the part of them that it takes.
    pub fn write_text<'text>(&self, id: u32, text: &'text mut [u8]) -> Result<&'text [u8], Refusal> {
        let mut length = 0;
        // SAFETY: the lists are borrowed for the call, with their lengths, and apart from the text and the answer.
        let returned = unsafe {
            raw::curvalique_write_text(
                self.nodes.as_ptr(),
                self.nodes.len(),
                self.slots.as_ptr(),
                self.slots.len(),
                self.count,
                self.size,
                self.names.entries.as_ptr(),
                self.names.entries.len(),
                self.names.count,
                id,
                text.as_mut_ptr(),
                text.len(),
                &mut length,
            )
        };
        answered(returned, &text[..length as usize])
    }
}
