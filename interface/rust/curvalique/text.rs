//! Formulas typed as text.

use crate::refusal::answered;
use crate::{Refusal, Store, raw};

impl Store<'_> {
    /// Reads a text into this store and its names, and gives the id of its formula.
    pub fn read_text(&mut self, text: &[u8]) -> Result<u32, Refusal> {
        let mut id = 0;
        // SAFETY: the lists and numbers are borrowed for the call, with their lengths, and apart from the answer.
        let returned = unsafe {
            raw::curvalique_read_text(
                text.as_ptr(),
                text.len(),
                self.nodes.as_mut_ptr(),
                self.nodes.len(),
                self.slots.as_mut_ptr(),
                self.slots.len(),
                &mut self.count,
                &mut self.size,
                self.names.entries.as_mut_ptr(),
                self.names.entries.len(),
                &mut self.names.count,
                &mut id,
            )
        };
        answered(returned, id as u32)
    }
}
