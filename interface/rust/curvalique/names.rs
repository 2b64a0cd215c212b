//! A name list in lent bytes.

use crate::refusal::answered;
use crate::{LONGEST_NAME, Refusal, raw};

/// A name list. Its bytes and its count may hold anything: every call looks them over first.
#[derive(Default)]
pub struct Names<'lent> {
    pub entries: &'lent mut [u8],
    pub count: usize,
}

impl<'lent> Names<'lent> {
    /// A name list in lent bytes, with a count of names; 0 makes it an empty one.
    pub fn lent(entries: &'lent mut [u8], count: usize) -> Self {
        Self { entries, count }
    }

    /// The number of a name, which is added if it is new.
    pub fn intern(&mut self, name: &[u8]) -> Result<u64, Refusal> {
        let mut number = 0;
        // SAFETY: the lists are borrowed for the call, with their lengths, and apart from the answer.
        let returned = unsafe {
            raw::curvalique_intern_name(
                self.entries.as_mut_ptr(),
                self.entries.len(),
                &mut self.count,
                name.as_ptr(),
                name.len(),
                &mut number,
            )
        };
        answered(returned, number)
    }

    /// The number of a name, if it has one.
    pub fn lookup(&self, name: &[u8]) -> Result<Option<u64>, Refusal> {
        let (mut known, mut number) = (0, 0);
        // SAFETY: as above.
        let returned = unsafe {
            raw::curvalique_lookup_name(
                self.entries.as_ptr(),
                self.entries.len(),
                self.count,
                name.as_ptr(),
                name.len(),
                &mut known,
                &mut number,
            )
        };
        answered(returned, (known != 0).then_some(number))
    }

    /// The name of a number, if there is one.
    pub fn name(&self, number: u32) -> Result<Option<Vec<u8>>, Refusal> {
        let (mut known, mut length, mut bytes) = (0, 0, [0; LONGEST_NAME]);
        // SAFETY: as above; the bytes are as many as the longest name has.
        let returned = unsafe {
            raw::curvalique_name(
                self.entries.as_ptr(),
                self.entries.len(),
                self.count,
                number,
                &mut known,
                &mut length,
                &mut bytes,
            )
        };
        answered(returned, (known != 0).then(|| bytes[..length].to_vec()))
    }
}
