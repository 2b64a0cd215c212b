//! A lent name list, as the checker has it, handed to the port; and interning a name.

use checker::{LentNames, NAME_BYTES};

use crate::interface::curvalique_intern_name;
use crate::unless_refused;

/// Bytes lent past the last whole entry, which stay.
const REST: [u8; 5] = [0xEE; 5];

/// The bytes and the count of a name list, which a call takes and gives back.
pub struct Entries {
    pub bytes: Vec<u8>,
    pub count: usize,
}

impl Entries {
    pub fn of(names: &LentNames) -> Entries {
        Entries { bytes: [&names.entries.concat()[..], &REST].concat(), count: names.count as usize }
    }

    pub fn put(&self, names: &mut LentNames) {
        let (entries, rest) = self.bytes.as_chunks::<{ NAME_BYTES + 1 }>();
        assert_eq!(rest, REST, "bytes past the last entry changed");
        names.entries.copy_from_slice(entries);
        names.count = self.count as u64;
    }
}

/// Interns a name; the list and its count are left as the port leaves them.
pub fn intern(names: &mut LentNames, name: &[u8]) -> Result<u32, u64> {
    let mut entries = Entries::of(names);
    let mut number = 0;
    let refused = unsafe {
        curvalique_intern_name(
            entries.bytes.as_mut_ptr(),
            entries.bytes.len(),
            &mut entries.count,
            name.as_ptr(),
            name.len(),
            &mut number,
        )
    };
    entries.put(names);
    unless_refused(refused, number as u32)
}
