//! A lent store, as the checker has it, handed to the port.

use checker::LentStore;

use crate::interface::curvalique_fresh;
use crate::unless_refused;

/// The counts of a store, which a call takes and gives back.
pub struct Counts {
    pub count: u64,
    pub size: usize,
}

impl Counts {
    pub fn of(store: &LentStore) -> Counts {
        Counts { count: store.node_count, size: store.table_size as usize }
    }

    pub fn put(&self, store: &mut LentStore) {
        store.node_count = self.count;
        store.table_size = self.size as u64;
    }
}

/// A fresh store on these lists, by the port.
pub fn fresh(words: Vec<u64>, mut slots: Vec<u32>) -> Result<LentStore, u64> {
    let mut counts = Counts { count: 0, size: 0 };
    let number = unsafe {
        curvalique_fresh(
            words.as_ptr(),
            words.len(),
            slots.as_mut_ptr(),
            slots.len(),
            &mut counts.count,
            &mut counts.size,
        )
    };
    let mut store = LentStore { words, slots, node_count: 0, table_size: 0 };
    counts.put(&mut store);
    unless_refused(number, store)
}
