//! Damage to lent lists.

use checker::{LentNames, LentStore, NAME_BYTES, TextLists, WORDS_PER_NODE};
use generator::Random;

/// Changes the store, the name list or both.
pub fn damage(random: &mut Random, lists: &mut TextLists) {
    let both = random.once_in(8);
    let names = random.once_in(3);
    if both || !names {
        damage_store(random, &mut lists.store);
    }
    if both || names {
        damage_names(random, &mut lists.names);
    }
}

/// Changes a word, a slot, the order of two slots or a count.
fn damage_store(random: &mut Random, store: &mut LentStore) {
    let used = (store.node_count as usize).saturating_mul(WORDS_PER_NODE);
    match random.below(9) {
        0 => {
            store.node_count =
                random.pick(&[0, store.node_count.wrapping_add(1), store.node_count.wrapping_sub(1), u64::MAX])
        }
        1 => store.table_size = random.pick(&[0, 1, 63, 64, 65, 128, 256, store.table_size.wrapping_mul(2), u64::MAX]),
        2 | 3 if !store.slots.is_empty() => {
            let at = random.below(store.slots.len());
            store.slots[at] =
                random.pick(&[0, 1, 2, store.node_count as u32, (store.node_count as u32).wrapping_add(1), u32::MAX]);
        }
        4 => exchange_neighbours(random, store),
        _ if used > 0 && used <= store.words.len() => {
            let at = random.below(used);
            let old = store.words[at];
            store.words[at] = random.pick(&[0, 1, 2, 4, old ^ 1, old ^ 4, old.wrapping_add(1), u64::MAX, 1 << 32]);
        }
        _ => {}
    }
}

/// Exchanges a slot in use and the next one in use: of colliding ids both
/// are still met, in another order.
fn exchange_neighbours(random: &mut Random, store: &mut LentStore) {
    let size = store.slots.len().min(store.table_size as usize);
    let used: Vec<usize> = (0..size).filter(|&at| store.slots[at] != 0).collect();
    if used.len() >= 2 {
        let first = random.below(used.len() - 1);
        store.slots.swap(used[first], used[first + 1]);
    }
}

/// Changes a byte, an entry or the count.
fn damage_names(random: &mut Random, names: &mut LentNames) {
    if names.entries.is_empty() || random.once_in(4) {
        names.count =
            random.pick(&[0, 1, names.count.wrapping_add(1), names.entries.len() as u64 + 1, 4_097, u64::MAX]);
        return;
    }
    // Mostly a used entry.
    let entry = random.below(names.entries.len().min((names.count as usize).saturating_add(1)));
    if random.once_in(4) {
        names.entries[entry] = names.entries[random.below(entry + 1)];
        return;
    }
    let at = random.below(NAME_BYTES + 1);
    names.entries[entry][at] = random.pick(&[0, 1, 32, 33, 65, 255]);
}
