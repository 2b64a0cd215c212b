//! Lists for a reading: fresh or with names and nodes in them, ample, just
//! enough, one too few, or of any size; some damaged.

use checker::{LentNames, LentStore, NAME_BYTES, Step, TextLists, WORDS_PER_NODE, read_text, steps_of};
use generator::{Random, texts};

use crate::damage::damage;

/// The flags word of a node, and the mark in it.
const FLAGS_WORD: usize = 4;
const MARK: u64 = 4;
/// The least table.
const SLOTS: usize = 64;
/// One in this many lists is damaged.
const DAMAGED: usize = 32;

/// Sizes of lists.
#[derive(Clone, Copy)]
pub struct Sizes {
    pub nodes: usize,
    pub slots: usize,
    pub names: usize,
}

/// Lists of any content with an empty store and an empty name list.
pub fn fresh(random: &mut Random, sizes: Sizes) -> TextLists {
    // Some words past the last node.
    let words = sizes.nodes * WORDS_PER_NODE + random.below(WORDS_PER_NODE);
    let words = (0..words).map(|_| random.next()).collect();
    let slots = (0..sizes.slots).map(|_| random.next() as u32).collect();
    let mut entries = vec![[0; NAME_BYTES + 1]; sizes.names];
    for entry in &mut entries {
        entry.fill_with(|| random.next() as u8);
    }
    let store = LentStore::fresh(words, slots).expect("at least 64 slots");
    TextLists { store, names: LentNames { entries, count: 0 } }
}

/// Lists for a text, by a number of cases.
pub fn any(random: &mut Random, text: &[u8]) -> TextLists {
    let before: Vec<Vec<u8>> = (0..random.pick(&[0, 0, 1, 3])).map(|_| texts::short(random)).collect();
    let ample = ample(before.iter().map(|earlier| &earlier[..]).chain([text]));
    let sizes = match random.below(4) {
        0 => ample,
        1 => Sizes {
            nodes: random.between(0, ample.nodes),
            slots: SLOTS + random.below(ample.slots),
            names: random.between(0, ample.names),
        },
        _ => nearly_used(random, &before, text, ample),
    };
    let mut lists = fresh(random, sizes);
    for earlier in &before {
        let _ = read_text(&mut lists, earlier);
    }
    mark_some(random, &mut lists);
    if random.once_in(DAMAGED) {
        damage(random, &mut lists);
    }
    lists
}

/// Marks about a third of the nodes.
pub fn mark_some(random: &mut Random, lists: &mut TextLists) {
    for id in 0..lists.store.node_count as usize {
        if random.once_in(3) {
            lists.store.words[id * WORDS_PER_NODE + FLAGS_WORD] |= MARK;
        }
    }
}

/// Sizes that every one of the texts fits in, one after another.
pub fn ample<'a>(texts: impl Iterator<Item = &'a [u8]>) -> Sizes {
    let mut sizes = Sizes { nodes: 1, slots: SLOTS, names: 1 };
    for steps in texts.filter_map(|text| steps_of(text).ok()) {
        sizes.nodes += steps.len();
        sizes.names += steps.iter().filter(|step| matches!(step, Step::Variable(_))).count();
    }
    // A table that holds the nodes.
    sizes.slots = SLOTS.max((sizes.nodes * 10 / 7 + 1).next_power_of_two());
    sizes
}

/// As many of each as the texts use, or a little less or more of one.
fn nearly_used(random: &mut Random, before: &[Vec<u8>], text: &[u8], ample: Sizes) -> Sizes {
    let mut lists = fresh(random, ample);
    for text in before.iter().map(|earlier| &earlier[..]).chain([text]) {
        let _ = read_text(&mut lists, text);
    }
    let mut sizes = Sizes {
        nodes: lists.store.node_count as usize,
        slots: lists.store.table_size as usize,
        names: lists.names.count as usize,
    };
    match random.below(8) {
        0 | 1 => sizes.nodes = sizes.nodes.saturating_sub(random.between(1, 2)),
        2 | 3 => sizes.names = sizes.names.saturating_sub(random.between(1, 2)),
        4 => sizes.slots = SLOTS.max(sizes.slots - 1),
        5 => sizes.slots = SLOTS.max(sizes.slots / 2),
        6 => sizes.names += 1,
        _ => {}
    }
    sizes
}
