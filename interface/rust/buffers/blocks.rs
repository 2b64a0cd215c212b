//! A store in blocks of exactly the lent lengths.

use curvalique::{NODE_WORDS, Names, Refusal, Store};

use crate::trial::{Trial, UNTOUCHED, UNTOUCHED_SLOT, block, check, filled_block};

pub const FIRST_SIZE: usize = 64;

#[derive(PartialEq, Eq)]
pub struct Blocks {
    pub nodes: Box<[u64]>,
    pub slots: Box<[u32]>,
    pub count: u64,
    pub size: usize,
}

impl Blocks {
    /// A fresh store, in untouched memory.
    pub fn fresh(node_words: usize, slot_count: usize) -> Self {
        let mut nodes = filled_block(UNTOUCHED, node_words);
        let mut slots = filled_block(UNTOUCHED_SLOT, slot_count);
        let (count, size) = match Store::fresh(&mut nodes, &mut slots) {
            Ok(store) => (store.count, store.size),
            Err(_) => (UNTOUCHED, 0),
        };
        check(count == 0 && size == FIRST_SIZE, "a fresh store");
        Self { nodes, slots, count, size }
    }

    /// A copy with the same numbers, its lists cut to these lengths.
    pub fn cut_to(&self, node_words: usize, slot_count: usize) -> Self {
        let (nodes, slots) = (block(&self.nodes[..node_words]), block(&self.slots[..slot_count]));
        Self { nodes, slots, count: self.count, size: self.size }
    }

    pub fn copy(&self) -> Self {
        self.cut_to(self.nodes.len(), self.slots.len())
    }

    /// A copy, cut at random places or not at all, with none to two damages.
    pub fn damaged_copy(&self, trial: &mut Trial) -> Self {
        let node_words = trial.cut_length(self.nodes.len());
        let slot_count = trial.cut_length(self.slots.len());
        let mut copy = self.cut_to(node_words, slot_count);
        for _ in 0..trial.damages() {
            copy.damage(trial);
        }
        copy
    }

    fn damage(&mut self, trial: &mut Trial) {
        match trial.below(6) {
            0 => damage_one(trial, &mut self.nodes, |word| word),
            1 => damage_one(trial, &mut self.slots, |word| word as u32),
            2 => self.count = trial.any_word(),
            3 => self.size = trial.any_word() as usize,
            4 => self.count = self.count.wrapping_add(trial.below(3)).wrapping_sub(1),
            _ => self.size = 1 << trial.below(64),
        }
    }

    /// Calls the library on this store.
    pub fn call<T>(&mut self, call: impl FnOnce(&mut Store) -> T) -> T {
        self.call_with_names(&mut Names::default(), call)
    }

    /// Calls the library on this store and a name list.
    pub fn call_with_names<T>(&mut self, names: &mut Names, call: impl FnOnce(&mut Store) -> T) -> T {
        let mut store = Store::lent(&mut self.nodes, &mut self.slots, self.count, self.size);
        store.names = Names::lent(&mut *names.entries, names.count);
        let answer = call(&mut store);
        names.count = store.names.count;
        (self.count, self.size) = (store.count, store.size);
        answer
    }

    /// Whether the library takes the store for sound.
    pub fn is_sound(&mut self) -> bool {
        self.call(|store| store.node(0)) != Err(Refusal::NOT_SOUND)
    }

    /// Whether the words and slots past the used ones are as they were.
    pub fn stays_past(&self, before: &Self) -> bool {
        let used = self.count as usize * NODE_WORDS;
        self.nodes[used..] == before.nodes[used..] && self.slots[self.size..] == before.slots[self.size..]
    }
}

/// Writes any number over one element of a list.
fn damage_one<T>(trial: &mut Trial, list: &mut [T], cut: fn(u64) -> T) {
    if !list.is_empty() {
        let place = trial.place(list.len());
        list[place] = cut(trial.any_word());
    }
}
