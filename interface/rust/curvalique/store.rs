//! A store in lent lists: store calls, simplify and prune.

use crate::refusal::answered;
use crate::{NODE_WORDS, Names, Refusal, raw};

/// The words of a node before its children's.
const FIRST_CHILD: usize = 6;
/// The places for children in a node's words, at their end.
const CHILD_PLACES: usize = NODE_WORDS - FIRST_CHILD;

/// A store and the lists beside it. Lists and numbers may hold anything: every call looks over what it takes first and
/// refuses what is not sound. Without `lend_names` its name list has no places.
#[non_exhaustive]
pub struct Store<'lent> {
    pub nodes: &'lent mut [u64],
    pub slots: &'lent mut [u32],
    pub count: u64,
    pub size: usize,
    pub names: Names<'lent>,
}

/// A node as it is read back.
#[derive(Clone, Copy, PartialEq, Eq, Debug)]
#[non_exhaustive]
pub struct Node {
    pub kind: u64,
    pub payload: u64,
    pub hash: u64,
    pub coefficient: u64,
    pub flags: u64,
    child_count: u64,
    child_places: [u64; CHILD_PLACES],
}

impl Node {
    /// A node from the words that the library wrote of it.
    pub(crate) fn from_words(words: &[u64; NODE_WORDS]) -> Self {
        let [kind, payload, hash, coefficient, flags, child_count, child_places @ ..] = *words;
        Self { kind, payload, hash, coefficient, flags, child_count, child_places }
    }

    pub fn children(&self) -> &[u64] {
        &self.child_places[..self.child_count as usize]
    }
}

/// What a simplify answers.
#[derive(Clone, Copy, PartialEq, Eq, Debug)]
#[non_exhaustive]
pub struct Simplified {
    pub id: u32,
    pub spent: bool,
    pub steps: u64,
}

/// What a prune answers.
#[derive(Clone, Copy, PartialEq, Eq, Debug)]
#[non_exhaustive]
pub struct Pruned {
    pub id: u32,
    pub kept: u64,
    pub dropped: u64,
}

/// Calls a function on the store, and gives what it returns.
macro_rules! call {
    ($store:ident, $function:ident, $($argument:expr),*) => {
        // SAFETY: the lists and numbers are borrowed for the call, with their lengths, and apart from the answers.
        unsafe {
            raw::$function(
                $store.nodes.as_mut_ptr(), $store.nodes.len(), $store.slots.as_mut_ptr(), $store.slots.len(),
                &mut $store.count, &mut $store.size, $($argument),*
            )
        }
    };
}

/// Calls a function that answers an id.
macro_rules! call_for_id {
    ($store:ident, $function:ident, $($argument:expr),*) => {{
        let mut id = 0;
        let returned = call!($store, $function, $($argument,)* &mut id);
        answered(returned, id as u32)
    }};
}

impl<'lent> Store<'lent> {
    /// A fresh store, without names.
    pub fn fresh(nodes: &'lent mut [u64], slots: &'lent mut [u32]) -> Result<Self, Refusal> {
        let mut store = Self::lent(nodes, slots, 0, 0);
        let returned = call!(store, curvalique_fresh,);
        answered(returned, store)
    }

    /// A store in lists that have been used before, with the numbers that it had then; without names.
    pub fn lent(nodes: &'lent mut [u64], slots: &'lent mut [u32], count: u64, size: usize) -> Self {
        Self { nodes, slots, count, size, names: Names::default() }
    }

    /// Lends the store a list for names, which is empty then.
    pub fn lend_names(&mut self, entries: &'lent mut [u8]) {
        self.names = Names::lent(entries, 0);
    }

    pub fn variable(&mut self, symbol: u32) -> Result<u32, Refusal> {
        call_for_id!(self, curvalique_variable, symbol)
    }

    pub fn constant(&mut self, value: f64) -> Result<u32, Refusal> {
        call_for_id!(self, curvalique_constant, value.to_bits())
    }

    pub fn add(&mut self, a: u32, b: u32) -> Result<u32, Refusal> {
        call_for_id!(self, curvalique_add, a, b)
    }

    pub fn sub(&mut self, a: u32, b: u32) -> Result<u32, Refusal> {
        call_for_id!(self, curvalique_sub, a, b)
    }

    pub fn mul(&mut self, a: u32, b: u32) -> Result<u32, Refusal> {
        call_for_id!(self, curvalique_mul, a, b)
    }

    pub fn div(&mut self, a: u32, b: u32) -> Result<u32, Refusal> {
        call_for_id!(self, curvalique_div, a, b)
    }

    pub fn pow(&mut self, a: u32, b: u32) -> Result<u32, Refusal> {
        call_for_id!(self, curvalique_pow, a, b)
    }

    pub fn modulo(&mut self, a: u32, b: u32) -> Result<u32, Refusal> {
        call_for_id!(self, curvalique_modulo, a, b)
    }

    pub fn neg(&mut self, a: u32) -> Result<u32, Refusal> {
        call_for_id!(self, curvalique_neg, a)
    }

    pub fn operator(&mut self, code: u32, flags: u32, operands: &[u32]) -> Result<u32, Refusal> {
        call_for_id!(self, curvalique_operator, code, flags, operands.as_ptr(), operands.len())
    }

    pub fn function(&mut self, number: u32, operands: &[u32]) -> Result<u32, Refusal> {
        call_for_id!(self, curvalique_function, number, operands.as_ptr(), operands.len())
    }

    pub fn select(&mut self, condition: u32, a: u32, b: u32) -> Result<u32, Refusal> {
        call_for_id!(self, curvalique_select, condition, a, b)
    }

    pub fn if_else(&mut self, condition: u32, a: u32, b: u32) -> Result<u32, Refusal> {
        call_for_id!(self, curvalique_if_else, condition, a, b)
    }

    pub fn for_loop(&mut self, start: u32, limit: u32, step: u32, body: u32) -> Result<u32, Refusal> {
        call_for_id!(self, curvalique_for_loop, start, limit, step, body)
    }

    pub fn control(&mut self, code: u32, operands: &[u32]) -> Result<u32, Refusal> {
        call_for_id!(self, curvalique_control, code, operands.as_ptr(), operands.len())
    }

    /// Reads a node back.
    pub fn node(&self, id: u32) -> Result<Node, Refusal> {
        let mut words = [0; NODE_WORDS];
        // SAFETY: the lists are borrowed for the call, with their lengths.
        let returned = unsafe {
            raw::curvalique_node(
                self.nodes.as_ptr(),
                self.nodes.len(),
                self.slots.as_ptr(),
                self.slots.len(),
                self.count,
                self.size,
                id,
                &mut words,
            )
        };
        answered(returned, Node::from_words(&words))
    }

    pub fn simplify(&mut self, root: u32, depth: u32, budget: u64) -> Result<Simplified, Refusal> {
        let (mut id, mut spent, mut steps) = (0, 0, 0);
        let returned = call!(self, curvalique_simplify, root, depth, budget, &mut id, &mut spent, &mut steps);
        answered(returned, Simplified { id: id as u32, spent: spent != 0, steps })
    }

    pub fn simplify_strictly(&mut self, root: u32, depth: u32, budget: u64) -> Result<Simplified, Refusal> {
        let (mut id, mut spent, mut steps) = (0, 0, 0);
        let returned = call!(self, curvalique_simplify_strictly, root, depth, budget, &mut id, &mut spent, &mut steps);
        answered(returned, Simplified { id: id as u32, spent: spent != 0, steps })
    }

    pub fn prune(&mut self, root: u32, threshold: f64) -> Result<Pruned, Refusal> {
        let (mut id, mut kept, mut dropped) = (0, 0, 0);
        let returned = call!(self, curvalique_prune, root, threshold.to_bits(), &mut id, &mut kept, &mut dropped);
        answered(returned, Pruned { id: id as u32, kept, dropped })
    }

    pub fn prune_by_setting(&mut self, root: u32, setting: u32) -> Result<Pruned, Refusal> {
        let (mut id, mut kept, mut dropped) = (0, 0, 0);
        let returned = call!(self, curvalique_prune_by_setting, root, setting, &mut id, &mut kept, &mut dropped);
        answered(returned, Pruned { id: id as u32, kept, dropped })
    }
}
