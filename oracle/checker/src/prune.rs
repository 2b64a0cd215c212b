//! Pruning a chain of Adds (01, "simplifier: pruning").

use crate::node::{Kind, Operator};
use crate::refusal::Refusal;
use crate::store::Store;

/// The most terms of a chain.
pub const TERMS_MAXIMUM: usize = 4_096;

/// The answer of a prune that is not refused.
#[derive(Clone, Copy, Debug, PartialEq, Eq)]
pub struct Pruned {
    pub id: u32,
    pub kept: u32,
    pub dropped: u32,
}

/// Prunes the chain under `root`, which is below the node count, at a
/// threshold that is no NaN and has no sign bit.
pub fn prune(store: &mut Store, root: u32, threshold: f64) -> Result<Pruned, Refusal> {
    if !is_add(store, root) {
        return Ok(Pruned { id: root, kept: 1, dropped: 0 });
    }
    if term_counts(store, root)[root as usize] > TERMS_MAXIMUM {
        return Err(Refusal::TooManyTerms);
    }
    let mut terms = Vec::new();
    flatten(store, root, &mut terms);
    let chain_length = terms.len();
    terms.retain(|&term| magnitude(store, term) >= threshold);
    let id = if terms.is_empty() { store.constant(0.0_f64.to_bits())? } else { balanced_sum(store, &terms)? };
    let kept = terms.len() as u32;
    Ok(Pruned { id, kept, dropped: chain_length as u32 - kept })
}

fn is_add(store: &Store, id: u32) -> bool {
    store.node(id).kind == Kind::Operator(Operator::Add)
}

/// The number of terms of each node up to `root`, a shared one counted each
/// time it is met, and all counts over the maximum taken as one above it.
fn term_counts(store: &Store, root: u32) -> Vec<usize> {
    let mut counts: Vec<usize> = Vec::with_capacity(root as usize + 1);
    for id in 0..=root {
        let count = if is_add(store, id) {
            store.node(id).children.ids().iter().map(|&child| counts[child as usize]).sum()
        } else {
            1
        };
        counts.push(count.min(TERMS_MAXIMUM + 1));
    }
    counts
}

/// Appends the terms under `id`, left to right.
fn flatten(store: &Store, id: u32, terms: &mut Vec<u32>) {
    if is_add(store, id) {
        for &child in store.node(id).children.ids() {
            flatten(store, child, terms);
        }
    } else {
        terms.push(id);
    }
}

/// "Constant: |v|; other: 1.0."
fn magnitude(store: &Store, id: u32) -> f64 {
    store.node(id).constant_value().map_or(1.0, f64::abs)
}

/// The one term, or halves split at floor(n/2), left first.
fn balanced_sum(store: &mut Store, terms: &[u32]) -> Result<u32, Refusal> {
    if let &[term] = terms {
        return Ok(term);
    }
    let (first, second) = terms.split_at(terms.len() / 2);
    let left = balanced_sum(store, first)?;
    let right = balanced_sum(store, second)?;
    store.add(left, right)
}
