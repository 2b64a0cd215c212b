//! Sums of 4,096 terms, and of more.

use curvalique::{NODE_WORDS, Refusal};

use crate::blocks::Blocks;
use crate::trial::check;

const NODES: usize = 64;
const SLOTS: usize = 128;
const MOST_TERMS: u64 = 4_096;

/// The sum of a node with itself.
fn doubled(blocks: &mut Blocks, a: u32) -> u32 {
    let sum = blocks.call(|store| store.add(a, a));
    check(sum.is_ok(), "a sum");
    sum.unwrap_or(a)
}

pub fn try_long_chains() {
    let mut blocks = Blocks::fresh(NODES * NODE_WORDS, SLOTS);
    check(blocks.call(|store| store.variable(1)) == Ok(0), "a variable");
    let most = (0..MOST_TERMS.ilog2()).fold(0, |term, _| doubled(&mut blocks, term));
    let more = doubled(&mut blocks, most);
    let before = blocks.copy();
    check(blocks.call(|store| store.prune(more, 0.0)) == Err(Refusal::TOO_MANY_TERMS), "8,192 terms");
    check(before == blocks, "23 changes nothing");
    let pruned = blocks.call(|store| store.prune(most, 0.0)).map(|answer| (answer.id, answer.kept, answer.dropped));
    check(pruned == Ok((most, MOST_TERMS, 0)), "the balanced sum of 4,096 terms is there already");
}
