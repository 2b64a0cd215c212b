//! Functions and sums of every number of operands, to one more than a function takes.

use std::ops::RangeInclusive;

use curvalique::{NODE_WORDS, Refusal};

use crate::blocks::Blocks;
use crate::trial::{block, check};

const NODES: usize = 64;
const SLOTS: usize = 128;
const MOST_CHILDREN: usize = 16;
const ADD: u32 = 0;
const SUMMED: RangeInclusive<usize> = 1..=4;

/// An answer exactly if the number of operands is a right one, and then a node with these children.
fn check_answer(blocks: &mut Blocks, answer: Result<u32, Refusal>, operands: &[u32], is_right: bool) {
    check(answer.is_ok() == is_right, "the numbers of operands that a node takes");
    match answer {
        Ok(id) => {
            let node = blocks.call(|store| store.node(id));
            let children: Vec<u64> = operands.iter().map(|&id| id.into()).collect();
            check(node.is_ok_and(|node| node.children() == children), "the operands are the children");
        }
        Err(refusal) => check(refusal == Refusal::BAD_CHILD_COUNT, "6 for any other number"),
    }
}

pub fn try_operand_counts() {
    let mut blocks = Blocks::fresh(NODES * NODE_WORDS, SLOTS);
    let ids: Vec<u32> = (0..=MOST_CHILDREN as u32).collect();
    for &symbol in &ids {
        check(blocks.call(|store| store.variable(symbol)) == Ok(symbol), "a variable");
    }
    for count in 0..=ids.len() {
        let operands = block(&ids[..count]);
        let function = blocks.call(|store| store.function(1, &operands));
        check_answer(&mut blocks, function, &operands, count <= MOST_CHILDREN);
        let sum = blocks.call(|store| store.operator(ADD, 0, &operands));
        check_answer(&mut blocks, sum, &operands, SUMMED.contains(&count));
    }
}
