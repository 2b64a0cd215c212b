//! The laboratory's evaluation (02 i): binary64, several operands left to
//! right, all NaNs counted as one; Pow, Mod, functions and controls are some
//! function of the kind, the payload and the arguments' bits.

use crate::node::{Kind, Node, Operator};
use crate::run::Run;

/// Bits that variables and functions often have: zeros, ones, infinities,
/// NaNs of several patterns, the least and the greatest numbers.
const OFTEN: [u64; 14] = [
    0,
    0x8000_0000_0000_0000,
    0x3FF0_0000_0000_0000,
    0xBFF0_0000_0000_0000,
    0x7FF0_0000_0000_0000,
    0xFFF0_0000_0000_0000,
    0x7FF8_0000_0000_0000,
    0xFFF8_0000_0000_0001,
    0x7FF0_0000_0000_0001,
    1,
    0x8000_0000_0000_0001,
    0x000F_FFFF_FFFF_FFFF,
    0x7FEF_FFFF_FFFF_FFFF,
    0x3FE0_0000_0000_0001,
];

/// The bits that stand for every NaN.
const ONE_NAN: u64 = 0x7FF8_0000_0000_0000;

/// Values tried for each sheet.
const TRIALS: u64 = 16;

/// A strict walk of this run whose answer has other bits than its root, for
/// some values of variables and functions: its root and its answer.
pub fn unequal_walk(run: &Run, seed: u64) -> Option<(u32, u32)> {
    if run.strict_walks.is_empty() {
        return None;
    }
    (0..TRIALS).find_map(|trial| {
        let bits = values(run.store.nodes(), seed.wrapping_mul(TRIALS).wrapping_add(trial));
        run.strict_walks.iter().copied().find(|&(root, answer)| bits[root as usize] != bits[answer as usize])
    })
}

/// The bits of each node, by rising id, so after its children's.
fn values(nodes: &[Node], trial: u64) -> Vec<u64> {
    let mut bits: Vec<u64> = Vec::with_capacity(nodes.len());
    for node in nodes {
        let operands: Vec<f64> = node.children.ids().iter().map(|&id| f64::from_bits(bits[id as usize])).collect();
        bits.push(one_nan(value(node, &operands, trial)));
    }
    bits
}

fn value(node: &Node, operands: &[f64], trial: u64) -> f64 {
    match (node.kind, operands) {
        (Kind::Constant, _) => f64::from_bits(node.payload),
        (Kind::Operator(Operator::Add), &[first, ref rest @ ..]) => rest.iter().fold(first, |sum, term| sum + term),
        (Kind::Operator(Operator::Mul), &[first, ref rest @ ..]) => {
            rest.iter().fold(first, |product, factor| product * factor)
        }
        (Kind::Operator(Operator::Sub), &[left, right]) => left - right,
        (Kind::Operator(Operator::Div), &[left, right]) => left / right,
        (Kind::Operator(Operator::Neg), &[operand]) => -operand,
        _ => f64::from_bits(drawn(node, operands, trial)),
    }
}

/// Some bits, the same for the same kind, payload and arguments.
fn drawn(node: &Node, operands: &[f64], trial: u64) -> u64 {
    let mut mixed = mix(trial) ^ mix(node.kind.code()) ^ mix(node.payload.wrapping_add(1 << 40));
    for &operand in operands {
        mixed = mix(mixed ^ one_nan(operand));
    }
    let mixed = mix(mixed);
    match mixed % 3 {
        0 => OFTEN[(mixed / 3) as usize % OFTEN.len()],
        1 => ((mixed / 3 % 2048) as f64 / 16.0 - 64.0).to_bits(),
        _ => mix(mixed),
    }
}

fn one_nan(value: f64) -> u64 {
    if value.is_nan() { ONE_NAN } else { value.to_bits() }
}

fn mix(bits: u64) -> u64 {
    let mut mixed = bits.wrapping_add(0x9E37_79B9_7F4A_7C15);
    mixed = (mixed ^ (mixed >> 30)).wrapping_mul(0xBF58_476D_1CE4_E5B9);
    mixed = (mixed ^ (mixed >> 27)).wrapping_mul(0x94D0_49BB_1331_11EB);
    mixed ^ (mixed >> 31)
}
