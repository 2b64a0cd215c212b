//! Operands, flags and limits that all families pick alike.

use crate::palette::Palette;
use crate::random::Random;
use crate::sheet::{ADD, MUL, NEG, Sheet};

/// A budget that covers what a walk in these families mostly needs.
pub const BUDGET: u32 = 20_000;
/// A depth limit that no formula of a common sheet reaches.
pub const DEPTH_MAXIMUM: u8 = 255;

/// The most arguments of a function (02 g).
pub const ARGUMENTS_MAXIMUM: usize = 16;

/// An earlier record, half the time one of the last four.
pub fn operand(random: &mut Random, sheet: &Sheet) -> u16 {
    let count = sheet.len();
    let index = if random.once_in(2) { count - 1 - random.below(count.min(4)) } else { random.below(count) };
    index as u16
}

pub fn operands(random: &mut Random, sheet: &Sheet, count: usize) -> Vec<u16> {
    (0..count).map(|_| operand(random, sheet)).collect()
}

/// Flags 0 or 3 mostly, else any of 0 to 3.
pub fn flags(random: &mut Random) -> u8 {
    random.pick(&[0, 3, 3, 0, 3, 0, 1, 2])
}

/// A child count that the operator takes, mostly two.
pub fn child_count(random: &mut Random, operator: u8) -> usize {
    match operator {
        NEG => 1,
        ADD | MUL if random.once_in(3) => random.between(1, 4),
        _ => 2,
    }
}

/// A number of arguments that a function takes, half the time more than four.
pub fn argument_count(random: &mut Random) -> usize {
    if random.once_in(2) { random.between(0, 4) } else { random.between(5, ARGUMENTS_MAXIMUM) }
}

/// Arguments of any number from one on: one record among others that are a second.
pub fn arguments_around(random: &mut Random, one: u16, other: u16) -> Vec<u16> {
    let mut arguments = vec![other; argument_count(random).max(1)];
    let place = random.below(arguments.len());
    arguments[place] = one;
    arguments
}

pub fn depth_limit(random: &mut Random) -> u8 {
    match random.below(6) {
        0 => random.below(5) as u8,
        1 => random.next() as u8,
        _ => DEPTH_MAXIMUM,
    }
}

pub fn simplify(random: &mut Random, sheet: &mut Sheet, operand: u16) -> u16 {
    let depth_limit = depth_limit(random);
    sheet.simplify(operand, depth_limit, BUDGET)
}

pub fn prune(random: &mut Random, sheet: &mut Sheet, palette: &Palette, operand: u16) -> u16 {
    let threshold = palette.threshold(random);
    sheet.prune(operand, threshold)
}
