//! A record with some of the faults that 01 numbers 2 and 4 to 7, often more
//! than one, for the order of the refusals.

use crate::random::Random;
use crate::shapes::{ARGUMENTS_MAXIMUM, argument_count};

/// One in this many fields is faulty.
const FAULTY: usize = 3;
const SIGN: u64 = 1 << 63;
const INFINITY: u64 = 0x7FF0_0000_0000_0000;

/// The body of a record that stands at this index.
pub fn body(random: &mut Random, index: usize) -> Vec<u8> {
    let mut body = match random.below(5) {
        0 => operator(random, index),
        1 => function(random, index),
        2 => control(random, index),
        3 => simplify(random, index),
        _ => prune(random, index),
    };
    if random.once_in(12) {
        body.push(0);
    }
    body
}

fn operator(random: &mut Random, index: usize) -> Vec<u8> {
    let number = field(random, 6);
    let flags = field(random, 3);
    let count = match number {
        6 => 1,
        _ => 2,
    };
    with_operands(random, vec![3, number, flags], count, index)
}

fn function(random: &mut Random, index: usize) -> Vec<u8> {
    let count = argument_count(random);
    with_operands(random, vec![4, 0, 0, 0, 1], count, index)
}

fn control(random: &mut Random, index: usize) -> Vec<u8> {
    let number = field(random, 2);
    with_operands(random, vec![5, number], if number == 2 { 4 } else { 3 }, index)
}

fn simplify(random: &mut Random, index: usize) -> Vec<u8> {
    let mut body = with_operand(random, vec![6], index);
    body.extend([random.next() as u8, 0, 0, 0, 50]);
    body
}

fn prune(random: &mut Random, index: usize) -> Vec<u8> {
    let mut body = with_operand(random, vec![7], index);
    let threshold = match random.below(2 * FAULTY) {
        0 => random.pick(&[SIGN, SIGN | INFINITY, SIGN | 1]),
        1 => INFINITY + random.between(1, 9) as u64,
        _ => random.pick(&[0, 1, INFINITY]),
    };
    body.extend(threshold.to_be_bytes());
    body
}

/// A number up to `last`, or a faulty one above it.
fn field(random: &mut Random, last: u8) -> u8 {
    if random.once_in(FAULTY) { random.pick(&[last + 1, 255]) } else { random.below(usize::from(last) + 1) as u8 }
}

/// So many operands, or a faulty number of them.
fn with_operands(random: &mut Random, mut body: Vec<u8>, count: usize, index: usize) -> Vec<u8> {
    let count = if random.once_in(FAULTY) {
        random.pick(&[0, 1, 3, 5, ARGUMENTS_MAXIMUM, ARGUMENTS_MAXIMUM + 1, 300])
    } else {
        count
    };
    for _ in 0..count {
        body = with_operand(random, body, index);
    }
    body
}

/// An earlier record, or one that is not.
fn with_operand(random: &mut Random, mut body: Vec<u8>, index: usize) -> Vec<u8> {
    let later = index == 0 || random.once_in(2 * FAULTY);
    let operand = if later { random.pick(&[index, index + 1, 65_535]) } else { random.below(index) };
    body.extend((operand as u16).to_be_bytes());
    body
}
