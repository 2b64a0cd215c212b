//! All sheets of a small family: three leaves, a node over the first two, a
//! node over that and the leaves, then two simplifies and a prune.

use crate::sheet::{ADD, DIV, MOD, MUL, NEG, POW, SUB, Sheet};

const LEAVES: usize = 8;
/// Operator and flags.
const OPERATORS: [(u8, u8); 8] = [(ADD, 3), (ADD, 0), (SUB, 0), (MUL, 3), (MUL, 0), (DIV, 0), (POW, 0), (MOD, 0)];
const UNARY_OPERATORS: [(u8, u8); 3] = [(NEG, 0), (ADD, 3), (MUL, 0)];
/// Operands of the inner node, and of the outer one (record 3 is the inner).
const INNER_OPERANDS: [[u16; 2]; 2] = [[0, 1], [0, 0]];
const OUTER_OPERANDS: [[u16; 2]; 5] = [[3, 2], [2, 3], [3, 3], [3, 0], [0, 3]];

const INNER: usize = OPERATORS.len() * INNER_OPERANDS.len() + UNARY_OPERATORS.len();
const OUTER: usize = OPERATORS.len() * OUTER_OPERANDS.len() + UNARY_OPERATORS.len();

/// The number of sheets in the family.
pub const COUNT: u64 = (LEAVES * LEAVES * LEAVES * INNER * OUTER) as u64;

/// The sheet with this number, taken modulo the number of sheets.
pub fn sheet(number: u64) -> Sheet {
    let mut rest = (number % COUNT) as usize;
    let mut digit = |base: usize| {
        let digit = rest % base;
        rest /= base;
        digit
    };
    let mut sheet = Sheet::default();
    for _ in 0..3 {
        leaf(&mut sheet, digit(LEAVES));
    }
    node(&mut sheet, digit(INNER), &INNER_OPERANDS, 0);
    let root = node(&mut sheet, digit(OUTER), &OUTER_OPERANDS, 3);
    let answer = sheet.simplify(root, 255, 1_000);
    let again = sheet.simplify(answer, 255, 1_000);
    sheet.prune(again, 1.25);
    sheet
}

fn leaf(sheet: &mut Sheet, choice: usize) -> u16 {
    match choice {
        0 => sheet.variable(0),
        1 => sheet.variable(1),
        2 => sheet.constant(0.0),
        3 => sheet.constant(-0.0),
        4 => sheet.constant(1.0),
        5 => sheet.constant(-1.5),
        6 => sheet.constant(3.0),
        _ => sheet.constant(f64::INFINITY),
    }
}

fn node(sheet: &mut Sheet, choice: usize, pairs: &[[u16; 2]], single: u16) -> u16 {
    if let Some(unary) = choice.checked_sub(OPERATORS.len() * pairs.len()) {
        let (operator, flags) = UNARY_OPERATORS[unary];
        return sheet.operator(operator, flags, &[single]);
    }
    let (operator, flags) = OPERATORS[choice % OPERATORS.len()];
    sheet.operator(operator, flags, &pairs[choice / OPERATORS.len()])
}
