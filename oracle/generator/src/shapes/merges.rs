//! Constants around sums and products, which merge.

use super::parts::{flags, prune, simplify};
use crate::palette::Palette;
use crate::random::Random;
use crate::sheet::{ADD, MUL, Sheet};

pub fn sheet(random: &mut Random) -> Sheet {
    let palette = Palette::new(random);
    let mut sheet = Sheet::default();
    let mut top = sheet.variable(random.pick(&palette.symbols));
    let mut operator = random.pick(&[ADD, MUL]);
    for _ in 0..random.between(1, 8) {
        if random.once_in(4) {
            operator = random.pick(&[ADD, MUL]);
        }
        let constant = sheet.constant_bits(palette.constant(random));
        top = with_constant(random, &mut sheet, operator, top, constant);
        if random.once_in(3) {
            top = simplify(random, &mut sheet, top);
        }
    }
    top = simplify(random, &mut sheet, top);
    simplify(random, &mut sheet, top);
    if random.once_in(2) {
        prune(random, &mut sheet, &palette, top);
    }
    sheet
}

/// The constant on either side; sometimes a third operand, which never merges.
fn with_constant(random: &mut Random, sheet: &mut Sheet, operator: u8, top: u16, constant: u16) -> u16 {
    let flags = flags(random);
    match random.below(16) {
        0 => sheet.operator(operator, flags, &[top, constant, top]),
        1 => sheet.operator(operator, flags, &[constant]),
        2 => sheet.operator(operator, flags, &[top, top]),
        3..=8 => sheet.operator(operator, flags, &[constant, top]),
        _ => sheet.operator(operator, flags, &[top, constant]),
    }
}
