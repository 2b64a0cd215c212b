//! Operands that identities look for: zeros, ones, and a node twice.

use super::parts::{flags, simplify};
use crate::palette::Palette;
use crate::random::Random;
use crate::sheet::{ADD, DIV, MOD, MUL, NEG, POW, SUB, Sheet};

pub fn sheet(random: &mut Random) -> Sheet {
    let palette = Palette::new(random);
    let mut sheet = Sheet::default();
    let mut top = palette.leaf(random, &mut sheet);
    for _ in 0..random.between(1, 10) {
        let operator = random.pick(&[ADD, SUB, MUL, DIV, POW, NEG, NEG, MOD]);
        let flags = flags(random);
        top = if operator == NEG {
            sheet.operator(NEG, flags, &[top])
        } else {
            let other = other_operand(random, &mut sheet, &palette, top);
            let operands = if random.once_in(2) { [top, other] } else { [other, top] };
            sheet.operator(operator, flags, &operands)
        };
        if random.once_in(3) {
            top = simplify(random, &mut sheet, top);
        }
    }
    top = simplify(random, &mut sheet, top);
    simplify(random, &mut sheet, top);
    sheet
}

fn other_operand(random: &mut Random, sheet: &mut Sheet, palette: &Palette, top: u16) -> u16 {
    match random.below(6) {
        0 | 1 => {
            let number = random.pick(&[0.0, -0.0, 1.0]);
            sheet.constant(number)
        }
        2 => top,
        3 => sheet.constant_bits(palette.constant(random)),
        _ => palette.leaf(random, sheet),
    }
}
