//! Chains of Adds of one to four children, pruned again and again.

use super::parts::{flags, operand, operands, prune, simplify};
use crate::palette::Palette;
use crate::random::Random;
use crate::sheet::{ADD, MUL, Sheet};

pub fn sheet(random: &mut Random) -> Sheet {
    let palette = Palette::new(random);
    let mut sheet = Sheet::default();
    for _ in 0..random.between(1, 8) {
        palette.leaf(random, &mut sheet);
    }
    for _ in 0..random.between(1, 8) {
        let count = random.pick(&[1, 2, 2, 2, 3, 4]);
        let operands = operands(random, &sheet, count);
        let operator = if random.once_in(6) { MUL } else { ADD };
        sheet.operator(operator, flags(random), &operands);
    }
    for _ in 0..random.between(1, 5) {
        let operand = operand(random, &sheet);
        if random.once_in(4) {
            simplify(random, &mut sheet, operand);
        } else {
            prune(random, &mut sheet, &palette, operand);
        }
    }
    sheet
}
