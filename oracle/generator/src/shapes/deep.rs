//! Formulas of many levels, walked at depth limits near their depth.

use super::parts::{BUDGET, arguments_around, simplify};
use crate::palette::Palette;
use crate::random::Random;
use crate::sheet::{ADD, DIV, MOD, MUL, NEG, SUB, Sheet};

const LEVELS_MAXIMUM: usize = 60;

pub fn sheet(random: &mut Random) -> Sheet {
    let palette = Palette::new(random);
    let mut sheet = Sheet::default();
    let count = random.between(1, LEVELS_MAXIMUM);
    let top = levels(random, &mut sheet, &palette, count);
    let depth_limit = (count + 2).saturating_sub(random.below(6)) as u8;
    let answer = sheet.simplify(top, depth_limit, BUDGET);
    simplify(random, &mut sheet, answer);
    simplify(random, &mut sheet, top);
    sheet
}

/// This many levels over a leaf, each with the one below as one child.
pub fn levels(random: &mut Random, sheet: &mut Sheet, palette: &Palette, count: usize) -> u16 {
    let mut top = palette.leaf(random, sheet);
    let leaf = palette.leaf(random, sheet);
    for _ in 0..count {
        let function = random.pick(&palette.functions);
        top = match random.below(8) {
            0 => sheet.operator(NEG, 0, &[top]),
            1 => sheet.function(function, &[top]),
            2 => {
                let arguments = arguments_around(random, top, leaf);
                sheet.function(function, &arguments)
            }
            3 => sheet.operator(ADD, 0, &[leaf, leaf, top]),
            _ => {
                let operator = random.pick(&[ADD, SUB, MUL, DIV, MOD]);
                let operands = if random.once_in(2) { [top, leaf] } else { [leaf, top] };
                sheet.constructed(operator, operands[0], operands[1])
            }
        };
    }
    top
}
