//! Every kind of record over any earlier ones.

use super::parts::{argument_count, child_count, flags, operand, operands, prune, simplify};
use crate::palette::Palette;
use crate::random::Random;
use crate::sheet::{ADD, DIV, MOD, MUL, NEG, POW, SUB, Sheet};

pub fn sheet(random: &mut Random) -> Sheet {
    let palette = Palette::new(random);
    let mut sheet = Sheet::default();
    let count = if random.once_in(10) { random.between(40, 120) } else { random.between(0, 30) };
    while sheet.len() < count {
        record(random, &mut sheet, &palette);
    }
    sheet
}

fn record(random: &mut Random, sheet: &mut Sheet, palette: &Palette) -> u16 {
    if sheet.len() == 0 {
        return palette.leaf(random, sheet);
    }
    match random.below(100) {
        0..20 => palette.leaf(random, sheet),
        20..60 => {
            let operator = random.pick(&[ADD, ADD, SUB, MUL, MUL, DIV, POW, MOD, NEG]);
            let count = child_count(random, operator);
            let operands = operands(random, sheet, count);
            sheet.operator(operator, flags(random), &operands)
        }
        60..68 => {
            let count = argument_count(random);
            let operands = operands(random, sheet, count);
            sheet.function(random.pick(&palette.functions), &operands)
        }
        68..74 => {
            let control = random.below(3) as u8;
            let operands = operands(random, sheet, if control == 2 { 4 } else { 3 });
            sheet.control(control, &operands)
        }
        74..90 => {
            let operand = operand(random, sheet);
            simplify(random, sheet, operand)
        }
        _ => {
            let operand = operand(random, sheet);
            prune(random, sheet, palette, operand)
        }
    }
}
