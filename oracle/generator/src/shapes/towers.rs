//! Levels over a child that changes and is shared: the Rust walks it again
//! each time it is met.

use super::parts::{arguments_around, flags, simplify};
use crate::palette::Palette;
use crate::random::Random;
use crate::sheet::{ADD, MOD, MUL, NEG, SUB, Sheet};

const LEVELS_MAXIMUM: usize = 9;

pub fn sheet(random: &mut Random) -> Sheet {
    let palette = Palette::new(random);
    let mut sheet = Sheet::default();
    let mut top = changing_base(random, &mut sheet, &palette);
    for _ in 0..random.between(1, LEVELS_MAXIMUM) {
        top = level(random, &mut sheet, &palette, top);
    }
    let answer = simplify(random, &mut sheet, top);
    let again = random.pick(&[top, answer]);
    simplify(random, &mut sheet, again);
    sheet
}

/// A node that a walk replaces.
fn changing_base(random: &mut Random, sheet: &mut Sheet, palette: &Palette) -> u16 {
    let leaf = palette.leaf(random, sheet);
    match random.below(4) {
        0 => {
            let zero = sheet.constant(0.0);
            sheet.constructed(ADD, leaf, zero)
        }
        1 => {
            let one = sheet.constant(1.0);
            sheet.constructed(MUL, one, leaf)
        }
        2 => {
            let inner = sheet.operator(NEG, 0, &[leaf]);
            sheet.operator(NEG, 0, &[inner])
        }
        _ => {
            let constant = sheet.constant_bits(palette.constant(random));
            let inner = sheet.constructed(ADD, leaf, constant);
            sheet.constructed(ADD, inner, constant)
        }
    }
}

/// A node that has `top` for a child, mostly twice.
fn level(random: &mut Random, sheet: &mut Sheet, palette: &Palette, top: u16) -> u16 {
    let function = random.pick(&palette.functions);
    match random.below(10) {
        0 => sheet.operator(NEG, 0, &[top]),
        1 => {
            let leaf = palette.leaf(random, sheet);
            let mut arguments = arguments_around(random, top, leaf);
            arguments[0] = top;
            sheet.function(function, &arguments)
        }
        2 => sheet.operator(SUB, 0, &[top, top]),
        3 => {
            let leaf = palette.leaf(random, sheet);
            sheet.operator(ADD, flags(random), &[top, leaf])
        }
        4 => sheet.control(0, &[top, top, top]),
        _ => {
            let operator = random.pick(&[ADD, MUL, MOD]);
            sheet.operator(operator, flags(random), &[top, top])
        }
    }
}
