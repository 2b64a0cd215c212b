//! Sheets near 512 nodes, 1,024 records, 16,384 bytes, 4,096 terms and 255
//! levels.

use crate::palette::Palette;
use crate::random::Random;
use crate::shapes::levels;
use crate::sheet::{ADD, MUL, SUB, Sheet};

const NODES: usize = 512;
const RECORDS: usize = 1_024;
const BYTES: usize = 16_384;
/// Adds of one node with itself that give 4,096 terms.
const DOUBLINGS: usize = 12;
const BUDGET: u32 = 20_000;

pub fn sheet(random: &mut Random) -> Vec<u8> {
    match random.below(6) {
        0 => near_nodes(random).bytes(),
        1 => near_records(random),
        2 => near_bytes(random),
        3 => near_terms(random).bytes(),
        4 => near_depth(random).bytes(),
        _ => near_table_sizes(random).bytes(),
    }
}

/// Fills the store but for a few places, then asks for nodes.
fn near_nodes(random: &mut Random) -> Sheet {
    let mut sheet = Sheet::default();
    if random.once_in(2) {
        sheet.constant(0.0);
    }
    let first = sheet.variable(0);
    let mut symbol = 0;
    while sheet.len() < NODES - random.below(8) {
        symbol += 1;
        sheet.variable(symbol);
    }
    ask_for_nodes(random, &mut sheet, first);
    sheet
}

/// Builds, merges, differences and prunes that need up to a few new nodes.
fn ask_for_nodes(random: &mut Random, sheet: &mut Sheet, first: u16) {
    let mut top = first;
    for _ in 0..random.between(1, 6) {
        top = match random.below(7) {
            0 => sheet.constant(random.below(4) as f64),
            1 => sheet.operator(SUB, 0, &[top, top]),
            2 => {
                let constant = sheet.constant(2.0);
                sheet.constructed(random.pick(&[ADD, MUL]), top, constant)
            }
            3 => sheet.operator(ADD, 0, &[top, top, first]),
            4 => sheet.prune(top, random.pick(&[0.0, 2.0, 2.5])),
            _ => sheet.simplify(top, 255, BUDGET),
        };
    }
}

/// 1,020 to 1,026 records, sometimes with bytes after the last.
fn near_records(random: &mut Random) -> Vec<u8> {
    let count = random.between(RECORDS - 4, RECORDS + 2);
    let mut sheet = Sheet::default();
    while sheet.len() < count {
        match random.below(4) {
            0 => sheet.constant(random.below(50) as f64),
            1 if sheet.len() > 0 => sheet.simplify(random.below(sheet.len()) as u16, 255, BUDGET),
            2 if sheet.len() > 0 => sheet.prune(random.below(sheet.len()) as u16, 0.5),
            _ => sheet.variable(random.below(100) as u32),
        };
    }
    let mut bytes = sheet.bytes();
    bytes.extend((0..random.below(4)).map(|_| random.below(3) as u8));
    bytes
}

/// A few records, then one with so many operands that the sheet ends near
/// 16,384 bytes.
fn near_bytes(random: &mut Random) -> Vec<u8> {
    let mut sheet = Sheet::default();
    for symbol in 0..random.below(5) {
        sheet.variable(symbol as u32);
    }
    let target = random.between(BYTES - 3, BYTES + 3);
    let mut body = vec![4, 0, 0, 0, 1];
    body.resize(target - sheet.bytes().len() - 2, 0);
    sheet.record(body);
    sheet.bytes()
}

/// Shared Adds of about 4,096 terms over a few leaves.
fn near_terms(random: &mut Random) -> Sheet {
    let mut sheet = Sheet::default();
    let variable = sheet.variable(0);
    let constant = sheet.constant(random.pick(&[0.25, 0.75, 2.0]));
    let mut top = if random.once_in(2) { variable } else { constant };
    for _ in 0..DOUBLINGS - random.below(2) {
        top = sheet.operator(ADD, 3, &[top, top]);
        if random.once_in(6) {
            top = sheet.operator(ADD, 0, &[top]);
        }
    }
    for _ in 0..random.below(3) {
        let operands = if random.once_in(2) { [top, variable] } else { [constant, top] };
        top = sheet.operator(ADD, 3, &operands);
    }
    let pruned = sheet.prune(top, random.pick(&[0.0, 0.5, 1.0, 1.5]));
    sheet.simplify(pruned, 255, BUDGET);
    sheet
}

/// 250 to 300 levels at depth limits from 250 up.
fn near_depth(random: &mut Random) -> Sheet {
    let palette = Palette::new(random);
    let mut sheet = Sheet::default();
    let count = random.between(250, 300);
    let top = levels(random, &mut sheet, &palette, count);
    let answer = sheet.simplify(top, random.between(250, 255) as u8, BUDGET);
    sheet.simplify(answer, 255, BUDGET);
    sheet.simplify(top, 255, BUDGET);
    sheet
}

/// Node counts around those at which a table of 64, 128, 256 or 512 doubles.
fn near_table_sizes(random: &mut Random) -> Sheet {
    let mut sheet = Sheet::default();
    let count = random.pick(&[44, 89, 179, 358]) + random.below(4) - 1;
    let mut top = sheet.variable(0);
    for symbol in 1..count {
        top = sheet.variable(symbol as u32);
    }
    ask_for_nodes(random, &mut sheet, top);
    sheet
}
