//! The examples that 01 names, and the cases of its notes, as sheets.

use crate::shapes::ARGUMENTS_MAXIMUM;
use crate::sheet::{ADD, DIV, MUL, NEG, POW, SUB, Sheet};

const BUDGET: u32 = 100;
/// More steps than 255 levels of functions of 16 take.
const LARGE_BUDGET: u32 = 10_000;
const DEPTH_LIMIT: u8 = 255;
/// NaNs: quiet and signalling, of either sign.
const NOT_NUMBERS: [u64; 4] =
    [0x7FF8_0000_0000_0000, 0x7FF0_0000_0000_00AB, 0xFFF8_0000_0000_0000, 0xFFF0_0000_0000_0001];

/// All examples, the printed listing first.
pub fn examples() -> Vec<Vec<u8>> {
    let mut sheets = listed();
    sheets.extend(built());
    sheets.extend(rewritten());
    sheets.extend(folded());
    sheets.extend(merged());
    sheets.extend(not_numbers());
    sheets.extend(long_calls());
    sheets.extend(pruned());
    sheets.iter().map(Sheet::bytes).collect()
}

/// A sheet made by a function that answers the root to simplify.
fn simplified(build: impl Fn(&mut Sheet) -> u16, times: usize) -> Sheet {
    let mut sheet = Sheet::default();
    let mut root = build(&mut sheet);
    for _ in 0..times {
        root = sheet.simplify(root, DEPTH_LIMIT, BUDGET);
    }
    sheet
}

/// The printed listing, and its budgets 2 and 3.
fn listed() -> Vec<Sheet> {
    let budgets = [BUDGET, 2, 3];
    budgets
        .map(|budget| {
            let mut sheet = Sheet::default();
            let variable = sheet.variable(7);
            let zero = sheet.constant(0.0);
            let sum = sheet.constructed(ADD, variable, zero);
            sheet.simplify(sum, DEPTH_LIMIT, budget);
            sheet
        })
        .into()
}

/// 44 and 45 nodes; 0.0 and -0.0; Add with flags 0 and with flags 3.
fn built() -> Vec<Sheet> {
    let mut sheets: Vec<Sheet> = [44, 45].map(variables).into();
    let mut zeros = Sheet::default();
    zeros.constant(0.0);
    zeros.constant(-0.0);
    zeros.constant(0.0);
    sheets.push(zeros);
    let mut sums = variables(2);
    sums.operator(ADD, 0, &[0, 1]);
    sums.operator(ADD, 3, &[0, 1]);
    sums.operator(ADD, 0, &[0, 1]);
    sheets.push(sums);
    sheets
}

fn variables(count: u32) -> Sheet {
    let mut sheet = Sheet::default();
    for symbol in 0..count {
        sheet.variable(symbol);
    }
    sheet
}

/// Zero times a variable, the merges, x-x, and an Add of three children.
fn rewritten() -> Vec<Sheet> {
    let zero_times_variable = |sheet: &mut Sheet| {
        let zero = sheet.constant(0.0);
        let variable = sheet.variable(0);
        sheet.constructed(MUL, zero, variable)
    };
    let merged_sum = |sheet: &mut Sheet| {
        let inner = variable_plus_one(sheet);
        let two = sheet.constant(2.0);
        sheet.constructed(ADD, inner, two)
    };
    let constant_first = |sheet: &mut Sheet| {
        let inner = variable_plus_one(sheet);
        let two = sheet.constant(2.0);
        sheet.constructed(ADD, two, inner)
    };
    let merged_product = |sheet: &mut Sheet| {
        let two = sheet.constant(2.0);
        let variable = sheet.variable(0);
        let inner = sheet.constructed(MUL, two, variable);
        let half = sheet.constant(0.5);
        sheet.constructed(MUL, inner, half)
    };
    let difference = |sheet: &mut Sheet| {
        let variable = sheet.variable(0);
        sheet.constructed(SUB, variable, variable)
    };
    let three_children = |sheet: &mut Sheet| {
        let inner = variable_plus_one(sheet);
        let negated = sheet.operator(NEG, 0, &[inner]);
        let again = sheet.operator(NEG, 0, &[negated]);
        sheet.operator(ADD, 3, &[again, inner, again])
    };
    vec![
        simplified(zero_times_variable, 1),
        simplified(merged_sum, 1),
        simplified(constant_first, 1),
        simplified(merged_product, 1),
        simplified(merged_product, 2),
        simplified(difference, 1),
        simplified(three_children, 1),
    ]
}

fn variable_plus_one(sheet: &mut Sheet) -> u16 {
    let variable = sheet.variable(0);
    let one = sheet.constant(1.0);
    sheet.constructed(ADD, variable, one)
}

/// Every operator over pairs of special constants: identities before folds.
fn folded() -> Vec<Sheet> {
    let special = [0.0, -0.0, 1.0, -1.0, 5.0, f64::INFINITY, f64::NEG_INFINITY];
    let mut sheets = Vec::new();
    for operator in [ADD, SUB, MUL, DIV, POW] {
        for left in special {
            for right in special {
                let of_constants = |sheet: &mut Sheet| {
                    let first = sheet.constant(left);
                    let second = sheet.constant(right);
                    sheet.constructed(operator, first, second)
                };
                sheets.push(simplified(of_constants, 1));
            }
        }
    }
    sheets
}

/// Merges that would give a NaN (02 b): the formula stays.
fn merged() -> Vec<Sheet> {
    let mut sheets = Vec::new();
    for (operator, first, second) in
        [(MUL, f64::INFINITY, 0.0), (MUL, 0.0, f64::NEG_INFINITY), (ADD, f64::INFINITY, f64::NEG_INFINITY)]
    {
        for inner_first in [true, false] {
            for outer_first in [true, false] {
                let of_constants = |sheet: &mut Sheet| {
                    let variable = sheet.variable(0);
                    let inner = sheet.constant(first);
                    let outer = sheet.constant(second);
                    let (left, right) = if inner_first { (inner, variable) } else { (variable, inner) };
                    let pair = sheet.constructed(operator, left, right);
                    let (left, right) = if outer_first { (outer, pair) } else { (pair, outer) };
                    sheet.constructed(operator, left, right)
                };
                sheets.push(simplified(of_constants, 1));
            }
        }
    }
    sheets
}

/// A variable, and a constant whose bits are a NaN (02 b, refusal 10).
fn not_numbers() -> Vec<Sheet> {
    NOT_NUMBERS
        .map(|bits| {
            let mut sheet = Sheet::default();
            let variable = sheet.variable(7);
            let constant = sheet.constant_bits(bits);
            sheet.constructed(ADD, variable, constant);
            sheet
        })
        .into()
}

/// Functions of up to 17 arguments, of which the last is a sum that a walk
/// replaces; an Add of five; 255 levels of functions of 16 (02 g, refusal 6).
fn long_calls() -> Vec<Sheet> {
    let mut sheets: Vec<Sheet> = [4, 5, 11, ARGUMENTS_MAXIMUM, ARGUMENTS_MAXIMUM + 1]
        .map(|count| {
            let mut sheet = variables(count as u32 - 1);
            let zero = sheet.constant(0.0);
            let sum = sheet.constructed(ADD, 0, zero);
            let mut arguments: Vec<u16> = (0..count as u16 - 1).collect();
            arguments.push(sum);
            let call = sheet.function(3, &arguments);
            let answer = sheet.simplify(call, DEPTH_LIMIT, BUDGET);
            sheet.simplify(answer, DEPTH_LIMIT, BUDGET);
            sheet
        })
        .into();
    let mut sum_of_five = variables(5);
    sum_of_five.operator(ADD, 3, &[0, 1, 2, 3, 4]);
    sheets.push(sum_of_five);
    let mut deep = variables(1);
    let mut top = 0;
    for _ in 0..DEPTH_LIMIT {
        let mut arguments = [0; ARGUMENTS_MAXIMUM];
        arguments[ARGUMENTS_MAXIMUM - 1] = top;
        top = deep.function(3, &arguments);
    }
    deep.simplify(top, DEPTH_LIMIT, LARGE_BUDGET);
    sheets.push(deep);
    sheets
}

/// The pruning examples: two of three kept, none kept, a root that is no Add,
/// and five kept.
fn pruned() -> Vec<Sheet> {
    let mut two_kept = Sheet::default();
    let variable = two_kept.variable(0);
    let small = two_kept.constant(0.05);
    let large = two_kept.constant(0.2);
    let root = two_kept.operator(ADD, 3, &[variable, small, large]);
    two_kept.prune(root, 0.1);

    let mut none_kept = Sheet::default();
    let first = none_kept.constant(0.01);
    let second = none_kept.constant(0.02);
    let root = none_kept.constructed(ADD, first, second);
    none_kept.prune(root, 0.1);

    let mut no_chain = Sheet::default();
    let root = no_chain.constant(0.01);
    no_chain.prune(root, 0.1);

    let mut five_kept = variables(5);
    let mut root = five_kept.constructed(ADD, 0, 1);
    for term in 2..5 {
        root = five_kept.constructed(ADD, root, term);
    }
    five_kept.prune(root, 0.1);
    vec![two_kept, none_kept, no_chain, five_kept]
}
