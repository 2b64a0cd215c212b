//! Stores with formulas made by calls, some nodes marked: shared towers, chains
//! near the deepest nesting, names of other forms, and nodes that have no text.

use checker::{Call, LentNames, TextLists, call};
use generator::Random;
use port::text_lists::{Sizes, fresh, mark_some};

const SIZES: Sizes = Sizes { nodes: 300, slots: 512, names: 12 };
/// Codes of the calls: Add, Sub, Mul, Div, Pow, Neg.
const WITH_TEXT: [u64; 6] = [0, 1, 2, 3, 4, 6];
const NEG: u64 = 6;
const MOD: u64 = 5;
/// Nesting that a text may have.
const NESTING: usize = 64;

pub fn lists(random: &mut Random) -> TextLists {
    let mut lists = fresh(random, SIZES);
    name_some(random, &mut lists.names);
    for _ in 0..random.between(1, 4) {
        leaf(random, &mut lists);
    }
    match random.below(4) {
        0 => chain(random, &mut lists),
        1 => tower(random, &mut lists),
        _ => {
            for _ in 0..random.between(1, 20) {
                operator(random, &mut lists);
            }
        }
    }
    if random.once_in(8) {
        without_text(random, &mut lists);
        for _ in 0..random.below(4) {
            operator(random, &mut lists);
        }
    }
    mark_some(random, &mut lists);
    lists
}

/// Names of the text's form, and now and then another.
fn name_some(random: &mut Random, names: &mut LentNames) {
    for _ in 0..random.between(0, 5) {
        let name: &[u8] = if random.once_in(12) {
            random.pick(&[&b"a b"[..], b"1x", b"t_1", b"#", b"(", b"\xc3\xa9", b"x ", b"7"])
        } else {
            random.pick(&[&b"x"[..], b"y", b"flow", b"t1", b"AbC9", b"abcdefghijklmnopqrstuvwxyzABCDEF"])
        };
        names.number(name).expect("a place for the name");
    }
}

/// Does a store call; a refused one adds nothing.
fn build(lists: &mut TextLists, asked: &Call) {
    let _ = call(&mut lists.store, asked);
}

fn leaf(random: &mut Random, lists: &mut TextLists) {
    let number = random.pick(&[
        0.0,
        -0.0,
        1.0,
        2.0,
        10.0,
        0.5,
        -1.0,
        999_999_999.0,
        1e9,
        999_999_998.5,
        f64::INFINITY,
        f64::from_bits(0xABCD_EF01_2345_6789),
        5e-324,
    ]);
    let names = lists.names.count as usize;
    let asked = if names > 0 && !random.once_in(3) {
        Call::Variable { symbol: random.below(names) as u32 }
    } else {
        Call::Constant { bits: number.to_bits() }
    };
    build(lists, &asked);
}

/// One of the nodes, mostly a late one.
fn some_id(random: &mut Random, lists: &TextLists) -> u32 {
    let count = lists.store.node_count as usize;
    let low = if random.once_in(2) { count.saturating_sub(3) } else { 0 };
    random.between(low, count - 1) as u32
}

/// An operator with the constructors' flags.
fn of(code: u64, operands: Vec<u32>) -> Call {
    let is_commutative = code == 0 || code == 2;
    Call::Operator { operator: code, flags: if is_commutative { 3 } else { 0 }, operands }
}

fn operator(random: &mut Random, lists: &mut TextLists) {
    let code = random.pick(&WITH_TEXT);
    let count = if code == NEG { 1 } else { 2 };
    let operands = (0..count).map(|_| some_id(random, lists)).collect();
    build(lists, &of(code, operands));
}

/// A node over itself twice, again and again: its text doubles each time.
fn tower(random: &mut Random, lists: &mut TextLists) {
    let code = random.pick(&WITH_TEXT[..5]);
    for _ in 0..random.pick(&[3, 8, 10, 11, 12, 13, 14, 40, 200]) {
        let last = lists.store.node_count as u32 - 1;
        build(lists, &of(code, vec![last, last]));
    }
}

/// A chain whose text is nested near the deepest.
fn chain(random: &mut Random, lists: &mut TextLists) {
    let ways = random.pick(&[&[0][..], &[1], &[2], &[3], &[0, 1, 2, 3]]);
    let depth = random.pick(&[NESTING / 2, NESTING - 1, NESTING, NESTING + 1, NESTING / 2 + 1]);
    for _ in 0..depth {
        let last = lists.store.node_count as u32 - 1;
        let asked = match random.pick(ways) {
            0 => of(NEG, vec![last]),
            1 => of(4, vec![0, last]),
            2 => of(4, vec![last, 0]),
            _ => of(random.pick(&[1, 3]), vec![0, last]),
        };
        build(lists, &asked);
    }
}

/// A node that has no text: another kind, flags or number of operands, or a symbol without a name.
fn without_text(random: &mut Random, lists: &mut TextLists) {
    let [first, second] = [some_id(random, lists), some_id(random, lists)];
    let asked = match random.below(9) {
        0 => of(MOD, vec![first, second]),
        1 => Call::Operator { operator: 0, flags: random.pick(&[0, 1, 2]), operands: vec![first, second] },
        2 => Call::Operator { operator: 2, flags: random.pick(&[0, 1, 2]), operands: vec![first, second] },
        3 => Call::Operator {
            operator: random.pick(&[1, 3, 4]),
            flags: random.pick(&[1, 2, 3]),
            operands: vec![first, second],
        },
        4 => Call::Operator { operator: NEG, flags: random.pick(&[1, 2, 3]), operands: vec![first] },
        5 => {
            Call::Operator { operator: random.pick(&[0, 2]), flags: 3, operands: vec![first; random.pick(&[1, 3, 4])] }
        }
        6 => Call::Function { number: 7, operands: vec![first] },
        7 => Call::Control { control: 0, operands: vec![first, second, first] },
        _ => Call::Variable { symbol: random.pick(&[lists.names.count as u32, u32::MAX]) },
    };
    build(lists, &asked);
}
