//! What is asked in a history: calls on the store, names, readings, and
//! writings if the library has them.

use checker::{Call, CallAnswer, Mode, TextLists, read_text};
use generator::{Random, texts};

/// NaNs: quiet and signalling, of either sign.
const NOT_NUMBERS: [u64; 4] =
    [0x7FF8_0000_0000_0000, 0x7FF0_0000_0000_0001, 0xFFF8_0000_0000_0000, 0xFFFF_FFFF_FFFF_FFFF];

#[derive(Clone, Debug)]
pub enum Asked {
    Store(Call),
    Name(Vec<u8>),
    Text(Vec<u8>),
    #[cfg(feature = "writer")]
    Writing {
        id: u32,
        buffer: usize,
    },
}

#[derive(Clone, Debug, PartialEq, Eq)]
pub enum Answer {
    Store(CallAnswer),
    Number(u32),
    Root(u64),
    #[cfg(feature = "writer")]
    Written(Vec<u8>),
}

impl Asked {
    /// Something to ask of lists with so many nodes.
    pub fn any(random: &mut Random, count: usize) -> Asked {
        match random.below(9) {
            0 | 1 => Asked::Text(text(random)),
            2 => Asked::Name(name(random)),
            #[cfg(feature = "writer")]
            3 => Asked::Writing {
                id: operand(random, count.min(1 << 16)),
                buffer: random.pick(&[0, 1, 3, 9, 40, 9_000]),
            },
            _ => Asked::Store(store_call(random, count.min(1 << 16))),
        }
    }

    pub fn by_port(&self, lists: &mut TextLists) -> Result<Answer, u64> {
        match self {
            Asked::Store(call) => port::calls::call(&mut lists.store, call).map(Answer::Store),
            Asked::Name(name) => port::names::intern(&mut lists.names, name).map(Answer::Number),
            Asked::Text(text) => port::texts::read(lists, text).map(Answer::Root),
            #[cfg(feature = "writer")]
            Asked::Writing { id, buffer } => port::writings::write(lists, *id, *buffer).map(Answer::Written),
        }
    }

    pub fn by_checker(&self, lists: &mut TextLists) -> Result<Answer, u64> {
        let answer = match self {
            Asked::Store(call) => checker::call(&mut lists.store, call).map(Answer::Store),
            Asked::Name(name) => lists.names.intern(name).map(Answer::Number),
            Asked::Text(text) => read_text(lists, text).map(|id| Answer::Root(u64::from(id))),
            #[cfg(feature = "writer")]
            Asked::Writing { id, buffer } => checker::write_text(lists, *id, *buffer).map(Answer::Written),
        };
        answer.map_err(|refusal| u64::from(refusal.number()))
    }
}

/// Mostly a short text over few names, so that old names and nodes are found.
fn text(random: &mut Random) -> Vec<u8> {
    match random.below(8) {
        0 => texts::any(random),
        1 | 2 => texts::short(random),
        _ => {
            let length = random.between(1, 9);
            let mut text = Vec::new();
            for place in 0..length {
                let leaf = random.pick(&[&b"x"[..], b"y", b"A", b"1", b"2", b"-x", b"(y-x)", b"#8000000000000000"]);
                let sign = random.pick(b"+-*/^+*");
                text.extend(leaf);
                text.extend((place + 1 < length).then_some(sign));
            }
            text
        }
    }
}

fn name(random: &mut Random) -> Vec<u8> {
    if random.once_in(2) {
        return random.pick(&[&b"x"[..], b"y", b"flow", b"t1", b"A"]).to_vec();
    }
    let length = random.pick(&[0, 1, 1, 2, 3, 31, 32, 33, 200]);
    (0..length).map(|_| random.pick(&[0, 65, 66])).collect()
}

/// An operand: mostly an id of the store.
fn operand(random: &mut Random, count: usize) -> u32 {
    if count == 0 || random.once_in(30) {
        return random.pick(&[count as u32, count as u32 + 1, u32::MAX]);
    }
    random.below(count) as u32
}

fn operands(random: &mut Random, count: usize, many: usize) -> Vec<u32> {
    (0..many).map(|_| operand(random, count)).collect()
}

fn store_call(random: &mut Random, count: usize) -> Call {
    match random.below(14) {
        0 | 1 => Call::Variable { symbol: random.pick(&[0, 1, 2, 3, u32::MAX, 77]) },
        2 | 3 => {
            let number =
                random.pick(&[0.0, -0.0, 1.0, 2.0, 0.5, -1.0, 0.05, 0.2, 3.25, f64::INFINITY, f64::NEG_INFINITY, 1e-300]);
            let bits = if random.once_in(12) { random.pick(&NOT_NUMBERS) } else { number.to_bits() };
            Call::Constant { bits }
        }
        4..=7 => {
            let operator = random.pick(&[0, 0, 0, 1, 2, 2, 3, 4, 5, 6, 7, 1 << 20]);
            let many = if random.once_in(4) { random.below(6) } else { random.pick(&[2, 2, 2, 1]) };
            Call::Operator {
                operator,
                flags: random.pick(&[0, 3, 3, 1, 2, 4, 255]),
                operands: operands(random, count, many),
            }
        }
        8 => {
            let many = if random.once_in(2) { random.below(6) } else { random.between(6, 18) };
            Call::Function { number: random.pick(&[0, 5, u32::MAX]), operands: operands(random, count, many) }
        }
        9 => {
            let many = random.pick(&[3, 4, 2]);
            Call::Control { control: random.pick(&[0, 1, 2, 3]), operands: operands(random, count, many) }
        }
        10 | 11 => Call::Simplify {
            mode: random.pick(&[Mode::Standard, Mode::Strict]),
            root: operand(random, count),
            depth_limit: random.pick(&[0, 1, 2, 255, 255, 255, 256, 1 << 31]),
            budget: random.pick(&[0, 1, 2, 3, 5, 100_000, 100_000, 100_000]),
        },
        12 => {
            let threshold = random.pick(&[0.0, 0.1, 1.0, 2.0, -0.0, f64::INFINITY, f64::NAN, -1.0, 0.05]);
            Call::Prune { root: operand(random, count), threshold }
        }
        _ => Call::PruneBySetting {
            root: operand(random, count),
            setting: random.pick(&[0, 19, 20, 21, 100, 179, 200, 201, u64::from(u32::MAX)]),
        },
    }
}
