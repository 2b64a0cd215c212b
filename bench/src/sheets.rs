//! Sheets in 01's bytes: a formula, a simplify of it and a prune of what that answered.

use crate::inputs::{Formula, THRESHOLD};
use crate::store::{Node, Store};

const FIRST_BYTE: u8 = 1;
const VARIABLE: u8 = 1;
const CONSTANT: u8 = 2;
const OPERATOR: u8 = 3;
const SIMPLIFY: u8 = 6;
const PRUNE: u8 = 7;
const DEPTH: u8 = 255;

/// Writes a sheet. An id is a record's index.
pub struct Writer {
    bytes: Vec<u8>,
    records: u32,
}

impl Writer {
    /// The sheet of a formula, and how many records it has.
    pub fn sheet(formula: &impl Formula) -> (Vec<u8>, u32) {
        let mut writer = Self { bytes: vec![FIRST_BYTE], records: 0 };
        let root = formula.build(&mut writer);
        let simplified = writer.record(&[&[SIMPLIFY], &operand(root), &[DEPTH], &u32::MAX.to_be_bytes()]);
        writer.record(&[&[PRUNE], &operand(simplified), &THRESHOLD.to_bits().to_be_bytes()]);
        (writer.bytes, writer.records)
    }

    fn record(&mut self, parts: &[&[u8]]) -> u32 {
        let body = parts.concat();
        self.bytes.extend(u16::try_from(body.len()).expect("a record's length").to_be_bytes());
        self.bytes.extend(body);
        self.records += 1;
        self.records - 1
    }
}

fn operand(record: u32) -> [u8; 2] {
    u16::try_from(record).expect("a record's index").to_be_bytes()
}

impl Store for Writer {
    fn variable(&mut self, number: u32) -> u32 {
        self.record(&[&[VARIABLE], &number.to_be_bytes()])
    }

    fn constant(&mut self, value: f64) -> u32 {
        self.record(&[&[CONSTANT], &value.to_bits().to_be_bytes()])
    }

    fn operator(&mut self, code: u8, flags: u8, operands: &[u32]) -> u32 {
        let operands: Vec<u8> = operands.iter().flat_map(|&record| operand(record)).collect();
        self.record(&[&[OPERATOR, code, flags], &operands])
    }

    fn nodes(&self) -> Vec<Node> {
        Vec::new()
    }
}

/// What a store does beside builds.
pub trait Rewriter: Store {
    fn simplify(&mut self, root: u32) -> u32;
    fn prune(&mut self, root: u32, threshold: f64) -> u32;
}

/// A sheet of a `Writer`, read and done record by record; the last answer.
pub fn perform(sheet: &[u8], store: &mut impl Rewriter) -> u32 {
    let mut answers: Vec<u32> = Vec::new();
    let mut bytes = &sheet[1..];
    while !bytes.is_empty() {
        let (body, rest) = bytes[2..].split_at(number(&bytes[..2]) as usize);
        let id = |place: usize| answers[number(&body[place..place + 2]) as usize];
        let answer = match body[0] {
            VARIABLE => store.variable(number(&body[1..]) as u32),
            CONSTANT => store.constant(f64::from_bits(number(&body[1..]))),
            OPERATOR if body.len() == 5 => store.operator(body[1], body[2], &[id(3)]),
            OPERATOR => store.operator(body[1], body[2], &[id(3), id(5)]),
            SIMPLIFY => store.simplify(id(1)),
            PRUNE => store.prune(id(1), f64::from_bits(number(&body[3..]))),
            _ => unreachable!("a record of a writer"),
        };
        answers.push(answer);
        bytes = rest;
    }
    *answers.last().expect("a sheet has a prune")
}

/// The big-endian number in at most 8 bytes.
fn number(bytes: &[u8]) -> u64 {
    bytes.iter().fold(0, |number, byte| number << 8 | u64::from(*byte))
}
