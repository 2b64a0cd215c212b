//! What inputs are built with, and how nodes are compared.

const ADD: u8 = 0;
const SUB: u8 = 1;
const MUL: u8 = 2;
const NEG: u8 = 6;
/// The flags that `add` and `mul` give.
const REORDERABLE: u8 = 3;

/// A node as it is compared: kind, payload, flags and children.
#[derive(Debug, PartialEq, Eq)]
pub struct Node {
    pub kind: u8,
    pub payload: u64,
    pub flags: u8,
    pub children: Vec<u32>,
}

/// What formulas are built with.
pub trait Store {
    fn variable(&mut self, number: u32) -> u32;
    fn constant(&mut self, value: f64) -> u32;
    fn operator(&mut self, code: u8, flags: u8, operands: &[u32]) -> u32;
    fn nodes(&self) -> Vec<Node>;

    fn add(&mut self, a: u32, b: u32) -> u32 {
        self.operator(ADD, REORDERABLE, &[a, b])
    }

    fn mul(&mut self, a: u32, b: u32) -> u32 {
        self.operator(MUL, REORDERABLE, &[a, b])
    }

    fn sub(&mut self, a: u32, b: u32) -> u32 {
        self.operator(SUB, 0, &[a, b])
    }

    fn neg(&mut self, a: u32) -> u32 {
        self.operator(NEG, 0, &[a])
    }

    fn balanced(&mut self, terms: &[u32]) -> u32 {
        if let &[term] = terms {
            return term;
        }
        let (left, right) = terms.split_at(terms.len() / 2);
        let (left, right) = (self.balanced(left), self.balanced(right));
        self.add(left, right)
    }
}
