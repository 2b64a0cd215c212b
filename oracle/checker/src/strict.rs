//! The patterns of a strict walk (02 i), constants told by their bits.

use crate::arithmetic::{Folded, fold};
use crate::node::{Kind, Operator};
use crate::refusal::Refusal;
use crate::store::Store;

const PLUS_ZERO: u64 = 0.0_f64.to_bits();
const MINUS_ZERO: u64 = (-0.0_f64).to_bits();
const ONE: u64 = 1.0_f64.to_bits();

/// The result of the strict pattern that fits a node with these children.
pub fn apply(store: &mut Store, kind: Kind, children: &[u32]) -> Result<Option<u32>, Refusal> {
    match (kind, children) {
        (Kind::Operator(Operator::Neg), &[child]) => {
            let node = store.node(child);
            Ok((node.kind == Kind::Operator(Operator::Neg)).then(|| node.children.ids()[0]))
        }
        (Kind::Operator(operator), &[left, right]) => match identity(store, operator, left, right) {
            Some(id) => Ok(Some(id)),
            None => folded(store, operator, left, right),
        },
        _ => Ok(None),
    }
}

fn identity(store: &Store, operator: Operator, left: u32, right: u32) -> Option<u32> {
    let is = |id: u32, bits: u64| store.node(id).kind == Kind::Constant && store.node(id).payload == bits;
    match operator {
        Operator::Add if is(right, MINUS_ZERO) => Some(left),
        Operator::Add if is(left, MINUS_ZERO) => Some(right),
        Operator::Sub if is(right, PLUS_ZERO) => Some(left),
        Operator::Mul if is(left, ONE) => Some(right),
        Operator::Mul if is(right, ONE) => Some(left),
        Operator::Div if is(right, ONE) => Some(left),
        _ => None,
    }
}

fn folded(store: &mut Store, operator: Operator, left: u32, right: u32) -> Result<Option<u32>, Refusal> {
    let values = (store.node(left).constant_value(), store.node(right).constant_value());
    let (Some(left), Some(right)) = values else { return Ok(None) };
    match fold(operator, left, right) {
        Folded::Bits(bits) => store.constant(bits).map(Some),
        Folded::NotANumber | Folded::Never => Ok(None),
    }
}
