//! A derivation of a text: how it is a sum, by the sentences of 02.

use std::rc::Rc;

use crate::arithmetic::is_not_a_number;
use crate::names::LentNames;
use crate::node::Operator;
use crate::refusal::Refusal;
use crate::store::Store;

#[derive(Clone, Debug, PartialEq, Eq)]
pub enum Derivation {
    Number(u64),
    Name(Vec<u8>),
    Minus(Rc<Derivation>),
    Brackets(Rc<Derivation>),
    /// Two parts joined by + - * / or ^.
    Joined(Operator, Rc<Derivation>, Rc<Derivation>),
}

impl Derivation {
    /// Brackets, minus factors and powers, counted together; a ^ nests what stands after it.
    pub fn nesting(&self) -> usize {
        match self {
            Derivation::Number(_) | Derivation::Name(_) => 0,
            Derivation::Minus(inner) | Derivation::Brackets(inner) => 1 + inner.nesting(),
            Derivation::Joined(Operator::Pow, base, exponent) => base.nesting().max(1 + exponent.nesting()),
            Derivation::Joined(_, left, right) => left.nesting().max(right.nesting()),
        }
    }

    /// Whether it has a constant whose bits are a NaN.
    pub fn has_not_a_number(&self) -> bool {
        match self {
            Derivation::Number(bits) => is_not_a_number(*bits),
            Derivation::Name(_) => false,
            Derivation::Minus(inner) | Derivation::Brackets(inner) => inner.has_not_a_number(),
            Derivation::Joined(_, left, right) => left.has_not_a_number() || right.has_not_a_number(),
        }
    }

    /// Makes its nodes with the builder's constructors, operands first, left
    /// before right, each name just before its node.
    pub fn make(&self, store: &mut Store, names: &mut LentNames) -> Result<u32, Refusal> {
        match self {
            Derivation::Number(bits) => store.constant(*bits),
            Derivation::Name(name) => {
                let symbol = names.number(name)?;
                store.variable(symbol)
            }
            Derivation::Brackets(inner) => inner.make(store, names),
            Derivation::Minus(inner) => {
                let operand = inner.make(store, names)?;
                store.operator(Operator::Neg, 0, &[operand])
            }
            Derivation::Joined(operator, left, right) => {
                let left = left.make(store, names)?;
                let right = right.make(store, names)?;
                match operator {
                    Operator::Add => store.add(left, right),
                    Operator::Mul => store.mul(left, right),
                    other => store.operator(*other, 0, &[left, right]),
                }
            }
        }
    }
}
