//! Nodes, their kinds and child counts (01, "dedup and arena").

use crate::arithmetic::is_not_a_number;

/// The most children that a node has: those of a function (02 g).
pub const CHILDREN_MAXIMUM: usize = 16;
/// The most children of an Add or a Mul.
const OPERANDS_MAXIMUM: usize = 4;
/// Flag 4: the node was the result of a finished frame.
pub const CANONICAL: u8 = 4;
/// Flags 1 (commutative) and 2 (associative) together.
pub const COMMUTATIVE_ASSOCIATIVE: u8 = 3;

#[derive(Clone, Copy, Debug, PartialEq, Eq)]
pub enum Operator {
    Add,
    Sub,
    Mul,
    Div,
    Pow,
    Mod,
    Neg,
}

#[derive(Clone, Copy, Debug, PartialEq, Eq)]
pub enum Control {
    Select,
    IfElse,
    ForLoop,
}

#[derive(Clone, Copy, Debug, PartialEq, Eq)]
pub enum Kind {
    Variable,
    Constant,
    Operator(Operator),
    Function,
    Control,
}

const OPERATORS: [Operator; 7] =
    [Operator::Add, Operator::Sub, Operator::Mul, Operator::Div, Operator::Pow, Operator::Mod, Operator::Neg];
const CONTROLS: [Control; 3] = [Control::Select, Control::IfElse, Control::ForLoop];

impl Operator {
    /// The operator that a sheet writes as `number`: 0 Add to 6 Neg.
    pub fn from_number(number: u64) -> Option<Operator> {
        OPERATORS.get(usize::try_from(number).ok()?).copied()
    }
}

impl Control {
    /// The control with payload `number`: 0 Select, 1 IfElse, 2 ForLoop.
    pub fn from_number(number: u64) -> Option<Control> {
        CONTROLS.get(usize::try_from(number).ok()?).copied()
    }
}

const FIRST_OPERATOR_CODE: u64 = 2;
const FUNCTION_CODE: u64 = 16;
const CONTROL_CODE: u64 = 32;

impl Kind {
    /// The kind's number in a node's first word and in the listing.
    pub const fn code(self) -> u64 {
        match self {
            Kind::Variable => 0,
            Kind::Constant => 1,
            Kind::Operator(operator) => FIRST_OPERATOR_CODE + operator as u64,
            Kind::Function => FUNCTION_CODE,
            Kind::Control => CONTROL_CODE,
        }
    }

    pub fn from_code(code: u64) -> Option<Kind> {
        match code {
            0 => Some(Kind::Variable),
            1 => Some(Kind::Constant),
            FUNCTION_CODE => Some(Kind::Function),
            CONTROL_CODE => Some(Kind::Control),
            _ => Operator::from_number(code.checked_sub(FIRST_OPERATOR_CODE)?).map(Kind::Operator),
        }
    }

    /// Whether a node of this kind and payload may have `count` children.
    pub fn takes_children(self, payload: u64, count: usize) -> bool {
        match self {
            Kind::Variable | Kind::Constant => count == 0,
            Kind::Operator(Operator::Add | Operator::Mul) => (1..=OPERANDS_MAXIMUM).contains(&count),
            Kind::Operator(Operator::Neg) => count == 1,
            Kind::Operator(_) => count == 2,
            Kind::Function => count <= CHILDREN_MAXIMUM,
            Kind::Control => match Control::from_number(payload) {
                Some(Control::ForLoop) => count == 4,
                Some(_) => count == 3,
                None => false,
            },
        }
    }

    /// Whether the payload is one that 01 lists for this kind; a NaN is none (02 b).
    pub fn takes_payload(self, payload: u64) -> bool {
        match self {
            Kind::Variable | Kind::Function => payload <= u64::from(u32::MAX),
            Kind::Constant => !is_not_a_number(payload),
            Kind::Operator(_) => payload == 0,
            Kind::Control => Control::from_number(payload).is_some(),
        }
    }
}

/// The child ids of a node.
#[derive(Clone, Copy, Debug, PartialEq, Eq)]
pub struct Children {
    count: u8,
    places: [u32; CHILDREN_MAXIMUM],
}

impl Children {
    pub const NONE: Children = Children { count: 0, places: [0; CHILDREN_MAXIMUM] };

    /// The children in `ids`, of which there are at most as many as places.
    pub fn new(ids: &[u32]) -> Children {
        let mut children = Children::NONE;
        children.places[..ids.len()].copy_from_slice(ids);
        children.count = ids.len() as u8;
        children
    }

    pub fn ids(&self) -> &[u32] {
        &self.places[..usize::from(self.count)]
    }

    /// All places, unused ones 0.
    pub fn places(&self) -> [u32; CHILDREN_MAXIMUM] {
        self.places
    }
}

#[derive(Clone, Copy, Debug)]
pub struct Node {
    pub kind: Kind,
    pub payload: u64,
    pub flags: u8,
    pub children: Children,
}

impl Node {
    /// "Two nodes are one if kind, payload, children and flags without 4 agree."
    pub fn is_one_with(&self, other: &Node) -> bool {
        self.kind == other.kind
            && self.payload == other.payload
            && self.children == other.children
            && self.flags & !CANONICAL == other.flags & !CANONICAL
    }

    pub fn is_leaf(&self) -> bool {
        self.children.ids().is_empty()
    }

    pub fn is_marked(&self) -> bool {
        self.flags & CANONICAL != 0
    }

    /// "Coefficient: a constant's value, else 1.0", as bits.
    pub fn coefficient_bits(&self) -> u64 {
        match self.kind {
            Kind::Constant => self.payload,
            _ => 1.0_f64.to_bits(),
        }
    }

    /// The number of a constant.
    pub fn constant_value(&self) -> Option<f64> {
        (self.kind == Kind::Constant).then(|| f64::from_bits(self.payload))
    }
}
