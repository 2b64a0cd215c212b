//! Identities, then folding, then merging (01, "patterns").

use crate::arithmetic::{Folded, fold};
use crate::node::{Kind, Node, Operator};
use crate::refusal::Refusal;
use crate::store::Store;

const ZERO: u64 = 0.0_f64.to_bits();
const ONE: u64 = 1.0_f64.to_bits();

/// The result of the first pattern that fits a node with these children.
pub fn apply(store: &mut Store, kind: Kind, children: &[u32]) -> Result<Option<u32>, Refusal> {
    match (kind, children) {
        (Kind::Operator(Operator::Neg), &[child]) => Ok(double_negation(store, child)),
        (Kind::Operator(operator), &[left, right]) => binary(store, operator, left, right),
        _ => Ok(None),
    }
}

fn binary(store: &mut Store, operator: Operator, left: u32, right: u32) -> Result<Option<u32>, Refusal> {
    match identity(store, operator, left, right) {
        Some(Identity::Node(id)) => return Ok(Some(id)),
        Some(Identity::Constant(bits)) => return store.constant(bits).map(Some),
        None => {}
    }
    let (left_node, right_node) = (*store.node(left), *store.node(right));
    if let (Some(first), Some(second)) = (left_node.constant_value(), right_node.constant_value()) {
        return folded(store, operator, first, second);
    }
    match operator {
        Operator::Mul => merge_product(store, &left_node, &right_node),
        Operator::Add => merge_sum(store, &left_node, &right_node),
        _ => Ok(None),
    }
}

fn double_negation(store: &Store, child: u32) -> Option<u32> {
    let node = store.node(child);
    (node.kind == Kind::Operator(Operator::Neg)).then(|| node.children.ids()[0])
}

/// What an identity answers: a node that is there, or a constant.
enum Identity {
    Node(u32),
    Constant(u64),
}

fn identity(store: &Store, operator: Operator, left: u32, right: u32) -> Option<Identity> {
    let first = store.node(left).constant_value();
    let second = store.node(right).constant_value();
    let is = |value: Option<f64>, number: f64| value == Some(number);
    let finite = |value: Option<f64>| value.is_some_and(f64::is_finite);
    match operator {
        Operator::Add if is(first, 0.0) => Some(Identity::Node(right)),
        Operator::Add if is(second, 0.0) => Some(Identity::Node(left)),
        Operator::Sub if is(second, 0.0) => Some(Identity::Node(left)),
        Operator::Sub if left == right => Some(Identity::Constant(ZERO)),
        Operator::Mul if is(first, 0.0) && finite(second) => Some(Identity::Constant(ZERO)),
        Operator::Mul if is(second, 0.0) && finite(first) => Some(Identity::Constant(ZERO)),
        Operator::Mul if is(first, 1.0) => Some(Identity::Node(right)),
        Operator::Mul if is(second, 1.0) => Some(Identity::Node(left)),
        Operator::Div if is(second, 1.0) => Some(Identity::Node(left)),
        Operator::Div if is(first, 0.0) => Some(Identity::Constant(ZERO)),
        Operator::Div if left == right && first.is_some() => Some(Identity::Constant(ONE)),
        Operator::Pow if is(second, 0.0) => Some(Identity::Constant(ONE)),
        Operator::Pow if is(second, 1.0) => Some(Identity::Node(left)),
        Operator::Pow if is(first, 1.0) => Some(Identity::Constant(ONE)),
        Operator::Pow if is(first, 0.0) && second.is_some_and(|exponent| exponent > 0.0) => {
            Some(Identity::Constant(ZERO))
        }
        _ => None,
    }
}

fn folded(store: &mut Store, operator: Operator, left: f64, right: f64) -> Result<Option<u32>, Refusal> {
    store.noticed.power_of_constants |= operator == Operator::Pow;
    folded_constant(store, operator, left, right)
}

/// Interns a folded or merged constant, or notices that it would be a NaN.
fn folded_constant(store: &mut Store, operator: Operator, left: f64, right: f64) -> Result<Option<u32>, Refusal> {
    let folded = fold(operator, left, right);
    store.noticed.not_a_number |= folded == Folded::NotANumber;
    match folded {
        Folded::Bits(bits) => store.constant(bits).map(Some),
        Folded::NotANumber | Folded::Never => Ok(None),
    }
}

/// Two operands of which one is a constant.
struct WithConstant {
    constant: f64,
    other: u32,
    constant_first: bool,
}

/// The operands of a node of this operator with two operands, the first if
/// it is a constant else the second being the constant.
fn operands_with_constant(store: &Store, node: &Node, operator: Operator) -> Option<WithConstant> {
    if node.kind != Kind::Operator(operator) {
        return None;
    }
    let &[left, right] = node.children.ids() else { return None };
    if let Some(constant) = store.node(left).constant_value() {
        return Some(WithConstant { constant, other: right, constant_first: true });
    }
    let constant = store.node(right).constant_value()?;
    Some(WithConstant { constant, other: left, constant_first: false })
}

/// `(c·x)·d` and `d·(c·x)`, c in either place: the merged constant takes c's place.
fn merge_product(store: &mut Store, left: &Node, right: &Node) -> Result<Option<u32>, Refusal> {
    let (factor, product) = match (left.constant_value(), right.constant_value()) {
        (_, Some(factor)) => (factor, left),
        (Some(factor), None) => (factor, right),
        (None, None) => return Ok(None),
    };
    let Some(inner) = operands_with_constant(store, product, Operator::Mul) else { return Ok(None) };
    let Some(merged) = folded_constant(store, Operator::Mul, inner.constant, factor)? else { return Ok(None) };
    if inner.constant_first { store.mul(merged, inner.other) } else { store.mul(inner.other, merged) }.map(Some)
}

/// `(c+x)+d`, c in either place, gives `x+(c+d)`; `d+(c+x)` stays.
fn merge_sum(store: &mut Store, left: &Node, right: &Node) -> Result<Option<u32>, Refusal> {
    let Some(summand) = right.constant_value() else { return Ok(None) };
    let Some(inner) = operands_with_constant(store, left, Operator::Add) else { return Ok(None) };
    let Some(merged) = folded_constant(store, Operator::Add, inner.constant, summand)? else { return Ok(None) };
    store.add(inner.other, merged).map(Some)
}
