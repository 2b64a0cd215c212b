//! Writing a node back as text (02, request d): without blanks, and with
//! brackets only where the language asks for a tighter part.

use super::call::{TextLists, check_sound};
use super::reader::steps_of;
use super::{BITS_SIGN, TEXT_BYTES_MAXIMUM};
use crate::arithmetic::is_not_a_number;
use crate::names::LentNames;
use crate::node::{CANONICAL, COMMUTATIVE_ASSOCIATIVE, Kind, Node, Operator};
use crate::refusal::Refusal;

/// The largest whole number that is written in digits.
const WHOLE_MAXIMUM: f64 = 999_999_999.0;
/// The bytes of a pair of brackets.
const BRACKETS: usize = 2;

/// What a part of a text is, from the loosest.
#[derive(Clone, Copy, Debug, PartialEq, Eq, PartialOrd, Ord)]
enum Part {
    Sum,
    Product,
    Power,
    Factor,
}

/// The text of a node in at most so many bytes, or refusal 20, 4, 13 or 14, in this order.
pub fn write_text(lists: &TextLists, id: u32, most_bytes: usize) -> Result<Vec<u8>, Refusal> {
    check_sound(lists)?;
    let store = lists.store.plain();
    let nodes = store.nodes().get(..=id as usize).ok_or(Refusal::Operand)?;
    let reached = reached(nodes);
    if nodes.iter().zip(&reached).any(|(node, reached)| *reached && !has_text(node, &lists.names)) {
        return Err(Refusal::NoText);
    }
    if length(nodes, &reached, &lists.names) > most_bytes.min(TEXT_BYTES_MAXIMUM) {
        return Err(Refusal::TextRoom);
    }
    let text = written(nodes, &lists.names);
    // Its nesting is all that can be wrong with it in reading.
    match steps_of(&text) {
        Ok(_) => Ok(text),
        Err(refusal) => {
            assert_eq!(refusal, Refusal::Nesting);
            Err(Refusal::TextRoom)
        }
    }
}

/// Which nodes stand in the formula of the last one.
fn reached(nodes: &[Node]) -> Vec<bool> {
    let mut reached = vec![false; nodes.len()];
    reached[nodes.len() - 1] = true;
    for (id, node) in nodes.iter().enumerate().rev() {
        if reached[id] {
            for &child in node.children.ids() {
                reached[child as usize] = true;
            }
        }
    }
    reached
}

/// Whether the node itself, its children aside, is one that a text can ask for.
fn has_text(node: &Node, names: &LentNames) -> bool {
    let constructors_flags = match node.kind {
        Kind::Operator(Operator::Add | Operator::Mul) => COMMUTATIVE_ASSOCIATIVE,
        _ => 0,
    };
    let is_of_the_text = match node.kind {
        Kind::Variable => names.name(node.payload).is_some_and(has_form_of_a_name),
        Kind::Constant => !is_not_a_number(node.payload),
        Kind::Operator(Operator::Add | Operator::Mul) => node.children.ids().len() == 2,
        Kind::Operator(operator) => operator != Operator::Mod,
        Kind::Function | Kind::Control => false,
    };
    is_of_the_text && node.flags & !CANONICAL == constructors_flags
}

/// "A letter, then letters or digits."
fn has_form_of_a_name(name: &[u8]) -> bool {
    name[0].is_ascii_alphabetic() && name.iter().all(u8::is_ascii_alphanumeric)
}

fn part_of(node: &Node) -> Part {
    match node.kind {
        Kind::Operator(Operator::Add | Operator::Sub) => Part::Sum,
        Kind::Operator(Operator::Mul | Operator::Div) => Part::Product,
        Kind::Operator(Operator::Pow) => Part::Power,
        _ => Part::Factor,
    }
}

/// An operator's sign, and what its operands must be at least to stand without brackets.
fn sign_and_parts(operator: Operator) -> (u8, &'static [Part]) {
    match operator {
        Operator::Add => (b'+', &[Part::Sum, Part::Product]),
        Operator::Sub => (b'-', &[Part::Sum, Part::Product]),
        Operator::Mul => (b'*', &[Part::Product, Part::Power]),
        Operator::Div => (b'/', &[Part::Product, Part::Power]),
        Operator::Pow => (b'^', &[Part::Factor, Part::Power]),
        Operator::Neg => (b'-', &[Part::Factor]),
        Operator::Mod => unreachable!("a Mod has no text"),
    }
}

fn leaf(node: &Node, names: &LentNames) -> Vec<u8> {
    if node.kind == Kind::Variable {
        return names.name(node.payload).expect("a variable with a name").to_vec();
    }
    let (bits, value) = (node.payload, f64::from_bits(node.payload));
    if value.is_sign_positive() && value <= WHOLE_MAXIMUM && value.fract() == 0.0 {
        (value as u32).to_string().into_bytes()
    } else {
        format!("{}{bits:016X}", char::from(BITS_SIGN)).into_bytes()
    }
}

/// The bytes of the last node's text, found node by node, so that a shared one is counted once.
fn length(nodes: &[Node], reached: &[bool], names: &LentNames) -> usize {
    let mut lengths: Vec<usize> = Vec::with_capacity(nodes.len());
    for (node, reached) in nodes.iter().zip(reached) {
        let length = match node.kind {
            _ if !reached => 0,
            Kind::Operator(operator) => {
                let operands = node.children.ids().iter().zip(sign_and_parts(operator).1);
                operands.fold(1, |length: usize, (&child, least)| {
                    let brackets = if part_of(&nodes[child as usize]) < *least { BRACKETS } else { 0 };
                    length.saturating_add(lengths[child as usize]).saturating_add(brackets)
                })
            }
            _ => leaf(node, names).len(),
        };
        lengths.push(length);
    }
    lengths[nodes.len() - 1]
}

/// What is still to be written.
enum Piece {
    Byte(u8),
    /// A node where at least such a part must stand.
    Node(u32, Part),
}

/// The text of the last node.
fn written(nodes: &[Node], names: &LentNames) -> Vec<u8> {
    let mut text = Vec::new();
    let mut pieces = vec![Piece::Node(nodes.len() as u32 - 1, Part::Sum)];
    while let Some(piece) = pieces.pop() {
        let (id, least) = match piece {
            Piece::Byte(byte) => {
                text.push(byte);
                continue;
            }
            Piece::Node(id, least) => (id, least),
        };
        let node = &nodes[id as usize];
        if part_of(node) < least {
            text.push(b'(');
            pieces.extend([Piece::Byte(b')'), Piece::Node(id, Part::Sum)]);
            continue;
        }
        let Kind::Operator(operator) = node.kind else {
            text.extend(leaf(node, names));
            continue;
        };
        match (sign_and_parts(operator), node.children.ids()) {
            ((sign, &[left, right]), &[first, second]) => {
                pieces.extend([Piece::Node(second, right), Piece::Byte(sign), Piece::Node(first, left)]);
            }
            ((sign, &[part]), &[operand]) => pieces.extend([Piece::Node(operand, part), Piece::Byte(sign)]),
            _ => unreachable!("an operator of one or two operands"),
        }
    }
    text
}
