//! A reading on lent lists: refusals 20, 1, 11, 12 and 10 before any name or
//! node is made; stopped by 24, 21 or 22 it keeps those made before.

use super::derivation::Derivation;
use super::reader::{Step, steps_of};
use super::splits::derivations;
use super::{NESTING_MAXIMUM, check_length};
use crate::audit::sound;
use crate::lent::LentStore;
use crate::names::LentNames;
use crate::node::Operator;
use crate::refusal::Refusal;
use crate::store::Store;

/// The lists that a text is read into.
#[derive(Clone, Debug, PartialEq, Eq)]
pub struct TextLists {
    pub store: LentStore,
    pub names: LentNames,
}

/// Reads a text; the id of its root.
pub fn read_text(lists: &mut TextLists, text: &[u8]) -> Result<u32, Refusal> {
    check_sound(lists)?;
    let steps = steps_of(text)?;
    make(lists, |store, names| make_steps(&steps, store, names))
}

/// Reads a text by its derivations, of which there must be at most one.
pub fn read_text_by_definition(lists: &mut TextLists, text: &[u8]) -> Result<u32, Refusal> {
    check_sound(lists)?;
    check_length(text)?;
    let found = derivations(text);
    assert!(found.len() <= 1, "{} readings of {:?}", found.len(), String::from_utf8_lossy(text));
    let reading: &Derivation = found.first().ok_or(Refusal::Language)?;
    if reading.nesting() > NESTING_MAXIMUM {
        return Err(Refusal::Nesting);
    }
    if reading.has_not_a_number() {
        return Err(Refusal::NotANumber);
    }
    make(lists, |store, names| reading.make(store, names))
}

/// Refusal 20.
pub fn check_sound(lists: &TextLists) -> Result<(), Refusal> {
    if sound(&lists.store) && lists.names.sound() { Ok(()) } else { Err(Refusal::NotSound) }
}

fn make(
    lists: &mut TextLists,
    maker: impl FnOnce(&mut Store, &mut LentNames) -> Result<u32, Refusal>,
) -> Result<u32, Refusal> {
    let mut store = lists.store.plain();
    let root = maker(&mut store, &mut lists.names);
    lists.store.take_back(&store);
    root
}

/// Does the steps in their order, with the ids of finished operands on a stack.
fn make_steps(steps: &[Step], store: &mut Store, names: &mut LentNames) -> Result<u32, Refusal> {
    let mut finished: Vec<u32> = Vec::new();
    for step in steps {
        let id = match *step {
            Step::Constant(bits) => store.constant(bits)?,
            Step::Variable(name) => store.variable(names.number(name)?)?,
            Step::Operator(operator) => {
                let operands = finished.split_off(finished.len() - operand_count(operator));
                match operator {
                    Operator::Add => store.add(operands[0], operands[1])?,
                    Operator::Mul => store.mul(operands[0], operands[1])?,
                    _ => store.operator(operator, 0, &operands)?,
                }
            }
        };
        finished.push(id);
    }
    Ok(finished[0])
}

fn operand_count(operator: Operator) -> usize {
    if operator == Operator::Neg { 1 } else { 2 }
}
