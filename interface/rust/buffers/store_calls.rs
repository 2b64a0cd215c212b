//! Store calls, simplify and prune, and reading of nodes, with any arguments on any store.

use std::array::from_fn;

use curvalique::{Refusal, Store};

use crate::blocks::Blocks;
use crate::trial::{Group, Trial, block, check};

/// Calls 0 to 14 are store calls, 15 to 17 rewrite.
const FIRST_REWRITING: u64 = 15;
const CALLS: u64 = 18;
/// Operand lists go to one operand more than a function takes; their ids past the first few repeat these, so that many
/// of the long lists are answered.
const MOST_OPERANDS: usize = 18;
const DRAWN_IDS: usize = 6;
const MOST_ID_DRAWN: u64 = 70_000;
const EMPTY_SIZE: usize = 64;
const EMPTY_CALLS: u64 = 100;

struct Arguments {
    ids: [u32; MOST_OPERANDS],
    operands: Box<[u32]>,
    code: u32,
    flags: u32,
    depth: u32,
    setting: u32,
    word: u64,
    budget: u64,
}

fn any_id(trial: &mut Trial, count: u64) -> u32 {
    let end = if trial.below(8) == 0 { 1 << 31 } else { count % MOST_ID_DRAWN + 2 };
    trial.below(end) as u32
}

fn any_arguments(trial: &mut Trial, count: u64) -> Arguments {
    let few = [(); DRAWN_IDS].map(|()| any_id(trial, count));
    let ids = from_fn(|place| few[place % DRAWN_IDS]);
    let many = if trial.below(2) == 0 { DRAWN_IDS } else { MOST_OPERANDS };
    Arguments {
        ids,
        operands: block(&ids[..trial.place(many)]),
        code: trial.below(8) as u32,
        flags: trial.below(5) as u32,
        depth: trial.below(258) as u32,
        setting: trial.below(240) as u32,
        word: trial.any_word(),
        budget: trial.below(200),
    }
}

fn store_call(store: &mut Store, which: u64, drawn: &Arguments) -> Result<u32, Refusal> {
    let [a, b, c, d, ..] = drawn.ids;
    match which {
        0 => store.variable(a),
        1 => store.constant(f64::from_bits(drawn.word)),
        2 => store.add(a, b),
        3 => store.sub(a, b),
        4 => store.mul(a, b),
        5 => store.div(a, b),
        6 => store.pow(a, b),
        7 => store.modulo(a, b),
        8 => store.neg(a),
        9 => store.operator(drawn.code, drawn.flags, &drawn.operands),
        10 => store.function(a, &drawn.operands),
        11 => store.select(a, b, c),
        12 => store.if_else(a, b, c),
        13 => store.for_loop(a, b, c, d),
        _ => store.control(drawn.code, &drawn.operands),
    }
}

fn rewriting_call(store: &mut Store, which: u64, drawn: &Arguments) -> Result<u32, Refusal> {
    let root = drawn.ids[0];
    match which - FIRST_REWRITING {
        0 => store.simplify(root, drawn.depth, drawn.budget).map(|simplified| simplified.id),
        1 => store.prune(root, f64::from_bits(drawn.word)).map(|pruned| pruned.id),
        _ => store.prune_by_setting(root, drawn.setting).map(|pruned| pruned.id),
    }
}

/// 01: "A walk or prune stopped by 21 or 22 keeps what it interned and marked before."
fn keeps_a_part(which: u64, refusal: Refusal) -> bool {
    which >= FIRST_REWRITING && [Refusal::NO_NODE_PLACE, Refusal::NO_SLOT_PLACE].contains(&refusal)
}

fn number<T>(answer: &Result<T, Refusal>) -> u64 {
    answer.as_ref().err().map_or(0, |refusal| refusal.0)
}

/// One call, and the checks of what it left.
fn one_call(trial: &mut Trial, blocks: &mut Blocks) -> Result<u32, Refusal> {
    let before = blocks.copy();
    let drawn = any_arguments(trial, blocks.count);
    let which = trial.below(CALLS);
    let call = if which < FIRST_REWRITING { store_call } else { rewriting_call };
    let answer = blocks.call(|store| call(store, which, &drawn));
    trial.count_outcome(Group::StoreCalls, number(&answer));
    match answer {
        Ok(id) => check(u64::from(id) < blocks.count, "an answered id is below the count"),
        Err(refusal) => check(keeps_a_part(which, refusal) || before == *blocks, "a refusal changes nothing"),
    }
    let sound = answer != Err(Refusal::NOT_SOUND);
    check(blocks.is_sound() == sound, "20 exactly if the store is not sound");
    check(!sound || blocks.stays_past(&before), "what lies past the used words and slots stays");
    answer
}

fn read_any_node(trial: &mut Trial, blocks: &mut Blocks) {
    let id = any_id(trial, blocks.count);
    let answer = blocks.call(|store| store.node(id));
    trial.count_outcome(Group::StoreCalls, number(&answer));
}

/// Calls on lists of length 0, for both lists and for the nodes alone.
pub fn try_stores_without_nodes(trial: &mut Trial) {
    let mut no_lists = Blocks { nodes: Box::new([]), slots: Box::new([]), count: 0, size: EMPTY_SIZE };
    let mut no_nodes = Blocks::fresh(0, EMPTY_SIZE);
    for _ in 0..EMPTY_CALLS {
        check(one_call(trial, &mut no_lists) == Err(Refusal::NOT_SOUND), "no lists are no sound store");
        let answer = one_call(trial, &mut no_nodes);
        check(
            answer.is_err_and(|refusal| refusal != Refusal::NOT_SOUND),
            "a sound store without nodes answers nothing",
        );
    }
}

/// A store with random calls behind it.
pub fn grown_store(trial: &mut Trial, node_words: usize, slot_count: usize, calls: u64) -> Blocks {
    let mut blocks = Blocks::fresh(node_words, slot_count);
    for _ in 0..calls {
        check(one_call(trial, &mut blocks) != Err(Refusal::NOT_SOUND), "a sound store stays sound");
    }
    blocks
}

/// Calls on damaged copies of a store.
pub fn try_damaged_stores(trial: &mut Trial, blocks: &Blocks, rounds: u64) {
    for _ in 0..rounds {
        let mut damaged = blocks.damaged_copy(trial);
        read_any_node(trial, &mut damaged);
        let _ = one_call(trial, &mut damaged);
        let _ = one_call(trial, &mut damaged);
    }
}
