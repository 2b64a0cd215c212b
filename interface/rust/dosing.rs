//! Builds the dosing formula of samples/dosing.txt by calls of the library, simplifies it, prunes it with the knob fully
//! down and then at a threshold, walks the answer strictly, and reads its nodes back. Standard output gets the listing,
//! which the loader reads; standard error gets what the walks and prunes report.

use std::process::ExitCode;

use curvalique::{NODE_WORDS, Pruned, Refusal, Store};

const NODES: usize = 64;
const SLOTS: usize = 128;

// The symbols of the variables, and what is asked of simplify and of both prunes.
const FLOW: u32 = 1;
const CHLORINE: u32 = 2;
const DEPTH: u32 = 255;
const BUDGET: u64 = 1_000_000;
const KNOB_DOWN: u32 = 0;
const THRESHOLD: f64 = 0.01;

/// 2 * (flow * 1.0) + 0.5 * chlorine + 0.004
fn formula(store: &mut Store) -> Result<u32, Refusal> {
    let (flow, chlorine) = (store.variable(FLOW)?, store.variable(CHLORINE)?);
    let (one, two) = (store.constant(1.0)?, store.constant(2.0)?);
    let (half, trace) = (store.constant(0.5)?, store.constant(0.004)?);
    let plain = store.mul(flow, one)?;
    let fed = store.mul(two, plain)?;
    let acid = store.mul(half, chlorine)?;
    let both = store.add(fed, acid)?;
    store.add(both, trace)
}

fn simplify(store: &mut Store, root: u32) -> Result<u32, Refusal> {
    let simplified = store.simplify(root, DEPTH, BUDGET)?;
    let spent = u64::from(simplified.spent);
    eprintln!("simplified {root} to {}: spent {spent}, steps {}", simplified.id, simplified.steps);
    Ok(simplified.id)
}

fn report(root: u32, pruned: Pruned) -> u32 {
    eprintln!("pruned {root} to {}: kept {}, dropped {}", pruned.id, pruned.kept, pruned.dropped);
    pruned.id
}

/// The knob fully down prunes nothing: the formula is answered itself.
fn prune_knob_down(store: &mut Store, root: u32) -> Result<u32, Refusal> {
    store.prune_by_setting(root, KNOB_DOWN).map(|pruned| report(root, pruned))
}

fn prune(store: &mut Store, root: u32) -> Result<u32, Refusal> {
    store.prune(root, THRESHOLD).map(|pruned| report(root, pruned))
}

/// The answer is as the laboratory evaluates it: a strict walk finds nothing to do.
fn simplify_strictly(store: &mut Store, root: u32) -> Result<u32, Refusal> {
    let simplified = store.simplify_strictly(root, DEPTH, BUDGET)?;
    let spent = u64::from(simplified.spent);
    eprintln!("simplified {root} strictly to {}: spent {spent}, steps {}", simplified.id, simplified.steps);
    Ok(simplified.id)
}

fn print_node(store: &Store, id: u32) -> Result<(), Refusal> {
    let node = store.node(id)?;
    let children: String = node.children().iter().map(|child| format!(" {child}")).collect();
    println!("{id} {} {:016X} {}{children}", node.kind, node.payload, node.flags);
    Ok(())
}

fn run() -> Result<(), Refusal> {
    let (mut nodes, mut slots) = ([0; NODES * NODE_WORDS], [0; SLOTS]);
    let mut store = Store::fresh(&mut nodes, &mut slots)?;
    let root = formula(&mut store)?;
    let simplified = simplify(&mut store, root)?;
    let untouched = prune_knob_down(&mut store, simplified)?;
    let pruned = prune(&mut store, untouched)?;
    println!("ok {}", simplify_strictly(&mut store, pruned)?);
    (0..store.count as u32).try_for_each(|id| print_node(&store, id))
}

fn main() -> ExitCode {
    if let Err(refusal) = run() {
        eprintln!("dosing: {refusal}");
        return ExitCode::FAILURE;
    }
    ExitCode::SUCCESS
}
