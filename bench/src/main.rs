//! Times the port beside the Rust original on the same inputs, in one process, and checks that both give the same answers.
//! Arguments, if any, choose measurements by their first letters; `comparing SEED COUNT` compares prunes of random sums and times nothing.

mod by_hand;
mod comparing;
mod inputs;
mod ours;
mod sheets;
mod store;
mod theirs;
mod timing;

use inputs::{Chain, Changing, Formula, Mixed, Settled, Side, THRESHOLD, requests, variables};
use ours::Ours;
use sheets::Writer;
use store::Store;
use theirs::{unchanged, with_counters, with_hash, without_clock};
use timing::{ROUNDS, interleaved, median, timed};

/// Requests for new nodes, so that the store grows from 1,000 to nearly 65,536 nodes.
const SIZES: [u32; 5] = [1_000, 4_096, 16_384, 30_000, 65_000];
const TERMS: u32 = 4_096;
const MEASUREMENTS: [&str; 8] = ["interning", "folding", "settled", "pruning", "sheets", "hand", "hashing", "auditing"];

/// Our time, and the Rust's: as it is, over 01's hash and, where there is a walk, without its clock read.
fn row(what: &str, unit: &str, ours: f64, theirs: &[f64]) {
    let beside = |time: Option<&f64>| time.map_or(String::new(), |time| format!("{time:.1} ({:.2})", time / ours));
    let [unchanged, hashed, clockless] = std::array::from_fn(|party| beside(theirs.get(party)));
    println!("| {what} | {unit} | {ours:.1} | {unchanged} | {hashed} | {clockless} |");
}

/// Interning, half of the requests for nodes that are there already.
fn interning(store: &mut Ours, distinct: u32) {
    let requests = requests(distinct, u64::from(distinct));
    let prepared: Vec<_> = requests.iter().map(unchanged::prepare).collect();
    let hashed: Vec<_> = requests.iter().map(with_hash::prepare).collect();
    let many = requests.len() as f64;
    let mut ids = [(); 3].map(|()| Vec::with_capacity(requests.len()));
    let [ours, theirs, theirs_hashed] = &mut ids;
    let mut nodes = [0; 3];
    let [our_nodes, their_nodes, their_hashed_nodes] = &mut nodes;
    let times = interleaved(&mut [
        &mut || {
            store.clear();
            variables(store);
            ours.clear();
            let time = timed(|| ours.extend(requests.iter().map(|request| store.request(request)))).0;
            *our_nodes = store.nodes().len();
            time / many
        },
        &mut || {
            let (time, nodes) = unchanged::time_requests(&prepared, theirs);
            *their_nodes = nodes;
            time / many
        },
        &mut || {
            let (time, nodes) = with_hash::time_requests(&hashed, theirs_hashed);
            *their_hashed_nodes = nodes;
            time / many
        },
    ]);
    assert!(ids[0] == ids[1] && ids[0] == ids[2] && nodes == [nodes[0]; 3]);
    row(&format!("interning: {} requests, {} nodes", requests.len(), nodes[0]), "ns a request", times[0], &times[1..]);
}

/// A walk of a formula. Answer, turns and nodes are compared with the counted copy before any time is taken.
fn walking(store: &mut Ours, what: &str, formula: &impl Formula) {
    let root = fresh(store, formula);
    let before = store.nodes().len();
    let (answer, steps) = store.simplify(root);
    let nodes = store.nodes();
    let mut counted = with_counters::Theirs::new();
    formula.build(&mut counted);
    counted::counts::take();
    assert_eq!(answer, counted.simplify(&mut with_counters::Theirs::engine(), root));
    assert_eq!(steps, counted::counts::take().turns);
    assert_eq!(nodes, counted.nodes());

    let turns = steps as f64;
    let times = interleaved(&mut [
        &mut || {
            assert_eq!(root, fresh(store, formula));
            let (time, (id, _)) = timed(|| store.simplify(root));
            assert_eq!(id, answer);
            time / turns
        },
        &mut || unchanged::time_walk(formula, root, answer) / turns,
        &mut || with_hash::time_walk(formula, root, answer) / turns,
        &mut || without_clock::time_walk(formula, root, answer) / turns,
    ]);
    let what = format!("{what}: {before} nodes, {} new, {steps} turns", nodes.len() - before);
    row(&what, "ns a turn", times[0], &times[1..]);
}

/// A formula in a fresh store.
fn fresh(store: &mut Ours, formula: &impl Formula) -> u32 {
    store.clear();
    formula.build(store)
}

/// A prune of a chain of `TERMS` terms; or, after as many untimed ones as `earlier` says, a prune whose nodes are there.
fn pruning(store: &mut Ours, kind: &str, chain: &impl Formula, threshold: f64, earlier: usize) {
    let root = fresh(store, chain);
    let before = store.nodes().len();
    let (answer, kept, dropped) = store.prune(root, threshold);
    let nodes = store.nodes();
    let mut theirs = unchanged::Theirs::new();
    chain.build(&mut theirs);
    assert_eq!(answer, theirs.prune(root, threshold));
    assert_eq!(nodes, theirs.nodes());

    let many = f64::from(TERMS);
    let times = interleaved(&mut [
        &mut || {
            assert_eq!(root, fresh(store, chain));
            (0..earlier).for_each(|_| assert_eq!(store.prune(root, threshold).0, answer));
            let (time, (id, _, _)) = timed(|| store.prune(root, threshold));
            assert_eq!(id, answer);
            time / many
        },
        &mut || unchanged::time_prune(chain, threshold, earlier, root, answer) / many,
        &mut || with_hash::time_prune(chain, threshold, earlier, root, answer) / many,
    ]);
    let again = if earlier == 0 { "" } else { " again" };
    let what = format!("pruning{again}: {TERMS} terms{kind}, {kept} kept, {dropped} dropped, among {before} nodes");
    row(&what, "ns a term", times[0], &times[1..]);
}

/// The same prune by hand, beside the port's and the Rust's, each on lists of its own: who comes after another on the same lists
/// finds them in the caches.
fn pruning_by_hand(store: &mut Ours, chain: &Chain) {
    let root = fresh(store, chain);
    let answer = store.prune(root, THRESHOLD).0;
    let mut hand = Ours::new();
    fresh(&mut hand, chain);
    assert_eq!(answer, by_hand::prune(&mut hand, root, THRESHOLD));
    assert_eq!(store.nodes(), hand.nodes());

    let many = f64::from(chain.terms);
    let times = interleaved(&mut [
        &mut || {
            fresh(store, chain);
            timed(|| store.prune(root, THRESHOLD)).0 / many
        },
        &mut || {
            fresh(&mut hand, chain);
            timed(|| by_hand::prune(&mut hand, root, THRESHOLD)).0 / many
        },
        &mut || unchanged::time_prune(chain, THRESHOLD, 0, root, answer) / many,
    ]);
    println!("| {} | {:.1} | {:.1} | {:.1} ({:.2}) |", chain.others, times[0], times[1], times[2], times[2] / times[1]);
}

/// A whole sheet on a fresh store: read, built, simplified and pruned.
fn whole_sheet(store: &mut Ours, items: u32) {
    let (sheet, records) = Writer::sheet(&Changing { items });
    let answer = store.run_sheet(&sheet);
    let mut theirs = unchanged::Theirs::new();
    assert_eq!(answer, sheets::perform(&sheet, &mut theirs));
    assert_eq!(store.nodes(), theirs.nodes());

    let many = f64::from(records);
    let times = interleaved(&mut [
        &mut || timed(|| assert_eq!(store.run_sheet(&sheet), answer)).0 / many,
        &mut || timed(|| assert_eq!(sheets::perform(&sheet, &mut unchanged::Theirs::new()), answer)).0 / many,
        &mut || timed(|| assert_eq!(sheets::perform(&sheet, &mut with_hash::Theirs::new()), answer)).0 / many,
        &mut || timed(|| assert_eq!(sheets::perform(&sheet, &mut without_clock::Theirs::new()), answer)).0 / many,
    ]);
    let what = format!("whole sheet: {records} records, {} bytes, {} nodes", sheet.len(), store.nodes().len());
    row(&what, "ns a record", times[0], &times[1..]);
}

/// The hash alone, which 01 prescribes by bytes: each waiting for the one before, as in a build, and side by side.
fn hashing(what: &str, kind: u64, payload: u64, children: &[u64]) {
    const MANY: usize = 20_000;
    let none = std::hint::black_box(0);
    let times = interleaved(&mut [
        &mut || timed(|| (0..MANY).fold(0, |last, _| ours::node_hash(kind ^ (last & none), payload, children))).0 / MANY as f64,
        &mut || timed(|| (0..MANY).fold(0, |sum, _| sum ^ ours::node_hash(kind, payload, children))).0 / MANY as f64,
    ]);
    println!("| {what} | {:.1} | {:.1} |", times[0], times[1]);
}

/// The audit, and a public call with its audit.
fn auditing(store: &mut Ours, distinct: u32) {
    store.clear();
    let ids = variables(store);
    for request in requests(distinct, u64::from(distinct)) {
        store.request(&request);
    }
    let nodes = store.nodes().len();
    let mut audits: Vec<f64> = (0..ROUNDS).map(|_| timed(|| assert!(store.audit())).0).collect();
    let mut calls: Vec<f64> = (0..ROUNDS).map(|_| timed(|| store.audited_operator(0, 3, &ids[..2])).0).collect();
    println!("| {nodes} | {:.1} | {:.1} |", median(&mut audits) / nodes as f64, median(&mut calls) / 1_000.0);
}

fn main() {
    let words: Vec<String> = std::env::args().skip(1).collect();
    let chosen = |what: &str| words.is_empty() || words.iter().any(|word| what.starts_with(word.as_str()));
    if words.first().is_some_and(|word| word == "comparing") {
        let numbers: Vec<u64> = words[1..].iter().map(|word| word.parse().expect("comparing SEED COUNT")).collect();
        let &[seed, many] = numbers.as_slice() else { panic!("comparing SEED COUNT") };
        assert!(many > 0, "comparing SEED COUNT");
        return comparing::compare(seed, many);
    }
    assert!(words.iter().all(|word| MEASUREMENTS.iter().any(|name| name.starts_with(word.as_str()))), "one of {MEASUREMENTS:?}");
    let mut store = Ours::new();
    println!("| what | unit | ours | the Rust (ratio) | over 01's hash (ratio) | without its clock read (ratio) |\n|---|---|---|---|---|---|");
    if chosen("interning") {
        for distinct in SIZES {
            interning(&mut store, distinct);
        }
    }
    if chosen("folding") {
        for items in [64, 256, 1_024, 4_096] {
            walking(&mut store, "walk that folds and merges", &Changing { items });
        }
    }
    if chosen("settled") {
        for items in [256, 1_024, 4_096] {
            walking(&mut store, "walk that changes nothing", &Settled { items });
        }
    }
    if chosen("pruning") {
        let chain = |others, side| Chain { terms: TERMS, others, side };
        for earlier in [0, 1] {
            for others in [0, 16_000, 50_000] {
                pruning(&mut store, "", &chain(others, Side::Left), THRESHOLD, earlier);
            }
            pruning(&mut store, "", &chain(0, Side::Left), 0.0, earlier);
            pruning(&mut store, ", sums on the right", &chain(16_000, Side::Right), THRESHOLD, earlier);
            for others in [0, 16_000, 50_000] {
                pruning(&mut store, " at random", &Mixed { terms: TERMS, others }, THRESHOLD, earlier);
            }
        }
    }
    if chosen("sheets") {
        for items in [8, 32, 96] {
            whole_sheet(&mut store, items);
        }
    }
    if chosen("hand") {
        println!("\n| other nodes | ours, ns a term | by hand | the Rust (ratio to by hand) |\n|---|---|---|---|");
        for others in [0, 16_000, 50_000] {
            pruning_by_hand(&mut store, &Chain { terms: TERMS, others, side: Side::Left });
        }
    }
    if chosen("hashing") {
        println!("\n| hash of | each after the last, ns | side by side, ns |\n|---|---|---|");
        hashing("a constant (9 bytes)", 1, 0x3FF8_0000_0000_0000, &[]);
        hashing("an Add of two (17 bytes)", 2, 0, &[30_000, 40_000]);
        hashing("a control of four (25 bytes)", 32, 2, &[30_000, 40_000, 50_000, 60_000]);
    }
    if chosen("auditing") {
        println!("\n| nodes | audit, ns a node | a public call with its audit, µs |\n|---|---|---|");
        for distinct in SIZES {
            auditing(&mut store, distinct);
        }
    }
}
