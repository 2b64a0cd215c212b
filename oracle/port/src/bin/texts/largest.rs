//! Lists with one place left before the most of 01: 4,096 names, 65,536 nodes.

use checker::{Children, Kind, NAMES_MAXIMUM, Node, Store, TextLists};
use generator::Random;
use port::text_lists::{Sizes, fresh};

const NODES_MAXIMUM: usize = 65_536;
/// The table of so many nodes.
const SLOTS: usize = 131_072;
/// Places lent above the most that is used.
const MORE: usize = 3;

/// Lists, and texts to read one after another.
type Case = (TextLists, &'static [&'static str]);

/// The first new name takes the last place.
pub fn names() -> Case {
    let mut lists = fresh(&mut Random::new(0, 1), Sizes { nodes: 9, slots: 64, names: NAMES_MAXIMUM + MORE });
    for number in 1..NAMES_MAXIMUM {
        lists.names.number(format!("n{number}").as_bytes()).expect("a place for the name");
    }
    (lists, &["n7+x*n9-y", "y", "n4095/x"])
}

/// The first new node takes the last place.
pub fn nodes() -> Case {
    let sizes = Sizes { nodes: NODES_MAXIMUM + MORE, slots: SLOTS, names: 9 };
    let mut lists = fresh(&mut Random::new(0, 2), sizes);
    let constant =
        |bits: usize| Node { kind: Kind::Constant, payload: bits as u64, flags: 0, children: Children::NONE };
    let nodes = (1..NODES_MAXIMUM).map(constant).collect();
    lists.store.take_back(&Store::with_nodes(nodes, sizes.nodes, sizes.slots, SLOTS));
    (lists, &["x*y", "x"])
}
