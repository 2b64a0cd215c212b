//! The audit that decides refusal 20 for a lent store (01, "In every sound
//! store", and refusal 20; 02, request e).

use crate::lent::{LentStore, WORDS_PER_NODE, inserted, node_of, words_of};
use crate::node::Node;
use crate::store::{NODES_MAXIMUM, TABLE_SIZE_MINIMUM};

/// The largest flags of a stored node.
const STORED_FLAGS_MAXIMUM: u8 = 7;

/// Whether a lent store is sound.
pub fn sound(store: &LentStore) -> bool {
    sizes_are_sound(store) && nodes_of(store).is_some_and(|nodes| nodes_differ(&nodes) && table_is_sound(store, &nodes))
}

fn sizes_are_sound(store: &LentStore) -> bool {
    let LentStore { slots, node_count, table_size, .. } = store;
    table_size.is_power_of_two()
        && *table_size >= TABLE_SIZE_MINIMUM as u64
        && *table_size <= slots.len() as u64
        && *node_count <= table_size * 7 / 10
        && *node_count <= store.lent_nodes() as u64
        && *node_count <= NODES_MAXIMUM as u64
}

/// The nodes, if the words of each are those of a node that 01 lists, over
/// children with lower ids.
fn nodes_of(store: &LentStore) -> Option<Vec<Node>> {
    (0..store.node_count as usize).map(|id| sound_node(store.node_words(id), id)).collect()
}

fn sound_node(words: &[u64], id: usize) -> Option<Node> {
    debug_assert_eq!(words.len(), WORDS_PER_NODE);
    let node = node_of(words)?;
    let sound = node.kind.takes_payload(node.payload)
        && node.kind.takes_children(node.payload, node.children.ids().len())
        && node.flags <= STORED_FLAGS_MAXIMUM
        && node.children.ids().iter().all(|&child| (child as usize) < id)
        && words == words_of(&node);
    sound.then_some(node)
}

/// "No two nodes are one."
fn nodes_differ(nodes: &[Node]) -> bool {
    nodes.iter().enumerate().all(|(id, node)| !nodes[..id].iter().any(|earlier| earlier.is_one_with(node)))
}

/// 02: the table is what inserting all nodes by ascending id gives.
fn table_is_sound(store: &LentStore, nodes: &[Node]) -> bool {
    let size = store.table_size as usize;
    store.slots[..size] == inserted(nodes, size)
}
