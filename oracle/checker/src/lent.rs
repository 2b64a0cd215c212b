//! A store as lent lists (01, "dedup and arena"): nodes of 22 words (02 g),
//! slots of 32 bits that hold an id + 1 or 0.

use crate::hash::hash_of;
use crate::node::{CHILDREN_MAXIMUM, Children, Kind, Node};
use crate::refusal::Refusal;
use crate::store::{Store, TABLE_SIZE_MINIMUM};

/// Kind, payload, hash, coefficient bits, flags, child count, child places.
pub const WORDS_PER_NODE: usize = FIRST_CHILD_WORD + CHILDREN_MAXIMUM;
const FIRST_CHILD_WORD: usize = 6;

#[derive(Clone, Debug, PartialEq, Eq)]
pub struct LentStore {
    pub words: Vec<u64>,
    pub slots: Vec<u32>,
    pub node_count: u64,
    pub table_size: u64,
}

/// The words of a node.
pub fn words_of(node: &Node) -> [u64; WORDS_PER_NODE] {
    let mut words = [0; WORDS_PER_NODE];
    words[0] = node.kind.code();
    words[1] = node.payload;
    words[2] = hash_of(node);
    words[3] = node.coefficient_bits();
    words[4] = u64::from(node.flags);
    words[5] = node.children.ids().len() as u64;
    for (word, child) in words[FIRST_CHILD_WORD..].iter_mut().zip(node.children.places()) {
        *word = u64::from(child);
    }
    words
}

/// The node in these words, if kind, flags, child count and places can be one.
pub fn node_of(words: &[u64]) -> Option<Node> {
    let count = usize::try_from(words[5]).ok().filter(|count| *count <= CHILDREN_MAXIMUM)?;
    let ids: Option<Vec<u32>> =
        words[FIRST_CHILD_WORD..][..count].iter().map(|&word| u32::try_from(word).ok()).collect();
    Some(Node {
        kind: Kind::from_code(words[0])?,
        payload: words[1],
        flags: u8::try_from(words[4]).ok()?,
        children: Children::new(&ids?),
    })
}

impl LentStore {
    /// A fresh store: no nodes and 64 empty slots; other words and slots stay.
    pub fn fresh(words: Vec<u64>, mut slots: Vec<u32>) -> Result<LentStore, Refusal> {
        if slots.len() < TABLE_SIZE_MINIMUM {
            return Err(Refusal::NoSlots);
        }
        slots[..TABLE_SIZE_MINIMUM].fill(0);
        Ok(LentStore { words, slots, node_count: 0, table_size: TABLE_SIZE_MINIMUM as u64 })
    }

    pub fn lent_nodes(&self) -> usize {
        self.words.len() / WORDS_PER_NODE
    }

    /// The words of the node with this id, which is below the lent nodes.
    pub fn node_words(&self, id: usize) -> &[u64] {
        &self.words[id * WORDS_PER_NODE..][..WORDS_PER_NODE]
    }

    /// The plain machine's view of a sound store.
    pub fn plain(&self) -> Store {
        let nodes = (0..self.node_count as usize)
            .map(|id| node_of(self.node_words(id)).expect("a sound store holds nodes"))
            .collect();
        Store::with_nodes(nodes, self.lent_nodes(), self.slots.len(), self.table_size as usize)
    }

    /// Writes the plain machine's nodes back, and the table that they give.
    pub fn take_back(&mut self, store: &Store) {
        let nodes = store.nodes();
        for (id, node) in nodes.iter().enumerate() {
            self.words[id * WORDS_PER_NODE..][..WORDS_PER_NODE].copy_from_slice(&words_of(node));
        }
        self.node_count = nodes.len() as u64;
        self.table_size = store.table_size() as u64;
        let table = inserted(nodes, store.table_size());
        self.slots[..table.len()].copy_from_slice(&table);
    }
}

/// 02: "what inserting all nodes by ascending id into an empty table of the
/// present size gives, each at its first free place". The size is above the
/// number of nodes.
pub fn inserted(nodes: &[Node], size: usize) -> Vec<u32> {
    let mut table = vec![0; size];
    for (id, node) in nodes.iter().enumerate() {
        let mut place = (hash_of(node) % size as u64) as usize;
        while table[place] != 0 {
            place = (place + 1) % size;
        }
        table[place] = id as u32 + 1;
    }
    table
}
