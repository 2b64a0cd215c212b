//! The hash of a node (01, "dedup and arena"): FNV-1a, 64 bits, over the kind
//! byte, the payload (8 bytes) and each child (4 bytes), big-endian.

use crate::node::Node;

const OFFSET: u64 = 14_695_981_039_346_656_037;
const PRIME: u64 = 1_099_511_628_211;

/// FNV-1a of some bytes.
pub fn fnv_1a(bytes: impl IntoIterator<Item = u8>) -> u64 {
    bytes.into_iter().fold(OFFSET, |hash, byte| (hash ^ u64::from(byte)).wrapping_mul(PRIME))
}

pub fn hash_of(node: &Node) -> u64 {
    let mut bytes = vec![node.kind.code() as u8];
    bytes.extend(node.payload.to_be_bytes());
    for child in node.children.ids() {
        bytes.extend(child.to_be_bytes());
    }
    fnv_1a(bytes)
}
