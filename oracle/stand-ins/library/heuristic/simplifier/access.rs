//! Reaches the private pruning function, with the threshold handed in.

use crate::dag::builder::DagBuilder;
use crate::dag::node::DagNodeId;

pub fn prune(builder: &mut DagBuilder, root: DagNodeId, threshold: f64) -> DagNodeId {
    super::prune_additive_chain(builder, root, threshold)
}
