//! Reaches the engine's private walk.

use std::time::Instant;

use super::HeuristicEngine;
use crate::dag::builder::DagBuilder;
use crate::dag::node::DagNodeId;

pub fn rewrite(engine: &mut HeuristicEngine, builder: &mut DagBuilder, root: DagNodeId) -> DagNodeId {
    engine.rewrite_iterative(builder, root, Instant::now())
}
