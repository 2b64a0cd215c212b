//! Stand-in for the search strategies, which the walk does not look at.

#[derive(Debug, Clone)]
pub struct SearchStrategy;
