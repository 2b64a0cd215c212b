//! The store's modules; `packed` is a stand-in.

pub mod arena;
pub mod builder;
pub mod dedup;
pub mod metadata;
pub mod node;
pub mod packed;
pub mod symbol;
