//! The engine's modules; `strategy` is a stand-in.

pub mod engine;
pub mod knobs;
pub mod patterns;
pub mod rule_registry;
pub mod simplifier;
pub mod strategy;
