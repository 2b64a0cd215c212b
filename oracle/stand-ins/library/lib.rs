//! The root of a crate around the Rust original's files.

#![allow(dead_code)]

pub mod counts;
pub mod dag;
pub mod egraph;
pub mod heuristic;
pub mod machine;
pub mod parser;
