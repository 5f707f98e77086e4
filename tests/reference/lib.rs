//! Document 01, the landed items of document 02 and the calls that came after them, written a second time, in plain Rust, from the papers alone.
//!
//! The proved library is compared with this one by the programs in `tests/differential`. It is meant to be read
//! next to the papers: a set has one `bool` for each node, a relation one for each pair, texts are read into trees, and an edit is
//! made on a copy of the graph. Nothing here is fast on purpose, but nothing takes exponential time either.

pub mod answer;
pub mod calls;
pub mod carry;
pub mod chain;
pub mod clerk;
pub mod counts;
pub mod game;
pub mod graph;
pub mod join;
pub mod laws;
pub mod log;
pub mod meaning;
pub mod pages;
pub mod plans;
pub mod reader;
pub mod rewrite;
pub mod sheet;
pub mod steps;
pub mod syntax;
pub mod witness;
pub mod words;
