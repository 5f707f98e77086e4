//! What the differential programs share: deterministic inputs, the calls, and comparison of outcomes.

pub mod carried;
pub mod compare;
pub mod damage;
pub mod graphs;
pub mod library;
pub mod limits;
pub mod names;
pub mod random;
pub mod terms;
pub mod texts;
pub mod words;
