//! Document 01 in plain Rust with SSE2, written for speed alone: the fastest that we know, to measure the proved
//! library against. It shares nothing with the library or with the reference of the tests. A call allocates nothing.
//!
//! Where it saves: the sums take a block's bytes by vectors, each once, and a block with the check bytes of one without
//! rows is only seen to have none; an expression is evaluated only for the nodes
//! that still matter; reading a book or an edit leaves an index, so that carrying back looks for no end and no name
//! again.

mod calls;
mod eval;
mod fixed;
mod index;
mod measure;
mod reader;
mod rows;
mod sheet;
mod steps;
mod write;

pub use calls::{apply, carry_back, check, enter, judge};

/// Done is number 0, place 0; every other number is a refusal.
#[derive(Clone, Copy)]
pub struct Answer {
    pub number: u8,
    pub place: u32,
}

const DONE: Answer = Answer { number: 0, place: 0 };

#[inline(always)]
fn refused(number: u8, place: usize) -> Answer {
    Answer { number, place: place as u32 }
}
