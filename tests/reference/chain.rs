//! Document 02, item 9: edits sent as a chain.

use crate::answer::{answer_of, refuse, Asked};
use crate::calls::Lengthy;
use crate::graph::MOST_NODES;
use crate::reader::{self, LONGEST};
use crate::syntax::Coded;

/// Join two edits into an output.
pub fn join_edits(p: &[u8], q: &[u8], out: &mut [u8]) -> Lengthy {
    let text = joined_text(p, q, out.len());
    let length = text.as_ref().map_or(0, Vec::len);
    if let Ok(text) = &text {
        out[..length].copy_from_slice(text);
    }
    Lengthy { answer: answer_of(&text), length }
}

/// Q stands where P's end stood: the end reached through the Z parts alone.
fn joined_text(p: &[u8], q: &[u8], room: usize) -> Asked<Vec<u8>> {
    let first = reader::edit(p, MOST_NODES)?;
    let second = reader::edit(q, MOST_NODES)?;
    let text = [first, second].concat().code();
    if text.len() > LONGEST {
        return refuse(21, 0);
    }
    if room < text.len() {
        return refuse(33, text.len());
    }
    Ok(text)
}
