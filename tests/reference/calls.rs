//! "The calls": judge, carry out, carry back and enter, on buffers; closing and opening a node (document 02, item 6).

use crate::answer::{answer_of, refuse, Answer, Asked, DONE};
use crate::carry::carry;
use crate::clerk::Clerk;
use crate::graph::{Graph, MOST_NODES};
use crate::meaning::first_broken;
use crate::{reader, sheet, steps};

/// Judge's answer, and the first broken rule as a part of the book: empty except for 41.
#[derive(Clone, Copy, PartialEq, Eq, Debug)]
pub struct Judged {
    pub answer: Answer,
    pub start: usize,
    pub length: usize,
}

/// Carry back's answer, and the length of the carried book: 0 except for done.
#[derive(Clone, Copy, PartialEq, Eq, Debug)]
pub struct Lengthy {
    pub answer: Answer,
    pub length: usize,
}

/// Judge a book on a sheet.
pub fn judge(bytes: &[u8], book: &[u8]) -> Judged {
    let judged = sheet::ask(bytes).map(|_| judge_on(&sheet::read(bytes), book));
    judged.unwrap_or_else(|answer| Judged { answer, start: 0, length: 0 })
}

/// The same on the graph of a sound sheet.
pub fn judge_on(graph: &Graph, book: &[u8]) -> Judged {
    judged(graph, book).unwrap_or_else(|answer| Judged { answer, start: 0, length: 0 })
}

fn judged(graph: &Graph, book: &[u8]) -> Asked<Judged> {
    let rules = reader::book(book, graph.n)?;
    Ok(match first_broken(graph, rules.iter().map(|placed| &placed.rule)) {
        None => Judged { answer: DONE, start: 0, length: 0 },
        Some(place) => {
            let part = rules[place].part.clone();
            Judged { answer: Answer { number: 41, place }, start: part.start, length: part.len() }
        }
    })
}

/// Carry out an edit without a book.
pub fn apply(bytes: &mut [u8], edit: &[u8]) -> Answer {
    let after = applied(bytes, edit);
    if let Ok(after) = &after {
        bytes.copy_from_slice(after);
    }
    answer_of(&after)
}

fn applied(bytes: &[u8], edit: &[u8]) -> Asked<Vec<u8>> {
    sheet::ask(bytes)?;
    Ok(sheet::store(&apply_on(&sheet::read(bytes), edit)?))
}

/// The same on the graph of a sound sheet: the graph that the steps leave.
pub fn apply_on(graph: &Graph, edit: &[u8]) -> Asked<Graph> {
    let steps = reader::edit(edit, graph.n)?;
    Ok(steps::carried_out(graph, &steps))
}

/// Carry a book back into an output.
pub fn carry_back(book: &[u8], edit: &[u8], out: &mut [u8]) -> Lengthy {
    let text = carried_text(book, edit, out.len());
    let length = text.as_ref().map_or(0, |text| text.len());
    if let Ok(text) = &text {
        out[..length].copy_from_slice(text);
    }
    Lengthy { answer: answer_of(&text), length }
}

fn carried_text(book: &[u8], edit: &[u8], room: usize) -> Asked<Vec<u8>> {
    let rules = reader::book(book, MOST_NODES)?;
    let steps = reader::edit(edit, MOST_NODES)?;
    let text = carry(rules.iter().map(|placed| &placed.rule), &steps)?.text;
    if room < text.len() {
        return refuse(33, text.len());
    }
    Ok(text)
}

/// Enter an edit.
pub fn enter(bytes: &mut [u8], book: &[u8], edit: &[u8], scratch: &mut [u8]) -> Answer {
    let mut clerk = match opened(bytes, book) {
        Ok(clerk) => clerk,
        Err(refusal) => return refusal,
    };
    let called = clerk.call(edit, scratch.len());
    called.write(scratch);
    if called.answer == DONE {
        bytes.copy_from_slice(&sheet::store(&clerk.graph));
    }
    called.answer
}

/// Close a node.
pub fn close(bytes: &mut [u8], book: &[u8], node: usize) -> Answer {
    set_use(bytes, book, node, false)
}

/// Open a node.
pub fn open(bytes: &mut [u8], book: &[u8], node: usize) -> Answer {
    set_use(bytes, book, node, true)
}

fn set_use(bytes: &mut [u8], book: &[u8], node: usize, used: bool) -> Answer {
    let mut clerk = match opened(bytes, book) {
        Ok(clerk) => clerk,
        Err(refusal) => return refusal,
    };
    let answer = clerk.set_use(node, used);
    if answer == DONE {
        bytes.copy_from_slice(&sheet::store(&clerk.graph));
    }
    answer
}

fn opened(bytes: &[u8], book: &[u8]) -> Asked<Clerk> {
    let n = sheet::ask(bytes)?;
    let rules = reader::book(book, n)?;
    Ok(Clerk::new(sheet::read(bytes), rules))
}
