//! The plain clerk of "The run": he makes the steps on a copy and judges the copy. He closes and opens nodes in the same way.

use crate::answer::{refuse, Answer, Asked, DONE};
use crate::carry::{carry, Carried};
use crate::graph::Graph;
use crate::meaning::first_broken;
use crate::reader::{self, Placed};
use crate::steps::carried_out;
use crate::syntax::Coded;

/// He holds one graph, and the book.
pub struct Clerk {
    pub graph: Graph,
    book: Vec<Placed>,
}

/// His answer to one call, and the carried book that done and 41 have.
pub struct Called {
    pub answer: Answer,
    pub carried: Option<Carried>,
}

impl Called {
    /// Document 02, item 10: after done or 41 each carried rule has been written at the start of the scratch over the one before,
    /// up to the first broken rule.
    pub fn write(&self, scratch: &mut [u8]) {
        let Some(carried) = &self.carried else { return };
        let judged = if self.answer == DONE { carried.rules.len() } else { self.answer.place + 1 };
        for rule in &carried.rules[..judged] {
            let code = rule.code();
            scratch[..code.len()].copy_from_slice(&code);
        }
    }
}

impl Clerk {
    pub fn new(graph: Graph, book: Vec<Placed>) -> Clerk {
        Clerk { graph, book }
    }

    pub fn call(&mut self, edit: &[u8], scratch: usize) -> Called {
        match self.ask(edit, scratch) {
            Err(answer) => Called { answer, carried: None },
            Ok((copy, carried)) => Called { answer: self.judge(copy), carried: Some(carried) },
        }
    }

    /// 21 to 26, then 31 and 32 of the whole book, then 33 of its longest rule: the graph after the steps, and the carried book.
    fn ask(&self, edit: &[u8], scratch: usize) -> Asked<(Graph, Carried)> {
        let steps = reader::edit(edit, self.graph.n)?;
        let carried = carry(self.book.iter().map(|placed| &placed.rule), &steps)?;
        let needed = carried.longest();
        if scratch < needed {
            return refuse(33, needed);
        }
        Ok((carried_out(&self.graph, &steps), carried))
    }

    /// Closes a node or opens it: range, nothing to do, 54, 41.
    pub fn set_use(&mut self, node: usize, used: bool) -> Answer {
        if node >= self.graph.n {
            return Answer { number: 7, place: 0 };
        }
        if self.graph.in_use[node] == used {
            return DONE;
        }
        if !used && (self.graph.has_any(node) || self.graph.is_only(node)) {
            return Answer { number: 54, place: node };
        }
        let mut copy = self.graph.clone();
        copy.in_use[node] = used;
        self.judge(copy)
    }

    /// Keeps the copy if each rule holds on it.
    fn judge(&mut self, copy: Graph) -> Answer {
        match first_broken(&copy, self.book.iter().map(|placed| &placed.rule)) {
            Some(place) => Answer { number: 41, place },
            None => {
                self.graph = copy;
                DONE
            }
        }
    }
}
