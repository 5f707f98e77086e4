//! Reading a book or an edit whole, with the questions 11 to 16 or 21 to 26, into an index of where its parts stand.

use crate::fixed::FixedVec;
use crate::reader::{Number, Occurrences, Reader, Sort, TEXT_BYTES};
use crate::{refused, Answer};

const MOST_RULES: usize = 32;

pub struct BookIndex {
    pub rules: usize,
    /// Rule r stands from start[r] to start[r + 1], and its occurrences from names[r] to names[r + 1].
    pub start: [u16; MOST_RULES + 1],
    pub names: [u16; MOST_RULES + 1],
    pub occurrences: Occurrences,
    pub levels: u32,
}

impl BookIndex {
    #[inline(always)]
    pub fn new() -> Self {
        let none = [0; MOST_RULES + 1];
        BookIndex { rules: 0, start: none, names: none, occurrences: FixedVec::new(), levels: 0 }
    }

    /// Questions 11 to 16. With NOTE the occurrences are noted.
    pub fn read<const NOTE: bool>(&mut self, book: &[u8], n: usize) -> Result<(), Answer> {
        if book.len() > TEXT_BYTES {
            return Err(refused(11, 0));
        }
        let mut reader = Reader::of_book(book, n);
        while reader.at < book.len() {
            if self.rules == MOST_RULES {
                return Err(refused(16, reader.at));
            }
            let levels = reader.term::<NOTE>(Sort::Rule, 1, &mut self.occurrences)?;
            self.levels = self.levels.max(levels);
            self.rules += 1;
            self.start[self.rules] = reader.at as u16;
            self.names[self.rules] = self.occurrences.len() as u16;
        }
        Ok(())
    }
}

/// Stands for a step where there is none.
pub const NO_STEP: u16 = u16::MAX;

/// Steps are known by their number in the order of the text. P, Q and the whole edit are lists of steps.
#[derive(Clone, Copy)]
pub struct Step {
    pub op: u8,
    /// What the step changes; 0 for 35.
    pub name: u8,
    /// Levels of its expression; for 35 of its rule.
    pub levels: u8,
    /// A bit for each rule whose carried text has this step's expression; a step with none is not shown. Set by
    /// measuring.
    pub shown_in: u32,
    /// The expression, or rule, stands from `start` to `end`, its occurrences from `names` to `names_end`.
    pub start: u16,
    pub end: u16,
    pub names: u16,
    pub names_end: u16,
    /// The 35 whose P or Q has this step, and the other steps of that branch.
    pub parent: u16,
    pub previous: u16,
    pub next: u16,
    /// For 35: the last steps of P and Q, and the first steps to be made when its rule holds and when not.
    pub p_last: u16,
    pub q_last: u16,
    pub p: u16,
    pub q: u16,
    /// The step to be made when this one, for 35 with its P or Q, is done.
    pub then: u16,
    /// The first of the steps made after this one that is shown. Set by measuring.
    pub next_shown: u16,
    /// The last step before this one on the same name. Set while writing.
    pub same: u16,
    /// Where the name under this step was first written, if `written_end` is not 0. Set while writing.
    pub written: u16,
    pub written_end: u16,
}

/// What of a step is known before it is read.
const UNREAD: Step = Step {
    op: 0x30,
    name: 0,
    levels: 0,
    shown_in: 0,
    start: 0,
    end: 0,
    names: 0,
    names_end: 0,
    parent: NO_STEP,
    previous: NO_STEP,
    next: NO_STEP,
    p_last: NO_STEP,
    q_last: NO_STEP,
    p: NO_STEP,
    q: NO_STEP,
    then: NO_STEP,
    next_shown: NO_STEP,
    same: NO_STEP,
    written: 0,
    written_end: 0,
};

/// The first and the last step of a list.
type List = (u16, u16);

pub struct EditIndex {
    /// A step takes at least three bytes.
    pub steps: FixedVec<Step, { TEXT_BYTES / 3 }>,
    pub occurrences: Occurrences,
    pub first: u16,
    pub last: u16,
}

impl EditIndex {
    #[inline(always)]
    pub fn new() -> Self {
        EditIndex { steps: FixedVec::new(), occurrences: FixedVec::new(), first: NO_STEP, last: NO_STEP }
    }

    /// Questions 21 to 26. With NOTE the occurrences are noted.
    pub fn read<const NOTE: bool>(&mut self, edit: &[u8], n: usize) -> Result<(), Answer> {
        if edit.len() > TEXT_BYTES {
            return Err(refused(21, 0));
        }
        let mut reader = Reader::of_edit(edit, n);
        (self.first, self.last) = self.list::<NOTE>(&mut reader, 1, NO_STEP)?;
        if reader.at < edit.len() {
            return Err(refused(26, reader.at));
        }
        self.link();
        Ok(())
    }

    /// Reads a list to its 30.
    fn list<const NOTE: bool>(&mut self, reader: &mut Reader, level: u32, parent: u16) -> Result<List, Answer> {
        let (mut first, mut last) = (NO_STEP, NO_STEP);
        loop {
            let op = reader.code(level, |code| (0x30..=0x35).contains(&code))?;
            if op == 0x30 {
                return Ok((first, last));
            }
            let step = self.step::<NOTE>(reader, op, level)?;
            let s = self.steps.len() as u16;
            self.steps.push(Step { parent, previous: last, ..step });
            match last {
                NO_STEP => first = s,
                _ => self.steps[usize::from(last)].next = s,
            }
            last = s;
            if op == 0x35 {
                let p = self.list::<NOTE>(reader, level + 1, s)?;
                let q = self.list::<NOTE>(reader, level + 1, s)?;
                let step = &mut self.steps[usize::from(s)];
                (step.p, step.p_last) = p;
                (step.q, step.q_last) = q;
            }
        }
    }

    /// Reads the name and the expression of a step, or the rule of a 35.
    #[inline(always)]
    fn step<const NOTE: bool>(&mut self, reader: &mut Reader, op: u8, level: u32) -> Result<Step, Answer> {
        let (sort, name) = match op {
            0x31 | 0x32 => (Sort::Node, reader.number(Number::Label)?),
            0x33 | 0x34 => (Sort::Arrow, 48 + reader.number(Number::Arrow)?),
            _ => (Sort::Rule, 0),
        };
        let (start, names) = (reader.at as u16, self.occurrences.len() as u16);
        let levels = reader.term::<NOTE>(sort, level + 1, &mut self.occurrences)? as u8;
        let (end, names_end) = (reader.at as u16, self.occurrences.len() as u16);
        Ok(Step { op, name, levels, start, end, names, names_end, ..UNREAD })
    }

    /// This step, or the first of those made after it, that is shown.
    #[inline(always)]
    pub fn first_shown(&self, s: u16) -> u16 {
        match s {
            NO_STEP => NO_STEP,
            _ if self.steps[usize::from(s)].shown_in != 0 => s,
            _ => self.steps[usize::from(s)].next_shown,
        }
    }

    /// What is made after each step. A 35 stands before the steps of its P and Q, so one pass is enough.
    fn link(&mut self) {
        for s in 0..self.steps.len() {
            let Step { next, parent, .. } = self.steps[s];
            let then = match (next, parent) {
                (NO_STEP, NO_STEP) => NO_STEP,
                (NO_STEP, _) => self.steps[usize::from(parent)].then,
                _ => next,
            };
            let step = &mut self.steps[s];
            step.then = then;
            if step.op == 0x35 {
                step.p = if step.p == NO_STEP { then } else { step.p };
                step.q = if step.q == NO_STEP { then } else { step.q };
            }
        }
    }
}
