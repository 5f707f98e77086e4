//! Writing a carried book that is known to fit, from the first step to the last, each byte once.
//!
//! For each name the last step passed that changes it is kept. At the end of the edit the rule is written, each name as
//! the last step on it asks, under the steps before that one.

use crate::index::{BookIndex, EditIndex, NO_STEP};
use crate::reader::NAMES;

struct Writer<'w> {
    book: &'w [u8],
    book_index: &'w BookIndex,
    edit: &'w [u8],
    edit_index: &'w mut EditIndex,
    out: &'w mut [u8],
    at: usize,
    /// The last step passed on each name.
    last: [u16; NAMES],
}

/// Writes the carried book into `out`, which has just its length.
pub fn write(book: &[u8], book_index: &BookIndex, edit: &[u8], edit_index: &mut EditIndex, out: &mut [u8]) {
    let first = edit_index.first_shown(edit_index.first);
    if first == NO_STEP {
        return out.copy_from_slice(book);
    }
    let straight = edit_index.steps.iter().all(|step| step.op != 0x35);
    let mut writer = Writer { book, book_index, edit, edit_index, out, at: 0, last: [NO_STEP; NAMES] };
    if straight {
        // All rules pass the same steps.
        writer.pass_all(first);
        return writer.rules(0, book_index.rules);
    }
    for r in 0..book_index.rules {
        writer.last = [NO_STEP; NAMES];
        writer.rule(first, r);
    }
}

impl Writer<'_> {
    #[inline(always)]
    fn put(&mut self, byte: u8) {
        self.out[self.at] = byte;
        self.at += 1;
    }

    /// Copies a part of a text. A short one is copied as 16 bytes where both have that many: what follows it in
    /// `out` is written later.
    #[inline(always)]
    fn copy(&mut self, text: &[u8], start: usize, end: usize) {
        let (at, length) = (self.at, end - start);
        self.at = at + length;
        if length <= 16 {
            if let (Some(from), Some(to)) = (text.get(start..start + 16), self.out.get_mut(at..at + 16)) {
                return to.copy_from_slice(from);
            }
        }
        self.out[at..at + length].copy_from_slice(&text[start..end]);
    }

    /// Copies a part of `out` that was written before.
    #[inline(always)]
    fn copy_again(&mut self, start: usize, end: usize) {
        let (at, length) = (self.at, end - start);
        self.at = at + length;
        if length <= 32 && at + 32 <= self.out.len() {
            let mut bytes = [0; 32];
            bytes.copy_from_slice(&self.out[start..start + 32]);
            return self.out[at..at + 32].copy_from_slice(&bytes);
        }
        self.out.copy_within(start..end, at);
    }

    /// Notes in the occurrences of a step's expression the last steps passed on their names.
    #[inline(always)]
    fn note_last(&mut self, s: u16) {
        let step = &self.edit_index.steps[usize::from(s)];
        let (names, end) = (usize::from(step.names), usize::from(step.names_end));
        for occurrence in &mut self.edit_index.occurrences[names..end] {
            occurrence.under = self.last[usize::from(occurrence.name & 63)];
        }
    }

    /// Makes a step the last one on its name.
    #[inline(always)]
    fn pass(&mut self, s: u16) {
        self.note_last(s);
        let step = &mut self.edit_index.steps[usize::from(s)];
        let last = &mut self.last[usize::from(step.name & 63)];
        step.same = *last;
        step.written_end = 0;
        *last = s;
    }

    fn pass_all(&mut self, first: u16) {
        let mut s = first;
        while s != NO_STEP {
            self.pass(s);
            s = self.edit_index.steps[usize::from(s)].next_shown;
        }
    }

    /// Writes rule r carried through a step and all that are made after it.
    fn rule(&mut self, first: u16, r: usize) {
        let mut s = first;
        while s != NO_STEP {
            let step = &self.edit_index.steps[usize::from(s)];
            let (next, q) = (step.next_shown, step.q);
            if step.op == 0x35 {
                self.first_way(s, r);
                s = self.edit_index.first_shown(q);
                continue;
            }
            if step.shown_in >> r & 1 == 1 {
                self.pass(s);
            }
            s = next;
        }
        self.rules(r, r + 1);
    }

    /// Writes 25 26 27 K1 T 26 K1 of a 35; U is to follow. The second K1 is the first one again.
    #[inline(always)]
    fn first_way(&mut self, s: u16, r: usize) {
        let p = self.edit_index.first_shown(self.edit_index.steps[usize::from(s)].p);
        let last = self.last;
        self.put(0x25);
        self.put(0x26);
        self.put(0x27);
        self.note_last(s);
        let start = self.at;
        self.expression(s);
        let end = self.at;
        self.rule(p, r);
        self.last = last;
        self.put(0x26);
        self.copy_again(start, end);
    }

    /// Writes the rules from `first` on and before `end` under the steps passed.
    fn rules(&mut self, first: usize, end: usize) {
        let (book, index) = (self.book, self.book_index);
        let mut from = usize::from(index.start[first]);
        for occurrence in &index.occurrences[usize::from(index.names[first])..usize::from(index.names[end])] {
            let last = self.last[usize::from(occurrence.name & 63)];
            if last != NO_STEP {
                self.copy(book, from, usize::from(occurrence.at));
                self.name(occurrence.name, last);
                from = usize::from(occurrence.at) + 2;
            }
        }
        self.copy(book, from, usize::from(index.start[end]));
    }

    /// Writes the expression of a step under the steps before it.
    fn expression(&mut self, s: u16) {
        let edit = self.edit;
        let step = &self.edit_index.steps[usize::from(s)];
        let (mut from, end) = (usize::from(step.start), usize::from(step.end));
        for i in usize::from(step.names)..usize::from(step.names_end) {
            let occurrence = self.edit_index.occurrences[i];
            if occurrence.under != NO_STEP {
                self.copy(edit, from, usize::from(occurrence.at));
                self.name(occurrence.name, occurrence.under);
                from = usize::from(occurrence.at) + 2;
            }
        }
        self.copy(edit, from, end);
    }

    /// Writes a name under a step that changes it and the steps before that one.
    fn name(&mut self, name: u8, s: u16) {
        let step = &self.edit_index.steps[usize::from(s)];
        let (op, same) = (step.op, step.same);
        if step.written_end != 0 {
            return self.copy_again(usize::from(step.written), usize::from(step.written_end));
        }
        let start = self.at;
        self.put([0x07, 0x06, 0x13, 0x15][usize::from(op.wrapping_sub(0x31) & 3)]);
        if same != NO_STEP {
            self.name(name, same);
        } else {
            let label = name < 48;
            self.put(if label { 0x03 } else { 0x11 });
            self.put(if label { name } else { name - 48 });
        }
        if op == 0x32 {
            self.put(0x05);
        }
        self.expression(s);
        let step = &mut self.edit_index.steps[usize::from(s)];
        (step.written, step.written_end) = (start as u16, self.at as u16);
    }
}
