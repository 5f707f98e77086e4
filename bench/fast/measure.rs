//! The length and the levels of a carried book, from the last step to the first, without writing it.
//!
//! Of the carried text only its size is kept, and for each name how often it stands there, on which deepest level, and
//! in which rules. A step changes these by sums, products and maxima, and 35 adds up what its two ways give, so each
//! step is looked at once however long the carried text is. Lengths and counts are cut above the limit, so that none
//! passes a word: sums and products of cut numbers, cut again, are those of the numbers themselves.

use crate::index::{BookIndex, EditIndex, Step, NO_STEP};
use crate::reader::{Occurrence, NAMES};
use crate::{refused, Answer};

pub const CARRIED_BYTES: u32 = 16384;
const CARRIED_LEVELS: u32 = 255;
const CUT: u32 = CARRIED_BYTES + 1;

#[derive(Clone)]
struct Size {
    length: u32,
    levels: u32,
    /// Cut where it is used: the occurrences of an edit are too few for a count to pass a word before that.
    count: [u32; NAMES],
    /// 0 for a name that does not stand in the text.
    deepest: [u32; NAMES],
    /// A bit for each rule in which the name stands.
    in_rules: [u32; NAMES],
}

/// Questions 31 to 33; answers the length. In the index it is noted which steps are shown.
pub fn measure(book: &[u8], book_index: &BookIndex, edit_index: &mut EditIndex, room: usize) -> Result<usize, Answer> {
    // An empty book is carried to nothing, for all steps.
    if book_index.rules == 0 {
        return Ok(0);
    }
    let mut size = size_of_book(book, book_index);
    let last = edit_index.last;
    back(edit_index, last, book_index.rules as u32, &mut size);
    if size.length > CARRIED_BYTES {
        return Err(refused(31, 0));
    }
    if size.levels > CARRIED_LEVELS {
        return Err(refused(32, 0));
    }
    let length = size.length as usize;
    if length > room {
        return Err(refused(33, length));
    }
    link_shown(edit_index);
    Ok(length)
}

#[inline(always)]
fn size_of_book(book: &[u8], index: &BookIndex) -> Size {
    let none = [0; NAMES];
    let mut size = Size { length: book.len() as u32, levels: index.levels, count: none, deepest: none, in_rules: none };
    for r in 0..index.rules {
        let occurrences = &index.occurrences[usize::from(index.names[r])..usize::from(index.names[r + 1])];
        size.add(occurrences, 1, 0, 1 << r);
    }
    size
}

impl Size {
    /// Adds occurrences, each `times` times and `deeper` levels below where it stands in its own term, in some rules.
    #[inline(always)]
    fn add(&mut self, occurrences: &[Occurrence], times: u32, deeper: u32, in_rules: u32) {
        for occurrence in occurrences {
            let name = usize::from(occurrence.name & 63);
            self.count[name] += times;
            self.deepest[name] = self.deepest[name].max(deeper + u32::from(occurrence.level));
            self.in_rules[name] |= in_rules;
        }
    }

    /// A step that changes a name: 07 03 k E, 06 03 k 05 E, 13 11 a R or 15 11 a R wherever the name stands.
    #[inline(always)]
    fn substitute(&mut self, step: &Step, occurrences: &[Occurrence]) {
        let name = usize::from(step.name & 63);
        let (count, deepest) = (self.count[name].min(CUT), self.deepest[name]);
        let not = u32::from(step.op == 0x32);
        self.length = (self.length + count * (1 + not + u32::from(step.end - step.start))).min(CUT);
        self.levels = self.levels.max(deepest + not + u32::from(step.levels)).max(deepest + 1);
        self.deepest[name] = deepest + 1;
        self.add(occurrences, count, deepest + not, self.in_rules[name]);
    }

    /// 25 26 27 K1 T 26 K1 U for each rule: T and U are two levels deeper, and K1 at most three.
    #[inline(always)]
    fn choose(&mut self, other: &Size, step: &Step, occurrences: &[Occurrence], rules: u32) {
        self.length = (self.length + other.length + rules * (4 + 2 * u32::from(step.end - step.start))).min(CUT);
        self.levels = (self.levels.max(other.levels) + 2).max(3 + u32::from(step.levels));
        for name in 0..NAMES {
            self.count[name] = (self.count[name] + other.count[name]).min(CUT);
            let deepest = self.deepest[name].max(other.deepest[name]);
            self.deepest[name] = if deepest == 0 { 0 } else { deepest + 2 };
            self.in_rules[name] |= other.in_rules[name];
        }
        self.add(occurrences, 2 * rules, 3, every(rules));
    }
}

fn every(rules: u32) -> u32 {
    !0 >> (32 - rules)
}

/// Carries the size back through a list, and notes in which rules its steps are shown.
fn back(index: &mut EditIndex, last: u16, rules: u32, size: &mut Size) {
    let mut s = last;
    while s != NO_STEP {
        let step = index.steps[usize::from(s)];
        if step.op == 0x35 {
            let mut other = size.clone();
            back(index, step.p_last, rules, &mut other);
            back(index, step.q_last, rules, size);
            let occurrences = &index.occurrences[usize::from(step.names)..usize::from(step.names_end)];
            size.choose(&other, &step, occurrences, rules);
            index.steps[usize::from(s)].shown_in = every(rules);
        } else if size.count[usize::from(step.name & 63)] != 0 {
            index.steps[usize::from(s)].shown_in = size.in_rules[usize::from(step.name & 63)];
            let occurrences = &index.occurrences[usize::from(step.names)..usize::from(step.names_end)];
            size.substitute(&step, occurrences);
        }
        s = step.previous;
    }
}

/// What is made after a step is stored after it, so one pass from the end is enough.
fn link_shown(index: &mut EditIndex) {
    for s in (0..index.steps.len()).rev() {
        index.steps[s].next_shown = index.first_shown(index.steps[s].then);
    }
}
