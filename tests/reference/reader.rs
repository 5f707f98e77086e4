//! The questions 11 to 16 of a book, 21 to 26 of an edit, the end of the first rule, and where rules start.

use crate::answer::{refuse, Asked};
use crate::graph::{ARROWS, LABELS, MOST_NODES};
use crate::syntax::{Arrow, Edit, Node, Rule, Step};
use std::ops::Range;

pub const LONGEST: usize = 4096;
pub const LAST_LEVEL: usize = 32;
pub const MOST_RULES: usize = 32;

/// Those of a carried rule (item 11 of document 02).
pub const LONGEST_CARRIED: usize = 16384;
pub const LAST_LEVEL_CARRIED: usize = 255;

/// The counts that an 0A and an 0B may have (item 3 of document 02).
const COUNTS: [Range<usize>; 2] = [1..61, 0..60];
/// Those of document 01.
const FORMER_COUNTS: [Range<usize>; 2] = [0..256, 0..256];

/// A text being read from left to right.
struct Reader<'t> {
    text: &'t [u8],
    at: usize,
    n: usize,
    last_level: usize,
    counts: [Range<usize>; 2],
    /// 10 for a book and for rule end, 20 for an edit: added to the last digit of the number.
    tens: usize,
}

/// A rule and where it stands in its book.
pub struct Placed {
    pub rule: Rule,
    pub part: Range<usize>,
}

/// The rules of a book.
pub fn book(text: &[u8], n: usize) -> Asked<Vec<Placed>> {
    Reader::begin(text, n, 10)?.book()
}

/// The rules of a stored book, which may have any count.
pub fn former_book(text: &[u8], n: usize) -> Asked<Vec<Placed>> {
    Reader { counts: FORMER_COUNTS, ..Reader::begin(text, n, 10)? }.book()
}

/// The steps of an edit.
pub fn edit(text: &[u8], n: usize) -> Asked<Edit> {
    let mut reader = Reader::begin(text, n, 20)?;
    let edit = reader.edit(1)?;
    if reader.at < text.len() {
        return refuse(26, reader.at);
    }
    Ok(edit)
}

/// Rule end: the length of the first rule of a text.
pub fn first_rule(text: &[u8]) -> Asked<usize> {
    Ok(first_of(text, MOST_NODES)?.part.len())
}

/// The first rule of a text, with node numbers below n: 11, then 12 to 15.
pub fn first_of(text: &[u8], n: usize) -> Asked<Placed> {
    Reader::begin(text, n, 10)?.placed_rule()
}

/// A carried rule: 11 to 16 for one rule, with 16,384 bytes, 255 levels and n as 60.
pub fn carried_rule(text: &[u8]) -> Asked<Rule> {
    if text.len() > LONGEST_CARRIED {
        return refuse(11, 0);
    }
    let (n, last_level) = (MOST_NODES, LAST_LEVEL_CARRIED);
    let mut reader = Reader { text, at: 0, n, last_level, counts: COUNTS, tens: 10 };
    let placed = reader.placed_rule()?;
    if placed.part.end < text.len() {
        return refuse(16, placed.part.end);
    }
    Ok(placed.rule)
}

/// The first rule of a text by the limits of a carried rule: 12 to 15. No more than 16,384 bytes of the text are looked at.
pub fn first_carried(text: &[u8], n: usize) -> Asked<Rule> {
    let text = &text[..text.len().min(LONGEST_CARRIED)];
    let mut reader = Reader { text, at: 0, n, last_level: LAST_LEVEL_CARRIED, counts: COUNTS, tens: 10 };
    Ok(reader.placed_rule()?.rule)
}

/// Where each rule of a text of any length starts, as far as rules can be read, and then where the last of them ends.
pub fn rule_starts(text: &[u8], n: usize) -> Vec<usize> {
    let mut reader = Reader { text, at: 0, n, last_level: LAST_LEVEL, counts: COUNTS, tens: 10 };
    let mut starts = vec![0];
    while let Ok(placed) = reader.placed_rule() {
        starts.push(placed.part.end);
    }
    starts
}

impl<'t> Reader<'t> {
    fn begin(text: &'t [u8], n: usize, tens: usize) -> Asked<Reader<'t>> {
        if text.len() > LONGEST {
            return refuse(tens + 1, 0);
        }
        Ok(Reader { text, at: 0, n, last_level: LAST_LEVEL, counts: COUNTS, tens })
    }

    /// The byte that is wanted now, not yet passed.
    fn wanted(&self) -> Asked<u8> {
        match self.text.get(self.at) {
            Some(byte) => Ok(*byte),
            None => refuse(self.tens + 2, self.text.len()),
        }
    }

    /// A code byte of the wanted sort at this level.
    fn code(&mut self, first: u8, last: u8, level: usize) -> Asked<u8> {
        let code = self.wanted()?;
        if code < first || code > last {
            return refuse(self.tens + 3, self.at);
        }
        if level > self.last_level {
            return refuse(self.tens + 4, self.at);
        }
        self.at += 1;
        Ok(code)
    }

    fn number(&mut self, range: Range<usize>) -> Asked<u8> {
        let number = self.wanted()?;
        if !range.contains(&usize::from(number)) {
            return refuse(self.tens + 5, self.at);
        }
        self.at += 1;
        Ok(number)
    }

    /// The count of an 0A (0) or of an 0B (1).
    fn count(&mut self, of: usize) -> Asked<u8> {
        self.number(self.counts[of].clone())
    }

    fn book(&mut self) -> Asked<Vec<Placed>> {
        let mut rules = Vec::new();
        while self.at < self.text.len() {
            if rules.len() == MOST_RULES {
                return refuse(16, self.at);
            }
            rules.push(self.placed_rule()?);
        }
        Ok(rules)
    }

    fn placed_rule(&mut self) -> Asked<Placed> {
        let start = self.at;
        let rule = self.rule(1)?;
        Ok(Placed { rule, part: start..self.at })
    }

    fn node(&mut self, level: usize) -> Asked<Node> {
        let below = level + 1;
        Ok(match self.code(0x01, 0x0B, level)? {
            0x01 => Node::All,
            0x02 => Node::Nothing,
            0x03 => Node::Label(self.number(0..LABELS)?),
            0x04 => Node::Only(self.number(0..self.n)?),
            0x05 => Node::Not(Box::new(self.node(below)?)),
            0x06 => Node::And(Box::new(self.node(below)?), Box::new(self.node(below)?)),
            0x07 => Node::Or(Box::new(self.node(below)?), Box::new(self.node(below)?)),
            0x08 => Node::Some(Box::new(self.arrow(below)?), Box::new(self.node(below)?)),
            0x09 => Node::Every(Box::new(self.arrow(below)?), Box::new(self.node(below)?)),
            0x0A => Node::AtLeast(self.count(0)?, Box::new(self.arrow(below)?), Box::new(self.node(below)?)),
            _ => Node::AtMost(self.count(1)?, Box::new(self.arrow(below)?), Box::new(self.node(below)?)),
        })
    }

    fn arrow(&mut self, level: usize) -> Asked<Arrow> {
        let below = level + 1;
        Ok(match self.code(0x11, 0x17, level)? {
            0x11 => Arrow::Kind(self.number(0..ARROWS)?),
            0x12 => Arrow::Reversed(Box::new(self.arrow(below)?)),
            0x13 => Arrow::Union(Box::new(self.arrow(below)?), Box::new(self.arrow(below)?)),
            0x14 => Arrow::Common(Box::new(self.arrow(below)?), Box::new(self.arrow(below)?)),
            0x15 => Arrow::Without(Box::new(self.arrow(below)?), Box::new(self.arrow(below)?)),
            0x16 => Arrow::EndingIn(Box::new(self.arrow(below)?), Box::new(self.node(below)?)),
            _ => Arrow::Pair(self.number(0..self.n)?, self.number(0..self.n)?),
        })
    }

    fn rule(&mut self, level: usize) -> Asked<Rule> {
        let below = level + 1;
        Ok(match self.code(0x21, 0x27, level)? {
            0x21 => Rule::Nodes(self.node(below)?, self.node(below)?),
            0x22 => Rule::Pairs(self.arrow(below)?, self.arrow(below)?),
            0x23 => Rule::Member(self.number(0..self.n)?, self.node(below)?),
            0x24 => Rule::Linked(self.number(0..self.n)?, self.number(0..self.n)?, self.arrow(below)?),
            0x25 => Rule::And(Box::new(self.rule(below)?), Box::new(self.rule(below)?)),
            0x26 => Rule::Or(Box::new(self.rule(below)?), Box::new(self.rule(below)?)),
            _ => Rule::Not(Box::new(self.rule(below)?)),
        })
    }

    /// The steps up to the end, all at one level.
    fn edit(&mut self, level: usize) -> Asked<Edit> {
        let below = level + 1;
        let mut steps = Vec::new();
        loop {
            steps.push(match self.code(0x30, 0x35, level)? {
                0x30 => return Ok(steps),
                0x31 => Step::AddLabel(self.number(0..LABELS)?, self.node(below)?),
                0x32 => Step::TakeLabel(self.number(0..LABELS)?, self.node(below)?),
                0x33 => Step::AddArrow(self.number(0..ARROWS)?, self.arrow(below)?),
                0x34 => Step::TakeArrow(self.number(0..ARROWS)?, self.arrow(below)?),
                _ => Step::If(self.rule(below)?, self.edit(below)?, self.edit(below)?),
            });
        }
    }
}
