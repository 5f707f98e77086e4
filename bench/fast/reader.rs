//! The code: what follows each code byte, and reading one term with the questions 12 to 15 or 22 to 25.

use crate::fixed::FixedVec;
use crate::{refused, Answer};

pub const TEXT_BYTES: usize = 4096;
const LAST_LEVEL: u32 = 32;

#[derive(Clone, Copy, PartialEq, Eq)]
pub enum Sort {
    None,
    Node,
    Arrow,
    Rule,
}

/// The kinds of number bytes.
#[derive(Clone, Copy)]
pub enum Number {
    Label,
    Arrow,
    Node,
    /// The count of an 0A, from 1, and of an 0B, from 0.
    Least,
    Most,
}

/// What a code byte begins, and what follows it. Eight bytes, so that the table is read without multiplying.
#[derive(Clone, Copy)]
#[repr(align(8))]
struct Signature {
    sort: Sort,
    numbers: u8,
    number: [Number; 2],
    operands: u8,
    operand: [Sort; 2],
}

const fn signature(sort: Sort, numbers: &[Number], operands: &[Sort]) -> Signature {
    Signature {
        sort,
        numbers: numbers.len() as u8,
        number: pair(numbers, Number::Most),
        operands: operands.len() as u8,
        operand: pair(operands, Sort::None),
    }
}

const fn pair<T: Copy>(list: &[T], missing: T) -> [T; 2] {
    match list {
        [] => [missing, missing],
        [first] => [*first, missing],
        [first, second, ..] => [*first, *second],
    }
}

/// The codes of nodes, arrows and rules; the steps of an edit are read by `EditIndex`.
const fn signature_of(code: u8) -> Signature {
    use Sort::{Arrow, Node, Rule};
    match code {
        0x01 | 0x02 => signature(Node, &[], &[]),
        0x03 => signature(Node, &[Number::Label], &[]),
        0x04 => signature(Node, &[Number::Node], &[]),
        0x05 => signature(Node, &[], &[Node]),
        0x06 | 0x07 => signature(Node, &[], &[Node, Node]),
        0x08 | 0x09 => signature(Node, &[], &[Arrow, Node]),
        0x0A => signature(Node, &[Number::Least], &[Arrow, Node]),
        0x0B => signature(Node, &[Number::Most], &[Arrow, Node]),
        0x11 => signature(Arrow, &[Number::Arrow], &[]),
        0x12 => signature(Arrow, &[], &[Arrow]),
        0x13..=0x15 => signature(Arrow, &[], &[Arrow, Arrow]),
        0x16 => signature(Arrow, &[], &[Arrow, Node]),
        0x17 => signature(Arrow, &[Number::Node, Number::Node], &[]),
        0x21 => signature(Rule, &[], &[Node, Node]),
        0x22 => signature(Rule, &[], &[Arrow, Arrow]),
        0x23 => signature(Rule, &[Number::Node], &[Node]),
        0x24 => signature(Rule, &[Number::Node, Number::Node], &[Arrow]),
        0x25 | 0x26 => signature(Rule, &[], &[Rule, Rule]),
        0x27 => signature(Rule, &[], &[Rule]),
        _ => signature(Sort::None, &[], &[]),
    }
}

static SIGNATURES: [Signature; 64] = {
    let mut table = [signature_of(0); 64];
    let mut code = 0;
    while code < 64 {
        table[code] = signature_of(code as u8);
        code += 1;
    }
    table
};

/// The end of the term that begins at `at`, in a text that was read before.
#[inline]
pub fn past(text: &[u8], mut at: usize) -> usize {
    let mut wanted = 1;
    while wanted > 0 {
        let signature = &SIGNATURES[usize::from(text[at] & 63)];
        at += 1 + usize::from(signature.numbers);
        wanted += u32::from(signature.operands);
        wanted -= 1;
    }
    at
}

/// A name is a label k, as k, or an arrow a, as 48 + a.
pub const NAMES: usize = 64;

/// Where a name stands in a text: 03 k or 11 a.
#[derive(Clone, Copy)]
pub struct Occurrence {
    pub at: u16,
    /// In the expression of a step: the last step before that one on this name. Set while writing.
    pub under: u16,
    pub name: u8,
    /// The first code of the term is on level 1.
    pub level: u8,
}

/// An occurrence takes two bytes of a text.
pub type Occurrences = FixedVec<Occurrence, { TEXT_BYTES / 2 }>;

pub struct Reader<'t> {
    pub text: &'t [u8],
    pub at: usize,
    /// For each kind, how many numbers are in range.
    limits: [u16; 5],
    /// What is added to an answer's number: 0 for a book, 10 for an edit.
    tens: u8,
}

impl<'t> Reader<'t> {
    pub fn of_book(text: &'t [u8], n: usize) -> Self {
        Reader { text, at: 0, limits: [48, 16, n as u16, 60, 60], tens: 0 }
    }

    pub fn of_edit(text: &'t [u8], n: usize) -> Self {
        Reader { tens: 10, ..Reader::of_book(text, n) }
    }

    #[inline(always)]
    fn refused(&self, number: u8, place: usize) -> Answer {
        refused(number + self.tens, place)
    }

    /// Questions 12 and 13 of the next byte, and 14 of its level.
    #[inline(always)]
    pub fn code(&mut self, level: u32, of_the_sort: impl Fn(u8) -> bool) -> Result<u8, Answer> {
        let Some(&code) = self.text.get(self.at) else {
            return Err(self.refused(12, self.text.len()));
        };
        if !of_the_sort(code) {
            return Err(self.refused(13, self.at));
        }
        if level > LAST_LEVEL {
            return Err(self.refused(14, self.at));
        }
        self.at += 1;
        Ok(code)
    }

    /// Questions 12 and 15 of the next byte.
    #[inline(always)]
    pub fn number(&mut self, kind: Number) -> Result<u8, Answer> {
        let Some(&number) = self.text.get(self.at) else {
            return Err(self.refused(12, self.text.len()));
        };
        let first = u8::from(matches!(kind, Number::Least));
        if u16::from(number.wrapping_sub(first)) >= self.limits[kind as usize] {
            return Err(self.refused(15, self.at));
        }
        self.at += 1;
        Ok(number)
    }

    /// The number bytes of the code just read. With NOTE an occurrence is noted.
    #[inline(always)]
    fn numbers<const NOTE: bool>(&mut self, code: u8, level: u32, found: &mut Occurrences) -> Result<(), Answer> {
        let at = self.at - 1;
        let signature = &SIGNATURES[usize::from(code)];
        if signature.numbers == 0 {
            return Ok(());
        }
        let number = self.number(signature.number[0])?;
        if NOTE && (code == 0x03 || code == 0x11) {
            let name = if code == 0x03 { number } else { 48 + number };
            found.push(Occurrence { at: at as u16, under: 0, name, level: level as u8 });
        }
        if signature.numbers == 2 {
            self.number(signature.number[1])?;
        }
        Ok(())
    }

    /// Reads a term of a sort, its first code on level `first`; answers how many levels it has.
    pub fn term<const NOTE: bool>(&mut self, sort: Sort, first: u32, found: &mut Occurrences) -> Result<u32, Answer> {
        // The second operands still to be read, with their levels: at most one on each level from 2 to 33.
        let mut waiting = [(Sort::None, 0u8); 32];
        let mut top = 0;
        let (mut wanted, mut level, mut deepest) = (sort, first, first);
        loop {
            let code = self.code(level, |c| c < 64 && SIGNATURES[usize::from(c)].sort == wanted)?;
            deepest = deepest.max(level);
            self.numbers::<NOTE>(code, level + 1 - first, found)?;
            let signature = &SIGNATURES[usize::from(code)];
            if signature.operands > 0 {
                level += 1;
                wanted = signature.operand[0];
                if signature.operands == 2 {
                    waiting[top] = (signature.operand[1], level as u8);
                    top += 1;
                }
            } else if top > 0 {
                top -= 1;
                (wanted, level) = (waiting[top].0, u32::from(waiting[top].1));
            } else {
                return Ok(deepest + 1 - first);
            }
        }
    }
}
