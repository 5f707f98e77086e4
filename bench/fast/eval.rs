//! The values of expressions and the truth of rules, from the bytes of a text that was read before.
//!
//! A node expression is evaluated at candidates only: its value is the candidates that it contains. 12 is not made but passed
//! down to the arrows of the sheet, and a count over a reversed arrow counts columns.

use crate::reader::past;
use crate::rows::{columns_at_least, join, join_pair, rows_at_least, Join, Reversed, Rows};
use crate::sheet::{all_rows, in_use, word, Block, Blocks, MOST_NODES};

pub struct Eval<'e> {
    sheet: &'e Blocks,
    text: &'e [u8],
    all: u64,
    reversed: &'e mut Reversed,
}

/// The first rule of a text that doesn't hold: its number, start and end.
pub fn first_broken(sheet: &Blocks, text: &[u8]) -> Option<(usize, usize, usize)> {
    let mut reversed = Reversed::new();
    let mut eval = Eval::new(sheet, text, &mut reversed);
    let (mut at, mut number) = (0, 0);
    while at < text.len() {
        let start = at;
        if !eval.rule(&mut at) {
            return Some((number, start, past(text, start)));
        }
        number += 1;
    }
    None
}

/// Judges the rules of a text one by one, each copied to the start of a scratch. The number of the first that doesn't
/// hold.
pub fn first_broken_singly(sheet: &Blocks, text: &[u8], scratch: &mut [u8]) -> Option<usize> {
    let mut reversed = Reversed::new();
    let mut eval = Eval::new(sheet, text, &mut reversed);
    let (mut at, mut number) = (0, 0);
    while at < text.len() {
        let start = at;
        let holds = eval.rule(&mut at);
        let end = if holds { at } else { past(text, start) };
        scratch[..end - start].copy_from_slice(&text[start..end]);
        if !holds {
            return Some(number);
        }
        number += 1;
    }
    None
}

/// The length of the longest rule of a text.
pub fn longest_rule(text: &[u8]) -> usize {
    let (mut at, mut longest) = (0, 0);
    while at < text.len() {
        let end = past(text, at);
        longest = longest.max(end - at);
        at = end;
    }
    longest
}

/// In each function `at` is where the term begins, and is left at its end.
impl<'e> Eval<'e> {
    pub fn new(sheet: &'e Blocks, text: &'e [u8], reversed: &'e mut Reversed) -> Self {
        Eval { sheet, text, all: in_use(sheet), reversed }
    }

    /// The node, if it is in use.
    #[inline(always)]
    fn only(&self, i: u8) -> u64 {
        1 << (i & 63) & self.all
    }

    /// Whether both nodes are in use.
    #[inline(always)]
    fn both_used(&self, i: u8, j: u8) -> bool {
        self.only(i) != 0 && self.only(j) != 0
    }

    #[inline(always)]
    fn byte(&self, at: &mut usize) -> u8 {
        let byte = self.text[*at];
        *at += 1;
        byte
    }

    #[inline(always)]
    fn pass(&self, at: &mut usize) {
        *at = past(self.text, *at);
    }

    #[inline(always)]
    fn block(&self, a: u8) -> &'e Block {
        &self.sheet[usize::from(a & 15) + 1]
    }

    pub fn rule(&mut self, at: &mut usize) -> bool {
        match self.byte(at) {
            0x21 => {
                let e = self.node(at, self.all);
                self.node(at, e) == e
            }
            0x22 => self.arrows_in(at),
            0x23 => {
                let i = self.byte(at);
                self.node(at, self.only(i)) != 0
            }
            0x24 => {
                let (i, j) = (self.byte(at), self.byte(at));
                self.pair(at, i, j)
            }
            0x25 => {
                if self.rule(at) {
                    return self.rule(at);
                }
                self.pass(at);
                false
            }
            0x26 => {
                if !self.rule(at) {
                    return self.rule(at);
                }
                self.pass(at);
                true
            }
            0x27 => !self.rule(at),
            code => unreachable!("rule code {code:02X}"),
        }
    }

    /// Passes over 12s; true when their number is odd.
    #[inline(always)]
    fn odd_reversals(&self, at: &mut usize) -> bool {
        let mut odd = false;
        while self.text[*at] == 0x12 {
            *at += 1;
            odd = !odd;
        }
        odd
    }

    /// 22 R S. R reversed is in S just when R is in S reversed.
    fn arrows_in(&mut self, at: &mut usize) -> bool {
        let reversed = self.odd_reversals(at);
        if self.text[*at] == 0x17 {
            let (i, j) = (self.text[*at + 1], self.text[*at + 2]);
            *at += 3;
            if !self.both_used(i, j) {
                self.pass(at);
                return true;
            }
            return if reversed { self.pair(at, j, i) } else { self.pair(at, i, j) };
        }
        let mut rows = [0; MOST_NODES];
        self.arrow(at, false, Join::Set, &mut rows);
        self.arrow(at, reversed, Join::Minus, &mut rows);
        rows.iter().fold(0, |left, row| left | row) == 0
    }

    /// The candidates that a node expression has.
    pub fn node(&mut self, at: &mut usize, candidates: u64) -> u64 {
        if candidates == 0 {
            self.pass(at);
            return 0;
        }
        match self.byte(at) {
            0x01 => candidates,
            0x02 => 0,
            0x03 => word(&self.sheet[0], usize::from(self.byte(at))) & candidates,
            0x04 => 1 << (self.byte(at) & 63) & candidates,
            0x05 => candidates & !self.node(at, candidates),
            0x06 => {
                let e = self.node(at, candidates);
                self.node(at, e)
            }
            0x07 => {
                let e = self.node(at, candidates);
                e | self.node(at, candidates & !e)
            }
            0x08 => self.at_least(at, candidates, 1, false),
            0x09 => candidates & !self.at_least(at, candidates, 1, true),
            0x0A => {
                let m = u32::from(self.byte(at));
                self.at_least(at, candidates, m, false)
            }
            0x0B => {
                let m = u32::from(self.byte(at));
                candidates & !self.at_least(at, candidates, m + 1, false)
            }
            code => unreachable!("node code {code:02X}"),
        }
    }

    /// The candidates with arrows of R to at least m nodes of E, or of those outside E.
    fn at_least(&mut self, at: &mut usize, candidates: u64, m: u32, outside: bool) -> u64 {
        if m == 0 || m > MOST_NODES as u32 {
            self.pass(at);
            self.pass(at);
            return if m == 0 { candidates } else { 0 };
        }
        if candidates & (candidates - 1) == 0 {
            // One candidate: its row alone is wanted.
            let ends = self.row(at, candidates.trailing_zeros() as u8, false);
            let e = self.node(at, ends);
            let e = if outside { ends & !e } else { e };
            return if e.count_ones() >= m { candidates } else { 0 };
        }
        let reversed = self.odd_reversals(at);
        if self.text[*at] == 0x11 {
            let block = self.block(self.text[*at + 1]);
            *at += 2;
            return self.select(at, candidates, m, outside, reversed, |i| word(block, i));
        }
        let mut rows = [0; MOST_NODES];
        self.arrow(at, false, Join::Set, &mut rows);
        self.select(at, candidates, m, outside, reversed, |i| rows[i])
    }

    /// The same with the rows of R known, and `at` where E begins.
    #[inline(always)]
    fn select(
        &mut self,
        at: &mut usize,
        candidates: u64,
        m: u32,
        outside: bool,
        reversed: bool,
        row: impl Fn(usize) -> u64,
    ) -> u64 {
        let e = self.node(at, self.all) ^ if outside { self.all } else { 0 };
        match reversed {
            _ if e == 0 => 0,
            true => columns_at_least(m, candidates, e, row),
            false => rows_at_least(m, candidates, e, row),
        }
    }

    /// Whether R has the pair (i, j). Both operands are evaluated always, for `at` to come to their end.
    fn pair(&mut self, at: &mut usize, i: u8, j: u8) -> bool {
        match self.byte(at) {
            0x11 => {
                let a = self.byte(at);
                word(self.block(a), usize::from(i)) >> (j & 63) & 1 == 1
            }
            0x12 => self.pair(at, j, i),
            0x13 => self.pair(at, i, j) | self.pair(at, i, j),
            0x14 => self.pair(at, i, j) & self.pair(at, i, j),
            0x15 => self.pair(at, i, j) & !self.pair(at, i, j),
            0x16 => {
                let end = u64::from(self.pair(at, i, j)) << (j & 63);
                self.node(at, end) != 0
            }
            0x17 => (self.byte(at), self.byte(at)) == (i, j) && self.both_used(i, j),
            code => unreachable!("arrow code {code:02X}"),
        }
    }

    /// Row i of R, or of R reversed. Both operands are evaluated always, as in `pair`.
    fn row(&mut self, at: &mut usize, i: u8, reversed: bool) -> u64 {
        match self.byte(at) {
            0x11 => {
                let block = self.block(self.byte(at));
                if reversed {
                    (0..MOST_NODES).fold(0, |row, k| row | (word(block, k) >> (i & 63) & 1) << k)
                } else {
                    word(block, usize::from(i))
                }
            }
            0x12 => self.row(at, i, !reversed),
            0x13 => self.row(at, i, reversed) | self.row(at, i, reversed),
            0x14 => self.row(at, i, reversed) & self.row(at, i, reversed),
            0x15 => self.row(at, i, reversed) & !self.row(at, i, reversed),
            0x16 => {
                let ends = self.row(at, i, reversed);
                if !reversed {
                    return self.node(at, ends);
                }
                let start = u64::from(ends != 0) << (i & 63);
                if self.node(at, start) != 0 {
                    ends
                } else {
                    0
                }
            }
            0x17 => {
                let (x, y) = (self.byte(at), self.byte(at));
                let (x, y) = if reversed { (y, x) } else { (x, y) };
                u64::from(x == i && self.both_used(x, y)) << (y & 63)
            }
            code => unreachable!("arrow code {code:02X}"),
        }
    }

    /// Joins R, or R reversed, to rows.
    pub fn arrow(&mut self, at: &mut usize, reversed: bool, how: Join, out: &mut Rows) {
        match self.byte(at) {
            0x11 => {
                let a = self.byte(at);
                let block = self.block(a);
                if reversed {
                    join(how, out, self.reversed.rows(a, block).iter().copied());
                } else {
                    join(how, out, all_rows(block));
                }
            }
            0x12 => self.arrow(at, !reversed, how, out),
            0x13 => self.two_arrows(at, reversed, how, second_join(0x13, how), out),
            0x14 => self.two_arrows(at, reversed, how, second_join(0x14, how), out),
            0x15 => self.two_arrows(at, reversed, how, second_join(0x15, how), out),
            0x16 => match how {
                Join::Set | Join::And => {
                    self.arrow(at, reversed, how, out);
                    self.ending_in(at, reversed, out);
                }
                Join::Or | Join::Minus => self.apart(at, reversed, how, out),
            },
            0x17 => {
                let (i, j) = (self.byte(at), self.byte(at));
                let (i, j) = if reversed { (j, i) } else { (i, j) };
                join_pair(how, out, i, self.both_used(i, j).then_some(j));
            }
            code => unreachable!("arrow code {code:02X}"),
        }
    }

    #[inline(always)]
    fn two_arrows(&mut self, at: &mut usize, reversed: bool, first: Join, second: Option<Join>, out: &mut Rows) {
        match second {
            Some(second) => {
                self.arrow(at, reversed, first, out);
                self.arrow(at, reversed, second, out);
            }
            None => self.apart(at, reversed, first, out),
        }
    }

    /// 16: of rows that are not reversed the ends are in E, of reversed ones the starts.
    #[inline(always)]
    fn ending_in(&mut self, at: &mut usize, reversed: bool, out: &mut Rows) {
        let e = self.node(at, self.all);
        if reversed {
            out.iter_mut().enumerate().for_each(|(i, row)| *row &= (e >> i & 1).wrapping_neg());
        } else {
            out.iter_mut().for_each(|row| *row &= e);
        }
    }

    /// Evaluates the term whose code is before `at` on its own, then joins it.
    #[inline(never)]
    fn apart(&mut self, at: &mut usize, reversed: bool, how: Join, out: &mut Rows) {
        *at -= 1;
        let mut rows = [0; MOST_NODES];
        self.arrow(at, reversed, Join::Set, &mut rows);
        join(how, out, rows.iter().copied());
    }
}

/// When joining 13 R S, 14 R S or 15 R S is joining R in the same way and then S: how S is joined.
#[inline(always)]
fn second_join(code: u8, how: Join) -> Option<Join> {
    match (code, how) {
        (0x13, Join::Set | Join::Or) => Some(Join::Or),
        (0x13, Join::Minus) => Some(Join::Minus),
        (0x14, Join::Set | Join::And) => Some(Join::And),
        (0x15, Join::Set | Join::And) => Some(Join::Minus),
        _ => None,
    }
}
