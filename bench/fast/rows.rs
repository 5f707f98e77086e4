//! Arrow expressions as rows of words: joining, counting, reversing.

use crate::fixed::FixedVec;
use crate::sheet::{all_rows, word, Block, MOST_NODES};

/// Row i has a bit for each node that an arrow from i ends at.
pub type Rows = [u64; MOST_NODES];

/// What becomes of rows when others are joined to them.
#[derive(Clone, Copy)]
pub enum Join {
    Set,
    Or,
    And,
    Minus,
}

#[inline(always)]
pub fn join(how: Join, out: &mut Rows, rows: impl Iterator<Item = u64>) {
    match how {
        Join::Set => out.iter_mut().zip(rows).for_each(|(row, other)| *row = other),
        Join::Or => out.iter_mut().zip(rows).for_each(|(row, other)| *row |= other),
        Join::And => out.iter_mut().zip(rows).for_each(|(row, other)| *row &= other),
        Join::Minus => out.iter_mut().zip(rows).for_each(|(row, other)| *row &= !other),
    }
}

/// Joins the one pair (i, j), or none.
#[inline(always)]
pub fn join_pair(how: Join, out: &mut Rows, i: u8, j: Option<u8>) {
    let (row, bit) = (usize::from(i), j.map_or(0, |j| 1 << (j & 63)));
    match how {
        Join::Or => out[row] |= bit,
        Join::Minus => out[row] &= !bit,
        Join::Set | Join::And => {
            let kept = if let Join::Set = how { bit } else { out[row] & bit };
            *out = [0; MOST_NODES];
            out[row] = kept;
        }
    }
}

#[inline(always)]
fn for_each_node(mut nodes: u64, mut f: impl FnMut(usize)) {
    while nodes != 0 {
        f(nodes.trailing_zeros() as usize);
        nodes &= nodes - 1;
    }
}

/// A set without its lowest node, if it has any.
#[inline(always)]
fn less_one(nodes: u64) -> u64 {
    nodes & nodes.wrapping_sub(1)
}

/// The candidates whose row has at least m nodes of e, m at least 1.
#[inline(always)]
pub fn rows_at_least(m: u32, candidates: u64, e: u64, row: impl Fn(usize) -> u64) -> u64 {
    let mut found = 0;
    match m {
        1 => for_each_node(candidates, |i| found |= u64::from(row(i) & e != 0) << i),
        // Counting the bits takes longer than taking away one or two.
        2 => for_each_node(candidates, |i| found |= u64::from(less_one(row(i) & e) != 0) << i),
        3 => for_each_node(candidates, |i| found |= u64::from(less_one(less_one(row(i) & e)) != 0) << i),
        _ => for_each_node(candidates, |i| found |= u64::from((row(i) & e).count_ones() >= m) << i),
    }
    found
}

/// The candidates whose column has at least m nodes of e, m from 1 to 60.
#[inline(always)]
pub fn columns_at_least(m: u32, candidates: u64, e: u64, row: impl Fn(usize) -> u64) -> u64 {
    let (mut one, mut two) = (0, 0);
    match m {
        1 => {
            for_each_node(e, |i| one |= row(i));
            one & candidates
        }
        2 => {
            for_each_node(e, |i| {
                let ends = row(i);
                two |= one & ends;
                one |= ends;
            });
            two & candidates
        }
        _ => counted_columns(m, e, row) & candidates,
    }
}

/// A count of six bits for each column: word k has the bits of value 2^k.
#[inline(always)]
fn counted_columns(m: u32, e: u64, row: impl Fn(usize) -> u64) -> u64 {
    let mut counts = [0; 6];
    for_each_node(e, |i| {
        let mut carry = row(i);
        for count in &mut counts {
            let both = *count & carry;
            *count ^= carry;
            carry = both;
        }
    });
    // Compared with m from the lowest bit up.
    let mut found = !0;
    for (k, count) in counts.iter().enumerate() {
        found = if m >> k & 1 == 1 { count & found } else { count | found };
    }
    found
}

/// Transposition of 64 words by exchange of halves.
fn transpose(rows: &mut [u64; 64]) {
    let mut width = 32;
    let mut mask: u64 = 0x0000_0000_FFFF_FFFF;
    while width != 0 {
        for pair in rows.chunks_exact_mut(2 * width) {
            let (low, high) = pair.split_at_mut(width);
            for (x, y) in low.iter_mut().zip(high) {
                let moved = (*x >> width ^ *y) & mask;
                *x ^= moved << width;
                *y ^= moved;
            }
        }
        width >>= 1;
        mask ^= mask << width;
    }
}

/// The rows of an arrow's block reversed, bit by bit if there are few.
fn reversed(block: &Block) -> Rows {
    let mut out = [0; MOST_NODES];
    // This many bits take about as long as a transposition.
    let mut left = 72i32;
    for i in 0..MOST_NODES {
        for_each_node(word(block, i), |j| {
            if j < MOST_NODES {
                out[j] |= 1 << i;
            }
            left -= 1;
        });
        if left < 0 {
            return transposed(block);
        }
    }
    out
}

fn transposed(block: &Block) -> Rows {
    let mut rows = [0; 64];
    rows.iter_mut().zip(all_rows(block)).for_each(|(row, other)| *row = other);
    transpose(&mut rows);
    *rows.first_chunk().unwrap()
}

/// The arrows of the sheet as it now is, reversed; each is made when it is first needed.
pub struct Reversed {
    made: u16,
    /// Where arrow a is in `rows`.
    at: [u8; 16],
    rows: FixedVec<Rows, 16>,
}

const NOWHERE: u8 = 255;

impl Reversed {
    #[inline(always)]
    pub fn new() -> Self {
        Reversed { made: 0, at: [NOWHERE; 16], rows: FixedVec::new() }
    }

    /// To be called when arrow a changes.
    #[inline(always)]
    pub fn forget(&mut self, a: u8) {
        self.made &= !(1 << (a & 15));
    }

    #[inline(always)]
    pub fn rows(&mut self, a: u8, block: &Block) -> &Rows {
        let a = usize::from(a & 15);
        if self.made >> a & 1 == 0 {
            self.make(a, block);
        }
        &self.rows[usize::from(self.at[a])]
    }

    #[cold]
    fn make(&mut self, a: usize, block: &Block) {
        self.made |= 1 << a;
        if self.at[a] == NOWHERE {
            self.at[a] = self.rows.len() as u8;
            self.rows.push(reversed(block));
        } else {
            self.rows[usize::from(self.at[a])] = reversed(block);
        }
    }
}
