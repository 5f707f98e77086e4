//! "The sheet": 8,704 bytes, 17 blocks of 512, and the questions 1 to 5 and 7; the check bytes of document 02, item 2, the
//! nodes in use of item 6, and the old cards that were written before each.

use crate::answer::{answer_of, refuse, Answer, Asked, DONE};
use crate::graph::{Graph, Nodes, Pairs, ARROWS, LABELS, MOST_NODES};

pub const SHEET: usize = 8704;
pub const BLOCK: usize = 512;
const BLOCKS: usize = 17;

/// How the sums s and t of a block are taken and stored: modulo what, over how many bytes from byte 0, and in how many
/// bytes each, little-endian, one after the other, at the block's end. The zeros end where the sums begin. And whether
/// block 0 holds the nodes in use, in label form, after the labels; otherwise all n are in use.
#[derive(Clone, Copy, Debug)]
pub struct Form {
    pub modulus: u32,
    pub summed: usize,
    pub width: usize,
    pub holds_use: bool,
}

/// Document 02, items 2 and 6: the form of every sheet.
pub const PRESENT: Form = Form { holds_use: true, ..SUMS_257 };

/// Document 02, item 2, before item 6: cards with the sums of today.
pub const SUMS_257: Form = Form { modulus: 257, summed: 508, width: 2, holds_use: false };

/// Document 01: the oldest cards.
pub const SUMS_255: Form = Form { modulus: 255, summed: 510, width: 1, holds_use: false };

impl Form {
    /// The check bytes of a block. The remainders are taken of the whole sums, which comes to the same.
    pub fn check_bytes(&self, block: &[u8]) -> Vec<u8> {
        let (mut s, mut t) = (0u32, 0u32);
        for byte in &block[..self.summed] {
            s += u32::from(*byte);
            t += s;
        }
        [s, t].iter().flat_map(|sum| (sum % self.modulus).to_le_bytes()[..self.width].to_vec()).collect()
    }

    /// Writes the check bytes of a block.
    pub fn seal(&self, block: &mut [u8]) {
        let bytes = self.check_bytes(block);
        block[self.summed..].copy_from_slice(&bytes);
    }

    /// The questions 1 to 4. A sound sheet gives its n.
    pub fn ask(&self, sheet: &[u8]) -> Asked<usize> {
        if sheet.len() != SHEET {
            return refuse(1, 0);
        }
        let in_use = self.in_use(sheet);
        for b in 0..BLOCKS {
            let block = &sheet[b * BLOCK..(b + 1) * BLOCK];
            if block[self.summed..] != self.check_bytes(block) {
                return refuse(2, b);
            }
            if !head_right(b, block) || !in_use.contains(&true) {
                return refuse(3, b);
            }
            if !self.zeros_right(b, &block[..self.summed], &in_use) {
                return refuse(4, b);
            }
        }
        Ok(in_use.len())
    }

    /// Which of the nodes below n are in use, for any n.
    fn in_use(&self, sheet: &[u8]) -> Nodes {
        (0..usize::from(sheet[2])).map(|i| !self.holds_use || i < 64 && bit_at(sheet, USE_PLACE, i)).collect()
    }

    /// All that must be zero is zero, in a block without its check bytes.
    fn zeros_right(&self, b: usize, body: &[u8], in_use: &[bool]) -> bool {
        let may_be_set = |at, bit| self.has_meaning(b, at, bit, in_use);
        (3..body.len()).all(|at| body[at] == 0 || (0..8).all(|bit| body[at] >> bit & 1 == 0 || may_be_set(at, bit)))
    }

    /// Whether a bit of a block stands for a label of a node in use, for an arrow between two, or for a node's use.
    fn has_meaning(&self, b: usize, at: usize, bit: usize, in_use: &[bool]) -> bool {
        if at < 16 {
            return false;
        }
        let (row, column) = ((at - 16) / 8, (at - 16) % 8 * 8 + bit);
        let used = |node: usize| in_use.get(node) == Some(&true);
        match b {
            0 if row < LABELS => used(column),
            0 => row == LABELS && self.holds_use && column < in_use.len(),
            _ => used(row) && used(column),
        }
    }

    /// The graph of a sound sheet or card: all forms have it at the same places.
    pub fn read(&self, sheet: &[u8]) -> Graph {
        let mut graph = Graph::blank(usize::from(sheet[2]));
        graph.in_use = self.in_use(sheet);
        for (k, label) in graph.labels.iter_mut().enumerate() {
            for (i, member) in label.iter_mut().enumerate() {
                *member = bit_at(sheet, label_place(k), i);
            }
        }
        for (a, arrow) in graph.arrows.iter_mut().enumerate() {
            *arrow = Pairs::new(graph.n, |i, j| bit_at(sheet, row_place(a, i), j));
        }
        graph
    }

    /// The one sheet that stores a graph; in a form that does not hold the nodes in use, one whose nodes all are.
    pub fn store(&self, graph: &Graph) -> Vec<u8> {
        let mut sheet = unsealed(graph);
        if self.holds_use {
            put_word(&mut sheet, USE_PLACE, &graph.in_use);
        }
        sheet.chunks_mut(BLOCK).for_each(|block| self.seal(block));
        sheet
    }

    /// A card of this form becomes the sheet of its graph, in its own buffer.
    fn convert(&self, card: &mut [u8]) -> Answer {
        let asked = self.ask(card);
        if asked.is_ok() {
            let sheet = store(&self.read(card));
            card.copy_from_slice(&sheet);
        }
        answer_of(&asked)
    }
}

/// Writes the check bytes of a block.
pub fn seal(block: &mut [u8]) {
    PRESENT.seal(block);
}

/// The questions 1 to 4.
pub fn ask(sheet: &[u8]) -> Asked<usize> {
    PRESENT.ask(sheet)
}

/// The graph of a sound sheet.
pub fn read(sheet: &[u8]) -> Graph {
    PRESENT.read(sheet)
}

/// The one sheet that stores a graph.
pub fn store(graph: &Graph) -> Vec<u8> {
    PRESENT.store(graph)
}

/// A card of document 01 becomes a sheet.
pub fn convert_255(card: &mut [u8]) -> Answer {
    SUMS_255.convert(card)
}

/// A card of item 2 becomes a sheet.
pub fn convert_257(card: &mut [u8]) -> Answer {
    SUMS_257.convert(card)
}

/// Bytes 0 to 2, and n from 1 to 60.
fn head_right(b: usize, block: &[u8]) -> bool {
    let n = usize::from(block[2]);
    if b == 0 {
        block[0] == 1 && block[1] == 0 && (1..=MOST_NODES).contains(&n)
    } else {
        block[0] == 2 && usize::from(block[1]) == b && n == 0
    }
}

/// The bit of a word of 8 little-endian bytes.
fn bit_at(bytes: &[u8], word: usize, bit: usize) -> bool {
    bytes[word + bit / 8] >> (bit % 8) & 1 == 1
}

/// Where the nodes in use begin, in block 0.
const USE_PLACE: usize = 400;

/// Where label k begins.
fn label_place(k: usize) -> usize {
    16 + 8 * k
}

/// Where row i of arrow a begins.
fn row_place(a: usize, i: usize) -> usize {
    (a + 1) * BLOCK + 16 + 8 * i
}

/// All of a graph's sheet except the nodes in use and the check bytes.
fn unsealed(graph: &Graph) -> Vec<u8> {
    let mut sheet = vec![0; SHEET];
    sheet[0] = 1;
    sheet[2] = graph.n as u8;
    for a in 0..ARROWS {
        sheet[(a + 1) * BLOCK] = 2;
        sheet[(a + 1) * BLOCK + 1] = a as u8 + 1;
    }
    for (k, label) in graph.labels.iter().enumerate() {
        put_word(&mut sheet, label_place(k), label);
    }
    for (a, arrow) in graph.arrows.iter().enumerate() {
        for i in 0..graph.n {
            put_word(&mut sheet, row_place(a, i), arrow.row(i));
        }
    }
    sheet
}

fn put_word(sheet: &mut [u8], word: usize, bits: &[bool]) {
    for (i, _) in bits.iter().enumerate().filter(|(_, bit)| **bit) {
        sheet[word + i / 8] |= 1 << (i % 8);
    }
}

/// Blank sheet of n.
pub fn blank(buffer: &mut [u8], n: usize) -> Answer {
    if !(1..=MOST_NODES).contains(&n) {
        return Answer { number: 5, place: 0 };
    }
    if buffer.len() != SHEET {
        return Answer { number: 1, place: 0 };
    }
    buffer.copy_from_slice(&store(&Graph::blank(n)));
    DONE
}

/// Read one label bit.
pub fn label_bit(sheet: &[u8], label: usize, node: usize) -> Asked<bool> {
    let n = ask(sheet)?;
    if label >= LABELS || node >= n {
        return refuse(7, 0);
    }
    Ok(bit_at(sheet, label_place(label), node))
}

/// Read one arrow bit.
pub fn arrow_bit(sheet: &[u8], arrow: usize, from: usize, to: usize) -> Asked<bool> {
    let n = ask(sheet)?;
    if arrow >= ARROWS || from >= n || to >= n {
        return refuse(7, 0);
    }
    Ok(bit_at(sheet, row_place(arrow, from), to))
}

/// The questions 1 to 4 as an answer.
pub fn check(sheet: &[u8]) -> Answer {
    answer_of(&ask(sheet))
}

/// n and the nodes in use, as a word whose bit i is node i.
pub fn nodes(sheet: &[u8]) -> Asked<(usize, u64)> {
    ask(sheet)?;
    let graph = read(sheet);
    Ok((graph.n, word(&graph.in_use).1))
}

/// How many nodes have a label, and which.
pub fn label_set(sheet: &[u8], label: usize) -> Asked<(usize, u64)> {
    ask(sheet)?;
    match read(sheet).labels.get(label) {
        Some(nodes) => Ok(word(nodes)),
        None => refuse(7, 0),
    }
}

/// How many arrows of a kind go from a node, and to which.
pub fn row_set(sheet: &[u8], arrow: usize, from: usize) -> Asked<(usize, u64)> {
    let n = ask(sheet)?;
    match read(sheet).arrows.get(arrow) {
        Some(pairs) if from < n => Ok(word(pairs.row(from))),
        _ => refuse(7, 0),
    }
}

/// How many nodes are in a set, and the set as a word.
fn word(nodes: &[bool]) -> (usize, u64) {
    let set = nodes.iter().enumerate().fold(0, |set, (i, member)| set | u64::from(*member) << i);
    (nodes.iter().filter(|member| **member).count(), set)
}
