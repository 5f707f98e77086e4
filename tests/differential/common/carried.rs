//! Books and edits whose carried books are long or deep, around 16,384 bytes and 255 levels, and those that explode.

use crate::limits::wide_node;
use reference::carry::CARRIED_BYTES;

/// A book and an edit.
type Pair = (Vec<u8>, Vec<u8>);

const LABEL: [u8; 4] = [0x23, 0x00, 0x03, 0x00];
const ARROW: [u8; 5] = [0x24, 0x00, 0x01, 0x11, 0x00];
const BRANCH: [u8; 6] = [0x35, 0x21, 0x01, 0x01, 0x30, 0x30];

pub fn all() -> Vec<Pair> {
    [exploding(), deep(), deep_operands(), long(), branched()].concat()
}

/// `count` times a step, and the end.
fn repeated(step: &[u8], count: usize) -> Vec<u8> {
    [step.repeat(count), vec![0x30]].concat()
}

/// Sizes far beyond the limits, or small ones that a careless walk takes exponential time for.
fn exploding() -> Vec<Pair> {
    let idle = [0x31, 0x01, 0x01].repeat(1324);
    vec![
        (vec![], repeated(&BRANCH, 682)),
        (LABEL.to_vec(), repeated(&BRANCH, 682)),
        (LABEL.to_vec(), repeated(&[0x31, 0x00, 0x01], 1365)),
        (LABEL.to_vec(), repeated(&[0x31, 0x00, 0x03, 0x00], 1023)),
        (LABEL.to_vec(), repeated(&[0x32, 0x00, 0x03, 0x00], 1023)),
        (ARROW.to_vec(), repeated(&[0x33, 0x00, 0x11, 0x00], 1023)),
        (LABEL.to_vec(), [BRANCH.repeat(10), idle, vec![0x30]].concat()),
        (LABEL.repeat(32), repeated(&[0x31, 0x00, 0x01], 255)),
    ]
}

/// Around 255 levels: the rule has 2, each step adds one, and the 05 of a 32 or the 12 of an R may add another.
fn deep() -> Vec<Pair> {
    let mut pairs = Vec::new();
    for steps in 250..=256 {
        pairs.push((LABEL.to_vec(), repeated(&[0x31, 0x00, 0x01], steps)));
        pairs.push((LABEL.to_vec(), repeated(&[0x32, 0x00, 0x01], steps)));
        pairs.push((ARROW.to_vec(), repeated(&[0x33, 0x00, 0x17, 0x00, 0x01], steps)));
        pairs.push((ARROW.to_vec(), repeated(&[0x34, 0x00, 0x12, 0x17, 0x00, 0x01], steps)));
    }
    pairs
}

/// The levels of the E of each step.
fn deep_operands() -> Vec<Pair> {
    let mut pairs = Vec::new();
    let low = [vec![0x23, 0x00], vec![0x05; 30], vec![0x03, 0x00]].concat();
    for depth in 0..=8 {
        let step = [vec![0x31, 0x00], vec![0x05; depth], vec![0x03, 0x00]].concat();
        (1..=14).for_each(|count| pairs.push((LABEL.to_vec(), repeated(&step, count))));
        let step = [vec![0x31, 0x00], vec![0x05; 30 - depth / 4], vec![0x03, 0x00]].concat();
        (5..=9).for_each(|count| pairs.push((low.clone(), repeated(&step, count))));
    }
    pairs
}

/// Around 16,384 bytes: a place adds the length of E plus 1.
fn long() -> Vec<Pair> {
    let book = [vec![0x21, 0x01], places(4)].concat();
    let mut pairs = Vec::new();
    for extra in 0..=8 {
        let operand = (CARRIED_BYTES - book.len() + extra) / 4 - 2;
        let step = [vec![0x31, 0x00], wide_node(operand)].concat();
        pairs.push((book.clone(), repeated(&step, 1)));
        pairs.push(([vec![0x21, 0x01], wide_node(extra + 1), book.clone()].concat(), repeated(&step, 1)));
    }
    pairs
}

/// An expression in which label 0 stands at this many places.
fn places(count: usize) -> Vec<u8> {
    match count {
        1 => vec![0x03, 0x00],
        _ => [vec![0x07, 0x03, 0x00], places(count - 1)].concat(),
    }
}

/// Branches one after the other, with and without a step in them.
fn branched() -> Vec<Pair> {
    let with_step = [0x35, 0x23, 0x00, 0x03, 0x00, 0x31, 0x00, 0x01, 0x30, 0x30];
    let both =
        |branches| [(LABEL.to_vec(), repeated(&BRANCH, branches)), (LABEL.to_vec(), repeated(&with_step, branches))];
    (1..=12).flat_map(both).collect()
}
