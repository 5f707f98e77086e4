//! Texts at each limit of document 01 and just outside it.

/// A node expression of just this many bytes, as flat as can be.
pub fn wide_node(length: usize) -> Vec<u8> {
    match length {
        0 => unreachable!("an expression has a byte"),
        1 => vec![0x01],
        2 => vec![0x05, 0x02],
        _ => {
            let first = (length - 1) / 2;
            [vec![0x07], wide_node(first), wide_node(length - 1 - first)].concat()
        }
    }
}

/// A book of one rule with this many bytes.
pub fn long_book(length: usize) -> Vec<u8> {
    [vec![0x21, 0x01], wide_node(length - 2)].concat()
}

/// An edit of one step with this many bytes.
pub fn long_edit(length: usize) -> Vec<u8> {
    [vec![0x31, 0x00], wide_node(length - 3), vec![0x30]].concat()
}

/// What may stand above an operand of each sort, with the operands before and after it.
struct Frame {
    outer: u8,
    inner: u8,
    before: &'static [u8],
    after: &'static [u8],
}

const NODE: u8 = 0;
const ARROW: u8 = 1;
const RULE: u8 = 2;
const EDIT: u8 = 3;

const fn frame(outer: u8, inner: u8, before: &'static [u8], after: &'static [u8]) -> Frame {
    Frame { outer, inner, before, after }
}

/// Each operand place of each code.
const FRAMES: [Frame; 39] = [
    frame(NODE, NODE, &[0x05], &[]),
    frame(NODE, NODE, &[0x06], &[0x01]),
    frame(NODE, NODE, &[0x06, 0x01], &[]),
    frame(NODE, NODE, &[0x07], &[0x02]),
    frame(NODE, NODE, &[0x07, 0x02], &[]),
    frame(NODE, ARROW, &[0x08], &[0x01]),
    frame(NODE, NODE, &[0x08, 0x11, 0x00], &[]),
    frame(NODE, ARROW, &[0x09], &[0x01]),
    frame(NODE, NODE, &[0x09, 0x11, 0x00], &[]),
    frame(NODE, ARROW, &[0x0A, 0x01], &[0x01]),
    frame(NODE, NODE, &[0x0A, 0x01, 0x11, 0x00], &[]),
    frame(NODE, ARROW, &[0x0B, 0x01], &[0x01]),
    frame(NODE, NODE, &[0x0B, 0x01, 0x11, 0x00], &[]),
    frame(ARROW, ARROW, &[0x12], &[]),
    frame(ARROW, ARROW, &[0x13], &[0x11, 0x00]),
    frame(ARROW, ARROW, &[0x13, 0x11, 0x00], &[]),
    frame(ARROW, ARROW, &[0x14], &[0x11, 0x00]),
    frame(ARROW, ARROW, &[0x14, 0x11, 0x00], &[]),
    frame(ARROW, ARROW, &[0x15], &[0x11, 0x00]),
    frame(ARROW, ARROW, &[0x15, 0x11, 0x00], &[]),
    frame(ARROW, ARROW, &[0x16], &[0x01]),
    frame(ARROW, NODE, &[0x16, 0x11, 0x00], &[]),
    frame(RULE, NODE, &[0x21], &[0x01]),
    frame(RULE, NODE, &[0x21, 0x01], &[]),
    frame(RULE, ARROW, &[0x22], &[0x11, 0x00]),
    frame(RULE, ARROW, &[0x22, 0x11, 0x00], &[]),
    frame(RULE, NODE, &[0x23, 0x00], &[]),
    frame(RULE, ARROW, &[0x24, 0x00, 0x00], &[]),
    frame(RULE, RULE, &[0x25], &[0x21, 0x01, 0x01]),
    frame(RULE, RULE, &[0x25, 0x21, 0x01, 0x01], &[]),
    frame(RULE, RULE, &[0x26], &[0x21, 0x01, 0x01]),
    frame(RULE, RULE, &[0x26, 0x21, 0x01, 0x01], &[]),
    frame(RULE, RULE, &[0x27], &[]),
    frame(EDIT, NODE, &[0x31, 0x00], &[0x30]),
    frame(EDIT, NODE, &[0x32, 0x00], &[0x30]),
    frame(EDIT, ARROW, &[0x33, 0x00], &[0x30]),
    frame(EDIT, ARROW, &[0x34, 0x00], &[0x30]),
    frame(EDIT, RULE, &[0x35], &[0x30, 0x30, 0x30]),
    frame(EDIT, EDIT, &[0x35, 0x21, 0x01, 0x01, 0x30], &[0x30]),
];

/// The shortest expression of a sort.
fn leaf(sort: u8) -> &'static [u8] {
    match sort {
        NODE => &[0x01],
        ARROW => &[0x11, 0x00],
        RULE => &[0x21, 0x01, 0x01],
        _ => &[0x30],
    }
}

/// The first frame of a sort that holds a given sort.
fn leading(outer: u8, inner: u8) -> Option<&'static Frame> {
    FRAMES.iter().find(|frame| frame.outer == outer && frame.inner == inner)
}

/// A rule or an edit (the sort `top`) whose frame `last` stands at a level, with a leaf below it. No rule holds an
/// edit.
fn framed(top: u8, last: &Frame, level: usize) -> Option<Vec<u8>> {
    let filler = leading(last.outer, last.outer)?;
    let mut text = wrapped(last, leaf(last.inner).to_vec());
    let lead = usize::from(top != last.outer);
    for _ in 0..level - 1 - lead {
        text = wrapped(filler, text);
    }
    if top != last.outer {
        text = wrapped(leading(top, last.outer)?, text);
    }
    Some(text)
}

fn wrapped(frame: &Frame, inner: Vec<u8>) -> Vec<u8> {
    [frame.before.to_vec(), inner, frame.after.to_vec()].concat()
}

/// For each operand place of each code: the code at level 30 to 33, its operands one deeper.
pub fn levels() -> Vec<Vec<u8>> {
    let mut texts = Vec::new();
    for last in &FRAMES {
        for top in [RULE, EDIT] {
            for level in 30..=33 {
                texts.extend(framed(top, last, level));
            }
        }
    }
    // P of a 35 deeper and deeper (the frames above have its K and its Q), and a 35 whose K is that deep.
    for depth in 30..=33 {
        texts.push([[0x35, 0x21, 0x01, 0x01].repeat(depth), vec![0x30; 2 * depth + 1]].concat());
        texts.push([vec![0x35], vec![0x27; depth], vec![0x23, 0x00, 0x01, 0x30, 0x30, 0x30]].concat());
    }
    // Forty steps one after the other: Z is on the level of its step.
    texts.push([[0x31, 0x00, 0x01].repeat(40), vec![0x30]].concat());
    // A rule that ends where level 33 would begin.
    texts.push([vec![0x23, 0x01], vec![0x05; 31]].concat());
    texts
}

/// Books of 31 to 34 rules, sound, with a fault in a rule, and with any byte after the last.
pub fn rule_counts() -> Vec<Vec<u8>> {
    let mut texts = Vec::new();
    for rules in 31..=34 {
        let book = [0x21, 0x01, 0x01].repeat(rules);
        texts.push(book.clone());
        for extra in [0x00, 0x21, 0x27, 0x30, 0xFF] {
            texts.push([book.clone(), vec![extra]].concat());
        }
        for at in [90, 91, 92, 93] {
            let mut faulty = book.clone();
            if at < faulty.len() {
                faulty[at] = 0x30;
                texts.push(faulty);
            }
        }
    }
    texts
}

/// Texts of 4,095 to 4,098 bytes, sound except for their length, and of other bytes.
pub fn lengths() -> Vec<Vec<u8>> {
    let mut texts = Vec::new();
    for length in [4095, 4096, 4097, 4098, 5000, 65535] {
        texts.push(long_book(length));
        texts.push(long_edit(length));
        texts.push(vec![0x21; length]);
        texts.push(vec![0x30; length]);
        texts.push(vec![0x05; length]);
        texts.push([vec![0x21, 0x01, 0x01], vec![0xFF; length - 3]].concat());
    }
    texts
}

/// Stands for the number in the patterns below.
const N: u16 = 256;

/// Each number byte of each code, alone and last.
const NUMBERED: [&[u16]; 24] = [
    &[0x23, 0x00, 0x03, N],
    &[0x23, 0x00, 0x04, N],
    &[0x23, 0x00, 0x0A, N, 0x11, 0x00, 0x01],
    &[0x23, 0x00, 0x0B, N, 0x11, 0x00, 0x01],
    &[0x24, 0x00, 0x00, 0x11, N],
    &[0x24, 0x00, 0x00, 0x17, N, 0x00],
    &[0x24, 0x00, 0x00, 0x17, 0x00, N],
    &[0x24, 0x00, 0x00, 0x17, N, N],
    &[0x24, 0x00, 0x00, 0x17, N],
    &[0x23, N, 0x01],
    &[0x24, N, 0x00, 0x11, 0x00],
    &[0x24, 0x00, N, 0x11, 0x00],
    &[0x24, N, N],
    &[0x31, N, 0x01, 0x30],
    &[0x32, N, 0x01, 0x30],
    &[0x33, N, 0x11, 0x00, 0x30],
    &[0x34, N, 0x11, 0x00, 0x30],
    &[0x31, 0x00, 0x04, N, 0x30],
    &[0x31, 0x00, 0x0A, N, 0x11, 0x00, 0x01, 0x30],
    &[0x32, 0x00, 0x0B, N, 0x11, 0x00, 0x01, 0x30],
    &[0x33, 0x00, 0x16, 0x11, 0x00, 0x0B, N, 0x11, 0x00, 0x01, 0x30],
    &[0x35, 0x23, 0x00, 0x0A, N, 0x11, 0x00, 0x01, 0x30, 0x30, 0x30],
    &[0x33, 0x00, 0x17, 0x00, N, 0x30],
    &[0x35, 0x23, N, 0x01, 0x30, 0x30, 0x30],
];

/// Each of these texts with this number in it.
pub fn numbers(number: u8) -> Vec<Vec<u8>> {
    let fill = |byte: &u16| if *byte == N { number } else { *byte as u8 };
    NUMBERED.iter().map(|pattern| pattern.iter().map(fill).collect()).collect()
}
