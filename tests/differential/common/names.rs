//! Random tables of names, and texts of tokens: laid out in any way, sound and damaged.

use crate::random::Random;
use std::collections::HashSet;

/// A token: a word or a mark.
pub type Token = Vec<u8>;

/// Each sort, and how many numbers it has.
const SORTS: [(&str, usize); 3] = [("label", 48), ("arrow", 16), ("node", 60)];

pub const WORDS: [&str; 24] = [
    "all",
    "none",
    "not",
    "and",
    "or",
    "some",
    "every",
    "at-least",
    "at-most",
    "reversed",
    "without",
    "to",
    "pair",
    "each",
    "each-arrow",
    "is",
    "joined",
    "mark",
    "unmark",
    "add",
    "take",
    "if",
    "else",
    "end",
];

/// Tokens that are not names, and some that only just are.
const HOSTILE: [&[u8]; 40] = [
    b"label:3",
    b"arrow:2",
    b"node:7",
    b"label:",
    b"node:x",
    b"arrow:16",
    b"label:48",
    b"node:60",
    b"label:03",
    b"node:+7",
    b"label:0",
    b"node:59",
    b"arrow:15",
    b"label:47",
    b"label",
    b"arrow",
    b"node",
    b"labels",
    b"Node",
    b"0",
    b"00",
    b"1",
    b"01",
    b"15",
    b"16",
    b"47",
    b"48",
    b"59",
    b"60",
    b"61",
    b"255",
    b"256",
    b"+1",
    b"-1",
    b"a\x00b",
    b"a\x1F",
    b"\x7F",
    b"\x0B",
    b"a\x7Fb",
    b"\xC3\xBC",
];

fn any_of(random: &mut Random, from: &[&str]) -> Token {
    random.pick(from).as_bytes().to_vec()
}

/// A byte that a name may have.
fn name_byte(random: &mut Random) -> u8 {
    loop {
        let byte = random.byte();
        if byte > 0x20 && byte != 0x7F && !b"#(),".contains(&byte) {
            return byte;
        }
    }
}

/// A name; it may be one that was given before.
fn name(random: &mut Random) -> Token {
    match random.below(9) {
        0 => random.below(70).to_string().into_bytes(),
        1 => format!("{:02}:{:02}", random.below(24), random.below(60)).into_bytes(),
        2 => format!("P{}-S{}", random.below(9), random.below(9)).into_bytes(),
        3 => "G\u{fc}terzug-".bytes().chain(random.below(99).to_string().bytes()).collect(),
        4 => any_of(random, &["label", "arrow", "node", "labels:3", "node;1", "x:y", ":", "-", "label-3"]),
        5 => [any_of(random, &WORDS), vec![name_byte(random)]].concat(),
        6 => (0..random.pick(&[63, 64])).map(|_| name_byte(random)).collect(),
        _ => (0..1 + random.below(9)).map(|_| name_byte(random)).collect(),
    }
}

/// A token that a sound text has nowhere, or not where it is put.
pub fn hostile(random: &mut Random) -> Token {
    match random.below(6) {
        0 => any_of(random, &WORDS),
        1 => any_of(random, &["(", ")", ","]),
        2 => vec![b'x'; random.pick(&[64, 65, 66, 200])],
        3 => name(random),
        _ => random.pick(&HOSTILE).to_vec(),
    }
}

/// The tokens of a sound table: empty, of some names, or full.
pub fn table(random: &mut Random) -> Vec<Token> {
    let share = random.pick(&[0, 1, 1, 2, 8]);
    let mut numbers: Vec<(&str, usize)> =
        SORTS.iter().flat_map(|(sort, count)| (0..*count).map(move |x| (*sort, x))).collect();
    numbers.retain(|_| random.below(8) < share);
    for at in (1..numbers.len()).rev() {
        numbers.swap(at, random.below(at + 1));
    }
    let (mut given, mut tokens) = (HashSet::new(), vec![]);
    for (sort, number) in numbers {
        let mut next = name(random);
        while WORDS.iter().any(|word| word.as_bytes() == next) || !given.insert(next.clone()) {
            next = name(random);
        }
        tokens.extend([sort.as_bytes().to_vec(), number.to_string().into_bytes(), next]);
    }
    tokens
}

/// Some tokens dropped, doubled, exchanged, moved or replaced.
pub fn damaged(random: &mut Random, mut tokens: Vec<Token>) -> Vec<Token> {
    for _ in 0..1 + random.below(3) / 2 {
        let (at, other) = (random.below(tokens.len() + 1), random.below(tokens.len() + 1));
        match random.below(8) {
            _ if at == tokens.len() || other == tokens.len() => tokens.push(hostile(random)),
            0 => drop(tokens.remove(at)),
            1 => tokens.insert(at, tokens[at].clone()),
            2 => tokens.swap(at, other),
            3 => tokens.swap(at, at.saturating_sub(1)),
            4 => tokens[at] = tokens[other].clone(),
            5 => tokens.insert(at, hostile(random)),
            6 => tokens.truncate(at),
            _ => tokens[at] = hostile(random),
        }
    }
    tokens
}

fn is_mark(token: &[u8]) -> bool {
    matches!(token, b"(" | b")" | b",")
}

/// Blanks and comments, some of them odd.
fn gap(random: &mut Random) -> &'static [u8] {
    random.pick(&[
        b" ",
        b" ",
        b" ",
        b"\n",
        b"\t",
        b"\r\n",
        b"\r",
        b"  \n",
        b"# and\n",
        b"#\n",
        b" # (\r ,\n",
        b"\n\n#\x00\xFF #\n ",
        b"#all\r\n\t",
    ])
}

/// A text of these tokens: with blanks and comments where they must be and where they may be.
pub fn laid(random: &mut Random, tokens: &[Token]) -> Vec<u8> {
    let mut text = vec![];
    let mut after_word = false;
    for token in tokens {
        if (after_word && !is_mark(token)) || random.one_in(6) {
            text.extend(gap(random));
        }
        text.extend(token);
        after_word = !is_mark(token);
    }
    match random.below(4) {
        0 => text.extend(gap(random)),
        1 => text.extend(b" # the end"),
        _ => {}
    }
    text
}

/// A byte put in, taken out or changed, or the end cut off.
pub fn byte_damaged(random: &mut Random, mut text: Vec<u8>) -> Vec<u8> {
    let at = random.below(text.len() + 1);
    let byte = if random.one_in(3) { random.byte() } else { random.pick(b"\x00\x0B\x1F\x7F\x80\xFF#(), \t\r\n:-07ae") };
    match random.below(4) {
        0 if at < text.len() => text[at] = byte,
        1 if at < text.len() => drop(text.remove(at)),
        2 => text.truncate(at),
        _ => text.insert(at, byte),
    }
    text
}

/// The tokens of words as they are printed, without comments.
pub fn tokens(words: &[u8]) -> Vec<Token> {
    let mut found: Vec<Token> = vec![];
    let mut in_word = false;
    for byte in words {
        let blank = matches!(byte, b' ' | b'\n');
        let mark = is_mark(&[*byte]);
        match found.last_mut() {
            Some(word) if in_word && !blank && !mark => word.push(*byte),
            _ if !blank => found.push(vec![*byte]),
            _ => {}
        }
        in_word = !blank && !mark;
    }
    found
}
