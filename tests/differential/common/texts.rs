//! Random texts: any bytes, bytes that are mostly codes, and sound texts with a small fault.

use crate::random::Random;
use crate::terms::{self, Names};
use reference::syntax::Coded;

/// A sound book or edit whose node numbers are below n.
pub fn sound(random: &mut Random, n: usize) -> Vec<u8> {
    let names = Names::some(random, n.max(1));
    let levels = terms::some_levels(random);
    if random.one_in(2) {
        let most = terms::some_rules(random);
        terms::book_code(&terms::book(random, names, most))
    } else {
        let steps = random.below(7);
        terms::edit(random, names, steps, levels).code()
    }
}

/// One byte changed, put in or taken out, or the end cut off or drawn out.
pub fn damaged(random: &mut Random, mut text: Vec<u8>) -> Vec<u8> {
    let at = random.below(text.len() + 1);
    match random.below(5) {
        0 if at < text.len() => text[at] = likely_byte(random),
        1 => text.insert(at, likely_byte(random)),
        2 if at < text.len() => {
            text.remove(at);
        }
        3 => text.truncate(at),
        _ => text.push(likely_byte(random)),
    }
    text
}

/// A byte after a 0A or 0B, most often its count, made one at an end of a range of counts or beyond.
pub fn miscounted(random: &mut Random, mut text: Vec<u8>) -> Vec<u8> {
    let counts: Vec<usize> = (1..text.len()).filter(|at| text[at - 1] == 0x0A || text[at - 1] == 0x0B).collect();
    if !counts.is_empty() {
        text[random.pick(&counts)] = random.pick(&[0, 1, 59, 60, 61, 254, 255]);
    }
    text
}

/// A byte that is often a code, or near the end of a range of codes or numbers.
pub fn likely_byte(random: &mut Random) -> u8 {
    match random.below(8) {
        0 => random.byte(),
        1 => random.pick(&[0x00, 0x0B, 0x0C, 0x10, 0x17, 0x18, 0x20, 0x27, 0x28, 0x2F, 0x30, 0x35, 0x36, 0x3B, 0x3C]),
        2 => random.below(16) as u8,
        3..=4 => 0x01 + random.below(11) as u8,
        5 => 0x11 + random.below(7) as u8,
        6 => 0x21 + random.below(7) as u8,
        _ => 0x30 + random.below(6) as u8,
    }
}

/// Bytes that are mostly codes.
fn codes(random: &mut Random) -> Vec<u8> {
    let length = random.below(40);
    (0..length).map(|_| likely_byte(random)).collect()
}

/// A text of any of these kinds.
pub fn any(random: &mut Random, n: usize) -> Vec<u8> {
    match random.below(8) {
        0 => {
            let length = random.below(12);
            random.bytes(length)
        }
        1 => codes(random),
        2..=4 => sound(random, n),
        5 => {
            let text = sound(random, n);
            miscounted(random, text)
        }
        _ => {
            let text = sound(random, n);
            damaged(random, text)
        }
    }
}
