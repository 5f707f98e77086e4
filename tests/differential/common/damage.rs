//! Damage to a sheet, often with the check bytes mended so that the later questions are reached.

use crate::random::Random;
use reference::sheet::{Form, BLOCK, PRESENT, SHEET};

const BLOCKS: usize = 17;

fn mend(form: Form, sheet: &mut [u8], block: usize) {
    form.seal(&mut sheet[block * BLOCK..(block + 1) * BLOCK]);
}

/// A sound sheet with one or more faults, or one that a fault happens to leave sound.
pub fn damaged(random: &mut Random, sheet: Vec<u8>) -> Vec<u8> {
    damaged_in(random, PRESENT, sheet)
}

/// The same with the check bytes of a form.
pub fn damaged_in(random: &mut Random, form: Form, mut sheet: Vec<u8>) -> Vec<u8> {
    for _ in 0..1 + random.below(3) / 2 {
        hurt(random, form, &mut sheet);
    }
    if random.one_in(40) {
        resize(random, &mut sheet);
    }
    sheet
}

fn hurt(random: &mut Random, form: Form, sheet: &mut [u8]) {
    let block = random.below(BLOCKS);
    let start = block * BLOCK;
    match random.below(16) {
        0 => sheet[random.below(SHEET)] ^= 1 << random.below(8),
        1 => wrap(&mut sheet[start + random.below(BLOCK)]),
        2..=3 => sheet[start + random.below(3)] = random.pick(&[0, 1, 2, 3, 16, 17, 59, 60, 61, 255]),
        4 => sheet[2] = random.below(64) as u8,
        5 => sheet[start + 3 + random.below(13)] = random.byte(),
        6 => sheet[start + 496 + random.below(form.summed - 496)] = random.byte(),
        7 => sheet[start + 400 + random.below(96)] ^= 1 << random.below(8),
        8..=9 => sheet[start + 16 + random.below(480)] ^= 1 << random.below(8),
        10 => swap_blocks(random, sheet, start),
        11 => exchange_neighbours(random, &mut sheet[start..start + BLOCK]),
        12 => raise_sum(random, form, &mut sheet[start..start + BLOCK]),
        13..=14 => other_use(random, sheet),
        _ => random.bytes(BLOCK).iter().enumerate().for_each(|(i, byte)| sheet[start + i] = *byte),
    }
    if !random.one_in(4) {
        mend(form, sheet, block);
        mend(form, sheet, 0);
    }
}

/// Other nodes in use: none, none below n, one more, one less, or any.
fn other_use(random: &mut Random, sheet: &mut [u8]) {
    let word = &mut sheet[400..408];
    let used = u64::from_le_bytes(word.try_into().expect("8 bytes"));
    let above = random.word() & random.word() << random.below(64);
    let other = match random.below(6) {
        0 => 0,
        1 => above & 0xF000_0000_0000_0000,
        2 => used | above,
        3..=4 => used ^ 1 << random.below(64),
        _ => random.word(),
    };
    word.copy_from_slice(&other.to_le_bytes());
}

/// 0 and 255 are the same modulo 255.
fn wrap(byte: &mut u8) {
    *byte = match *byte {
        0 => 255,
        255 => 0,
        other => other,
    };
}

/// Two unequal neighbours, where the block has any after some place.
fn exchange_neighbours(random: &mut Random, block: &mut [u8]) {
    let from = random.below(BLOCK - 1);
    if let Some(at) = (from..BLOCK - 1).find(|at| block[*at] != block[at + 1]) {
        block.swap(at, at + 1);
    }
}

/// One of the sums, stored with the modulus added to it once or more: the same number to the modulus.
fn raise_sum(random: &mut Random, form: Form, block: &mut [u8]) {
    let at = form.summed + form.width * random.below(2);
    let stored = &mut block[at..at + form.width];
    let mut sum = [0; 4];
    sum[..form.width].copy_from_slice(stored);
    let raised = u32::from_le_bytes(sum) + form.modulus * (1 + random.below(3) as u32);
    stored.copy_from_slice(&raised.to_le_bytes()[..form.width]);
}

fn swap_blocks(random: &mut Random, sheet: &mut [u8], start: usize) {
    let other = random.below(BLOCKS) * BLOCK;
    let kept = sheet[start..start + BLOCK].to_vec();
    sheet.copy_within(other..other + BLOCK, start);
    sheet[other..other + BLOCK].copy_from_slice(&kept);
}

fn resize(random: &mut Random, sheet: &mut Vec<u8>) {
    let length = random.pick(&[0, 1, 511, 512, 8192, SHEET - 1, SHEET + 1, SHEET + BLOCK, 2 * SHEET]);
    sheet.resize(length, 0);
}
