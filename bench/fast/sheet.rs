//! The sheet: its questions, its words and its check bytes.

use crate::{refused, Answer};
use std::arch::x86_64::*;

const SHEET_BYTES: usize = 8704;
pub const MOST_NODES: usize = 60;

pub type Block = [u8; 512];
pub type Blocks = [Block; 17];

/// Question 1.
#[inline(always)]
pub fn blocks(sheet: &[u8]) -> Result<&Blocks, Answer> {
    if sheet.len() != SHEET_BYTES {
        return Err(refused(1, 0));
    }
    Ok(sheet.as_chunks().0.try_into().unwrap())
}

#[inline(always)]
pub fn blocks_mut(sheet: &mut [u8]) -> Result<&mut Blocks, Answer> {
    if sheet.len() != SHEET_BYTES {
        return Err(refused(1, 0));
    }
    Ok(sheet.as_chunks_mut().0.try_into().unwrap())
}

#[inline(always)]
fn words(block: &Block) -> &[[u8; 8]; 64] {
    block.as_chunks().0.try_into().unwrap()
}

/// Label i in block 0, row i in the block of an arrow: both are at 16 + 8i.
#[inline(always)]
pub fn word(block: &Block, i: usize) -> u64 {
    u64::from_le_bytes(words(block)[i + 2])
}

#[inline(always)]
pub fn set_word(block: &mut Block, i: usize, value: u64) {
    block.as_chunks_mut().0[i + 2] = value.to_le_bytes();
}

/// The rows of all nodes that a sheet can have, in order.
#[inline(always)]
pub fn all_rows(block: &Block) -> impl Iterator<Item = u64> + '_ {
    words(block)[2..2 + MOST_NODES].iter().map(|row| u64::from_le_bytes(*row))
}

/// The word of block 0 after the labels: the nodes in use.
const USE: usize = 48;

/// The nodes in use of a sound sheet.
#[inline(always)]
pub fn in_use(sheet: &Blocks) -> u64 {
    word(&sheet[0], USE)
}

/// s and t as they are stored, the first in the low half.
#[inline(always)]
fn stored_sums(block: &Block) -> u32 {
    u32::from_le_bytes(block[508..].try_into().unwrap())
}

#[inline(always)]
fn reduced(s: u32, t: u32) -> u32 {
    s % 257 | t % 257 << 16
}

/// What the head of a block adds to s and to t: byte i counts 508 - i times in t.
#[inline(always)]
fn head_sums(head: [u8; 3]) -> (u32, u32) {
    let [a, b, c] = head.map(u32::from);
    (a + b + c, 508 * a + 507 * b + 506 * c)
}

/// Half of the vectors of two rows that a block has: in a column of this many bytes, its totals up to each byte add up to
/// less than 2^15.
const HALF: usize = 15;

/// How often the bytes of the last vector of a half count in t, those at even places and those at odd ones.
static WEIGHTS: [[[i16; 8]; 2]; 2] = {
    let mut weights = [[[0; 8]; 2]; 2];
    let mut i = 0;
    while i < 32 {
        let (half, parity, pair) = (i / 16, i % 2, i / 2 % 8);
        weights[half][parity][pair] = 508 - 16 * (HALF * (half + 1)) as i16 - (i % 16) as i16;
        i += 1;
    }
    weights
};

#[inline(always)]
fn vectors(block: &Block) -> &[[u8; 16]; 32] {
    block.as_chunks().0.try_into().unwrap()
}

#[inline(always)]
fn load(vector: &[u8; 16]) -> __m128i {
    // SAFETY: 16 bytes are read. SSE2 is part of x86_64.
    unsafe { _mm_loadu_si128(vector.as_ptr() as *const __m128i) }
}

#[inline(always)]
fn load_weights(weights: &[i16; 8]) -> __m128i {
    // SAFETY: 16 bytes are read. SSE2 is part of x86_64.
    unsafe { _mm_loadu_si128(weights.as_ptr() as *const __m128i) }
}

/// What the first 30 or 60 rows add to s and to t, and all bits of them. Each byte is taken once and nothing is divided.
#[inline(always)]
fn row_sums(block: &Block, halves: usize) -> (u32, u32, __m128i) {
    // SAFETY: SSE2 is part of x86_64.
    unsafe {
        let none = _mm_setzero_si128();
        let (mut s, mut t, mut any) = (none, none, none);
        for (half, weights) in vectors(block)[1..31].as_chunks::<HALF>().0.iter().zip(&WEIGHTS).take(halves) {
            // Totals of two columns of bytes, the high one 256 times, and of the high one alone; what they were at
            // each vector, added up, has a vector's bytes once for each vector after it.
            let (mut pairs, mut odd, mut pairs_before, mut odd_before) = (none, none, none, none);
            for vector in half {
                let v = load(vector);
                any = _mm_or_si128(any, v);
                pairs_before = _mm_add_epi16(pairs_before, pairs);
                odd_before = _mm_add_epi16(odd_before, odd);
                pairs = _mm_add_epi16(pairs, v);
                odd = _mm_add_epi16(odd, _mm_srli_epi16::<8>(v));
            }
            let even = _mm_sub_epi16(pairs, _mm_slli_epi16::<8>(odd));
            let even_before = _mm_sub_epi16(pairs_before, _mm_slli_epi16::<8>(odd_before));
            s = _mm_add_epi32(s, _mm_madd_epi16(_mm_add_epi16(even, odd), _mm_set1_epi16(1)));
            t = _mm_add_epi32(t, _mm_madd_epi16(even_before, _mm_set1_epi16(16)));
            t = _mm_add_epi32(t, _mm_madd_epi16(odd_before, _mm_set1_epi16(16)));
            t = _mm_add_epi32(t, _mm_madd_epi16(even, load_weights(&weights[0])));
            t = _mm_add_epi32(t, _mm_madd_epi16(odd, load_weights(&weights[1])));
        }
        (total(s), total(t), any)
    }
}

/// The sum of four numbers.
#[inline(always)]
fn total(v: __m128i) -> u32 {
    // SAFETY: SSE2 is part of x86_64.
    unsafe {
        let v = _mm_add_epi32(v, _mm_shuffle_epi32::<0b01_00_11_10>(v));
        let v = _mm_add_epi32(v, _mm_shuffle_epi32::<0b10_11_00_01>(v));
        _mm_cvtsi128_si32(v) as u32
    }
}

/// Writes the check bytes of a block whose other bytes are right.
pub fn seal(block: &mut Block) {
    let (head_s, head_t) = head_sums(block[..3].try_into().unwrap());
    let (s, t, _) = row_sums(block, 2);
    block[508..].copy_from_slice(&reduced(head_s + s, head_t + t).to_le_bytes());
}

/// All bits after the first rows except the check bytes, and those of bytes 3 to 15.
#[inline(always)]
fn outside(block: &Block, rows: usize) -> __m128i {
    // SAFETY: SSE2 is part of x86_64.
    unsafe {
        let head = _mm_andnot_si128(_mm_cvtsi32_si128(0x00FF_FFFF), load(&vectors(block)[0]));
        let tail = _mm_and_si128(load(&vectors(block)[31]), _mm_set_epi32(0, -1, -1, -1));
        let mut any = _mm_or_si128(head, tail);
        let behind = 1 + rows / 2;
        if rows % 2 == 1 {
            any = _mm_or_si128(any, _mm_srli_si128::<8>(load(&vectors(block)[behind])));
        }
        for vector in &vectors(block)[behind + rows % 2..31] {
            any = _mm_or_si128(any, load(vector));
        }
        any
    }
}

#[inline(always)]
fn is_none(bits: __m128i) -> bool {
    // SAFETY: SSE2 is part of x86_64.
    unsafe { _mm_movemask_epi8(_mm_cmpeq_epi8(bits, _mm_setzero_si128())) == 0xFFFF }
}

/// Whether the rows of closed nodes are empty.
#[inline(always)]
fn closed_rows_empty(block: &Block, n: usize, used: u64) -> bool {
    let mut closed = !used & ((1 << n) - 1);
    let mut any = 0;
    while closed != 0 {
        any |= word(block, closed.trailing_zeros() as usize);
        closed &= closed - 1;
    }
    any == 0
}

/// Whether a block passes questions 2 to 4, all at once; its rows may have the nodes in use.
#[inline(always)]
fn sound(block: &Block, head: [u8; 3], rows: usize, used: u64) -> bool {
    let (head_s, head_t) = head_sums(head);
    if block[..3] != head {
        return false;
    }
    // The sums of a block without rows: then there must be none, and there is nothing to sum.
    if stored_sums(block) == reduced(head_s, head_t) && is_none(outside(block, 0)) {
        return true;
    }
    let (s, t, bits) = row_sums(block, rows.div_ceil(2 * HALF));
    // SAFETY: SSE2 is part of x86_64.
    let stray = unsafe { _mm_or_si128(_mm_andnot_si128(_mm_set1_epi64x(used as i64), bits), outside(block, rows)) };
    stored_sums(block) == reduced(head_s + s, head_t + t) && is_none(stray)
}

/// The first of questions 2 to 4 that is answered no, in a block that isn't sound.
#[cold]
fn fault(block: &Block, head_right: bool, place: usize) -> Answer {
    let (mut s, mut t) = (0, 0);
    for byte in &block[..508] {
        s += u32::from(*byte);
        t += s;
    }
    let number = match stored_sums(block) == reduced(s, t) {
        false => 2,
        true if !head_right => 3,
        true => 4,
    };
    refused(number, place)
}

/// Questions 2 to 4 of each block, one by one; answers n.
pub fn ask(sheet: &Blocks) -> Result<usize, Answer> {
    let n = usize::from(sheet[0][2]);
    let head = [1, 0, sheet[0][2]];
    let used = in_use(sheet);
    let possible = (1..=MOST_NODES).contains(&n) && used << (64 - n) != 0;
    // The nodes in use are the 49th row: they must be below n, and the labels among them.
    if !possible || used >> n != 0 || !sound(&sheet[0], head, 49, used) {
        return Err(fault(&sheet[0], possible && sheet[0][..3] == head, 0));
    }
    for k in 1..sheet.len() {
        let (block, head) = (&sheet[k], [2, k as u8, 0]);
        if !sound(block, head, n, used) || !closed_rows_empty(block, n, used) {
            return Err(fault(block, block[..3] == head, k));
        }
    }
    Ok(n)
}
