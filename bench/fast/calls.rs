//! The calls.

use crate::eval::{first_broken, first_broken_singly, longest_rule};
use crate::fixed::FixedVec;
use crate::index::{BookIndex, EditIndex};
use crate::measure::{measure, CARRIED_BYTES};
use crate::sheet::{ask, blocks, blocks_mut, MOST_NODES};
use crate::steps::make_steps;
use crate::write::write;
use crate::{refused, Answer, DONE};

/// The questions of the sheet.
pub fn check(sheet: &[u8]) -> Answer {
    answer(blocks(sheet).and_then(ask).map(|_| ()))
}

/// The answer, and the start and length of the broken rule.
pub fn judge(sheet: &[u8], book: &[u8]) -> (Answer, usize, usize) {
    match judged(sheet, book) {
        Err(refusal) => (refusal, 0, 0),
        Ok(None) => (DONE, 0, 0),
        Ok(Some((rule, start, end))) => (refused(41, rule), start, end - start),
    }
}

fn judged(sheet: &[u8], book: &[u8]) -> Result<Option<(usize, usize, usize)>, Answer> {
    let sheet = blocks(sheet)?;
    let n = ask(sheet)?;
    BookIndex::new().read::<false>(book, n)?;
    Ok(first_broken(sheet, book))
}

/// The answer and the length. Only done writes, and only that many bytes.
pub fn carry_back(book: &[u8], edit: &[u8], out: &mut [u8]) -> (Answer, usize) {
    match carried(book, edit, MOST_NODES, &mut EditIndex::new(), out) {
        Ok(length) => (DONE, length),
        Err(refusal) => (refusal, 0),
    }
}

fn carried(book: &[u8], edit: &[u8], n: usize, edit_index: &mut EditIndex, out: &mut [u8]) -> Result<usize, Answer> {
    let mut book_index = BookIndex::new();
    book_index.read::<true>(book, n)?;
    edit_index.read::<true>(edit, n)?;
    let length = measure(book, &book_index, edit_index, out.len())?;
    write(book, &book_index, edit, edit_index, &mut out[..length]);
    Ok(length)
}

fn answer(asked: Result<(), Answer>) -> Answer {
    asked.err().unwrap_or(DONE)
}

/// Carries out an edit without a book.
pub fn apply(sheet: &mut [u8], edit: &[u8]) -> Answer {
    answer(applied(sheet, edit))
}

fn applied(sheet: &mut [u8], edit: &[u8]) -> Result<(), Answer> {
    let sheet = blocks_mut(sheet)?;
    let n = ask(sheet)?;
    let mut index = EditIndex::new();
    index.read::<false>(edit, n)?;
    make_steps(sheet, edit, &index);
    Ok(())
}

/// Enters an edit. Only done changes the sheet; done and 41 leave in the scratch what the carried rules leave, each written
/// at its start over the one before, up to the first broken one. The carried book is written whole elsewhere.
pub fn enter(sheet: &mut [u8], book: &[u8], edit: &[u8], scratch: &mut [u8]) -> Answer {
    answer(entered(sheet, book, edit, scratch))
}

fn entered(sheet: &mut [u8], book: &[u8], edit: &[u8], scratch: &mut [u8]) -> Result<(), Answer> {
    let sheet = blocks_mut(sheet)?;
    let n = ask(sheet)?;
    let mut index = EditIndex::new();
    let mut book_index = BookIndex::new();
    book_index.read::<true>(book, n)?;
    index.read::<true>(edit, n)?;
    let length = measure(book, &book_index, &mut index, usize::MAX)?;
    let mut whole = FixedVec::<u8, { CARRIED_BYTES as usize }>::new();
    whole.fill(0, length);
    write(book, &book_index, edit, &mut index, &mut whole);
    if length > scratch.len() {
        let longest = longest_rule(&whole);
        if longest > scratch.len() {
            return Err(refused(33, longest));
        }
    }
    if let Some(rule) = first_broken_singly(sheet, &whole, scratch) {
        return Err(refused(41, rule));
    }
    make_steps(sheet, edit, &index);
    Ok(())
}
