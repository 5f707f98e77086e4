//! Document 02, item 7: plans to come back to. A store is a head block and seven sheets, names 1 to 7.

use crate::answer::{answer_of, refuse, Answer, Asked, DONE};
use crate::calls::judge;
use crate::sheet::{self, BLOCK, PRESENT, SHEET};
use std::ops::Range;

pub const STORE: usize = 61_440;
pub const NAMES: usize = 7;

/// Blank: no name filled; 55 for a wrong length only.
pub fn store_blank(store: &mut [u8]) -> Answer {
    if store.len() != STORE {
        return Answer { number: 55, place: 0 };
    }
    store.fill(0);
    store[0] = 4;
    sheet::seal(&mut store[..BLOCK]);
    DONE
}

/// Keep: the sheet stands under this name, in place of one kept before.
pub fn keep(bytes: &[u8], store: &mut [u8], name: usize) -> Answer {
    let asked = ask_keep(bytes, store, name);
    if asked.is_ok() {
        store[place(name)].copy_from_slice(bytes);
        mark(store, name, true);
    }
    answer_of(&asked)
}

fn ask_keep(bytes: &[u8], store: &[u8], name: usize) -> Asked<()> {
    sheet::ask(bytes)?;
    ask_store(store)?;
    ask_name(name)
}

/// Return: the sheet becomes the one kept under this name, if it keeps the present book.
pub fn give_back(bytes: &mut [u8], store: &[u8], name: usize, book: &[u8]) -> Answer {
    let asked = ask_return(bytes, store, name, book);
    if let Ok(kept) = &asked {
        bytes.copy_from_slice(kept);
    }
    answer_of(&asked)
}

fn ask_return(bytes: &[u8], store: &[u8], name: usize, book: &[u8]) -> Asked<Vec<u8>> {
    sheet::ask(bytes)?;
    ask_store(store)?;
    ask_filled(store, name)?;
    let kept = store[place(name)].to_vec();
    match judge(&kept, book).answer {
        DONE => Ok(kept),
        refusal => Err(refusal),
    }
}

/// Drop: the name is unfilled.
pub fn drop(store: &mut [u8], name: usize) -> Answer {
    let asked = ask_store(store).and_then(|()| ask_filled(store, name));
    if asked.is_ok() {
        store[place(name)].fill(0);
        mark(store, name, false);
    }
    answer_of(&asked)
}

/// Where the sheet of a name stands.
fn place(name: usize) -> Range<usize> {
    let start = BLOCK + (name - 1) * SHEET;
    start..start + SHEET
}

fn is_filled(store: &[u8], name: usize) -> bool {
    store[1] >> (name - 1) & 1 == 1
}

fn mark(store: &mut [u8], name: usize, filled: bool) {
    store[1] = store[1] & !(1 << (name - 1)) | u8::from(filled) << (name - 1);
    sheet::seal(&mut store[..BLOCK]);
}

/// 55: length, head, each filled sheet, each unfilled place.
fn ask_store(store: &[u8]) -> Asked<()> {
    if store.len() == STORE && head_right(&store[..BLOCK]) && (1..=NAMES).all(|name| place_right(store, name)) {
        return Ok(());
    }
    refuse(55, 0)
}

fn head_right(head: &[u8]) -> bool {
    let zeros = head[2..PRESENT.summed].iter().all(|byte| *byte == 0);
    head[0] == 4 && head[1] >> NAMES == 0 && zeros && head[PRESENT.summed..] == PRESENT.check_bytes(head)
}

fn place_right(store: &[u8], name: usize) -> bool {
    let bytes = &store[place(name)];
    if is_filled(store, name) {
        sheet::ask(bytes).is_ok()
    } else {
        bytes.iter().all(|byte| *byte == 0)
    }
}

/// 56
fn ask_name(name: usize) -> Asked<()> {
    if (1..=NAMES).contains(&name) {
        return Ok(());
    }
    refuse(56, 0)
}

/// 56, then 57.
fn ask_filled(store: &[u8], name: usize) -> Asked<()> {
    ask_name(name)?;
    if is_filled(store, name) {
        return Ok(());
    }
    refuse(57, 0)
}
