//! Words: the station's book read and printed, and the slowest texts of at most 64 KiB that were found, each by the library
//! and by the reference of the tests, which is not written for speed.

use crate::calls::{load, station, Buffers, Outcome, Row, Sides};
use crate::library::{
    zamiathen_book_from_words, zamiathen_book_to_words, zamiathen_check_names, zamiathen_edit_from_words,
    zamiathen_rule_in_words, CLength,
};
use reference::calls::Lengthy;
use reference::words;

const MOST: usize = 65536;

const NAMES: Sides = [library_names, plain_names];
const BOOK_FROM: Sides = [library_book_from, plain_book_from];
const BOOK_TO: Sides = [library_book_to, plain_book_to];
const EDIT_FROM: Sides = [library_edit_from, plain_edit_from];
const RULE_IN: Sides = [library_rule_in, plain_rule_in];

/// Names of two bytes, of 64 bytes that differ in the last two only, and none.
pub fn rows() -> Vec<Row> {
    let table = load("examples/station/station.names");
    let book = load("examples/station/book.words");
    let short = full_table("");
    let long = full_table(&"n".repeat(62));
    let row =
        |name: &str, names: &[u8], text: Vec<u8>, sides| Row::new(name, Buffers::of_words(names.to_vec(), text), sides);
    vec![
        row("names of the station", &table, vec![], NAMES),
        row("names, 124 of 64 bytes", &long, vec![], NAMES),
        row("book from words", &table, book.clone(), BOOK_FROM),
        row("book to words", &table, station("book"), BOOK_TO),
        row("last rule in words", &table, book, RULE_IN),
        row("64 KiB, names of 2 bytes", &short, wide_edit(&name("", 47), &name("", 123)), EDIT_FROM),
        row("64 KiB, names of 64 bytes", &long, long_edit(), EDIT_FROM),
        row("64 KiB, pairs of 2 bytes", &short, pairs(&name("", 63), &name("", 123)), EDIT_FROM),
        row("64 KiB, no names", &[], wide_edit("label:47", "node:59"), EDIT_FROM),
        row("64 KiB of blanks", &short, vec![b' '; MOST], EDIT_FROM),
    ]
}

/// The name of what stands at a place of a full table.
fn name(before: &str, at: usize) -> String {
    format!("{before}{}{}", char::from(b'A' + at as u8 / 16), char::from(b'a' + at as u8 % 16))
}

/// 124 names: labels 0 to 47, arrows 0 to 15, nodes 0 to 59.
fn full_table(before: &str) -> Vec<u8> {
    let sorts = [("label", 48), ("arrow", 16), ("node", 60)];
    let numbers = sorts.iter().flat_map(|(sort, count)| (0..*count).map(move |number| (sort, number)));
    let lines = numbers.enumerate().map(|(at, (sort, number))| format!("{sort} {number} {}\n", name(before, at)));
    lines.collect::<String>().into_bytes()
}

fn long_edit() -> Vec<u8> {
    let before = "n".repeat(62);
    wide_edit(&name(&before, 47), &name(&before, 123))
}

/// One step whose operand is a tree of `or` with this name at every leaf, as long as may be.
fn wide_edit(label: &str, leaf: &str) -> Vec<u8> {
    let frame = "mark(,)".len() + label.len();
    let leaves = (MOST - frame + "or(,)".len()) / (leaf.len() + "or(,)".len());
    format!("mark({label},{})", tree(leaf, leaves)).into_bytes()
}

fn tree(leaf: &str, leaves: usize) -> String {
    match leaves {
        1 => leaf.to_string(),
        _ => format!("or({},{})", tree(leaf, leaves / 2), tree(leaf, leaves - leaves / 2)),
    }
}

/// Steps with three names each, as many as there may be.
fn pairs(arrow: &str, node: &str) -> Vec<u8> {
    let step = format!("add({arrow},pair({node},{node}))");
    step.repeat(MOST / step.len()).into_bytes()
}

fn of_length(found: CLength) -> Outcome {
    [found.number, found.place, found.length, 0]
}

fn of_reference(found: Lengthy) -> Outcome {
    [found.answer.number, found.answer.place, found.length, 0]
}

type Library = unsafe extern "C" fn(*const u8, usize, *const u8, usize, *mut u8, usize) -> CLength;

#[inline(always)]
fn by_library(b: &mut Buffers, call: Library) -> Outcome {
    let (out, room) = (b.scratch.as_mut_ptr(), b.scratch.len());
    of_length(unsafe { call(b.names.as_ptr(), b.names.len(), b.text.as_ptr(), b.text.len(), out, room) })
}

fn library_names(b: &mut Buffers) -> Outcome {
    let found = unsafe { zamiathen_check_names(b.names.as_ptr(), b.names.len()) };
    [found.number, found.place, 0, 0]
}

fn plain_names(b: &mut Buffers) -> Outcome {
    let found = words::check_names(&b.names);
    [found.number, found.place, 0, 0]
}

fn library_book_from(b: &mut Buffers) -> Outcome {
    by_library(b, zamiathen_book_from_words)
}

fn plain_book_from(b: &mut Buffers) -> Outcome {
    of_reference(words::book_from_words(&b.names, &b.text, &mut b.scratch))
}

fn library_book_to(b: &mut Buffers) -> Outcome {
    by_library(b, zamiathen_book_to_words)
}

fn plain_book_to(b: &mut Buffers) -> Outcome {
    of_reference(words::book_to_words(&b.names, &b.text, &mut b.scratch))
}

fn library_edit_from(b: &mut Buffers) -> Outcome {
    by_library(b, zamiathen_edit_from_words)
}

fn plain_edit_from(b: &mut Buffers) -> Outcome {
    of_reference(words::edit_from_words(&b.names, &b.text, &mut b.scratch))
}

const LAST_RULE: usize = 9;

fn library_rule_in(b: &mut Buffers) -> Outcome {
    let (names, text) = (&b.names, &b.text);
    let place = unsafe { zamiathen_rule_in_words(names.as_ptr(), names.len(), text.as_ptr(), text.len(), LAST_RULE) };
    [0, place, 0, 0]
}

fn plain_rule_in(b: &mut Buffers) -> Outcome {
    [0, words::rule_in_words(&b.names, &b.text, LAST_RULE), 0, 0]
}
