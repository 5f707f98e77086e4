//! Station sheets in Rust: every call of `include/zamiathen.h`, over slices.
//!
//! A call that is done returns its result, and any other answer is a [`Refused`]. The header says of each call what it
//! writes and which questions it asks, in which order. No call keeps state, allocates or locks. A call needs at most
//! [`STACK_BYTES`] of stack, which every usual thread has.
//!
//! ```
//! use zamiathen::{blank, enter, witness, Number, Witness, CARRIED_BYTES, SHEET_BYTES};
//!
//! let mut sheet = [0; SHEET_BYTES];
//! let mut scratch = [0; CARRIED_BYTES];
//! let book = [0x21, 0x03, 0x00, 0x03, 0x01]; // each node with label 0 has label 1
//! let edit = [0x31, 0x00, 0x04, 0x02, 0x30]; // label 0 onto node 2
//!
//! blank(&mut sheet, 3).unwrap();
//! let refused = enter(&mut sheet, &book, &edit, &mut scratch).unwrap_err();
//! assert_eq!((refused.number, refused.place), (Number::RuleBroken, 0));
//! assert_eq!(witness(&sheet, &scratch), Ok(Witness::Node { first: 2, nodes: 1 << 2 }));
//! ```
#![deny(unsafe_code, missing_docs)]

mod number;
#[allow(unsafe_code)]
mod raw;

pub use number::Number;
use std::error::Error;
use std::fmt;
use std::ops::Range;

/// The version of the header that this crate was written for: the first number.
pub const VERSION_FIRST: usize = 6;
/// The second number.
pub const VERSION_SECOND: usize = 2;
/// Both numbers as one, to compare with [`version`].
pub const VERSION: usize = 1000 * VERSION_FIRST + VERSION_SECOND;

/// The length of every sheet.
pub const SHEET_BYTES: usize = 8704;
/// The length of every store.
pub const STORE_BYTES: usize = 61440;
/// The longest book or edit; enough for a rewritten book or a joined edit.
pub const TEXT_BYTES: usize = 4096;
/// The longest carried book or carried rule; enough for every scratch of [`enter`].
pub const CARRIED_BYTES: usize = 16384;
/// Enough for the blocks of every edit.
pub const LOG_BYTES: usize = 4608;
/// The longest book in words.
pub const BOOK_WORDS_BYTES: usize = 166653;
/// The longest edit in words.
pub const EDIT_WORDS_BYTES: usize = 217095;
/// The longest carried rule in words.
pub const RULE_WORDS_BYTES: usize = 662372;
/// A line of a page, with its line feed.
pub const LINE_BYTES: usize = 64;
/// The longest page.
pub const PAGE_BYTES: usize = 3904;
/// The most stack that a call needs.
pub const STACK_BYTES: usize = 262144;
/// The whole stack of a thread for such calls.
pub const THREAD_BYTES: usize = 393216;

/// The most nodes of a sheet.
pub const MAX_NODES: usize = 60;
/// The labels of every sheet.
pub const LABELS: usize = 48;
/// The kinds of arrows of every sheet.
pub const ARROWS: usize = 16;
/// The most rules of a book.
pub const MAX_RULES: usize = 32;
/// The most nodes of a small sheet, as [`count`] counts them.
pub const MAX_SMALL: usize = 3;
/// The most edits on each side of a game.
pub const MAX_EDITS: usize = 4;
/// The most moves of a game.
pub const MAX_MOVES: usize = 6;

/// A refusal: the answer of a call that is not done.
#[derive(Clone, PartialEq, Eq, Debug)]
pub struct Refused {
    /// The number.
    pub number: Number,
    /// The place.
    pub place: usize,
    /// After a 41 of [`judge`], where the broken rule stands in the book; otherwise `0..0`.
    pub rule: Range<usize>,
    /// After a refusal of [`play`], which edit is meant; otherwise 0.
    pub edit: usize,
}

impl fmt::Display for Refused {
    fn fmt(&self, f: &mut fmt::Formatter<'_>) -> fmt::Result {
        write!(f, "{:02} {:05}: {}", self.number as usize, self.place, self.number.text())
    }
}

impl Error for Refused {}

/// What a call returns, or the first question that fails.
pub type Asked<T> = Result<T, Refused>;

/// A set of nodes, bit i for node i, and a count.
#[derive(Clone, Copy, PartialEq, Eq, Debug)]
pub struct NodeSet {
    /// In the answer of [`nodes`] it is n, otherwise the size of the set.
    pub count: usize,
    /// The set.
    pub set: u64,
}

/// Who breaks a rule.
#[derive(Clone, Copy, PartialEq, Eq, Debug)]
pub enum Witness {
    /// The rule holds.
    Holds,
    /// The lowest node that breaks it, and the set of all such nodes.
    Node {
        /// The lowest node.
        first: usize,
        /// All such nodes, bit i for node i.
        nodes: u64,
    },
    /// The lowest pair that breaks it, by first, then by second.
    Pair {
        /// Where the arrow would start.
        first: usize,
        /// Where it would end.
        second: usize,
    },
    /// The rule is broken, and no node or pair is named.
    Unnamed,
}

/// How many small sheets keep a book before and after an edit.
#[derive(Clone, Copy, PartialEq, Eq, Debug)]
pub struct Counts {
    /// Kept before and after the edit.
    pub kept_kept: usize,
    /// Kept before, broken after.
    pub kept_broken: usize,
    /// Broken before, kept after.
    pub broken_kept: usize,
    /// Broken before and after.
    pub broken_broken: usize,
}

/// The outcome of [`play`].
#[derive(Clone, Copy, PartialEq, Eq, Debug)]
pub enum Outcome {
    /// No win can be forced.
    Cannot,
    /// A win can be forced, starting with this edit, counted from 0: the lowest-numbered that forces it.
    Edit(usize),
    /// A win can be forced; the dispatcher can make no edit now, and passes first.
    Pass,
}

/// The value, if the number is done.
fn asked<T>(number: usize, place: usize, value: T) -> Asked<T> {
    match Number::of(number) {
        Number::Done => Ok(value),
        number => Err(Refused { number, place, rule: 0..0, edit: 0 }),
    }
}

fn done(answer: raw::Answer) -> Asked<()> {
    asked(answer.number, answer.place, ())
}

fn bit(answer: raw::Bit) -> Asked<bool> {
    asked(answer.number, answer.place, answer.bit == 1)
}

fn node_set(answer: raw::NodeSet) -> Asked<NodeSet> {
    asked(answer.number, answer.place, NodeSet { count: answer.count, set: answer.set })
}

fn length(answer: raw::Length) -> Asked<usize> {
    asked(answer.number, answer.place, answer.length)
}

/// The version of the library, 1000 * first + second.
pub fn version() -> usize {
    raw::version()
}

/// Whether this crate can be used with the library: the same first number, and the second not earlier.
pub fn version_fits() -> bool {
    version() / 1000 == VERSION_FIRST && version() >= VERSION
}

/// Makes the buffer a sheet of n nodes, all in use, without labels and arrows.
pub fn blank(sheet: &mut [u8], n: usize) -> Asked<()> {
    done(raw::blank(sheet, n))
}

/// Checks whether the sheet is sound.
pub fn check(sheet: &[u8]) -> Asked<()> {
    done(raw::check(sheet))
}

/// Converts a card of version 1 into a sheet, in the same buffer.
pub fn convert_255(card: &mut [u8]) -> Asked<()> {
    done(raw::convert_255(card))
}

/// Converts a card of version 2 or 3 into a sheet, in the same buffer.
pub fn convert_257(card: &mut [u8]) -> Asked<()> {
    done(raw::convert_257(card))
}

/// Joins two sheets into one, in the first one's buffer: the second sheet's nodes follow the first's.
pub fn join_sheets(first: &mut [u8], second: &[u8]) -> Asked<()> {
    done(raw::join_sheets(first, second))
}

/// Does the node have the label?
pub fn label_bit(sheet: &[u8], label: usize, node: usize) -> Asked<bool> {
    bit(raw::label_bit(sheet, label, node))
}

/// Does an arrow of this kind go from one node to the other?
pub fn arrow_bit(sheet: &[u8], arrow: usize, from: usize, to: usize) -> Asked<bool> {
    bit(raw::arrow_bit(sheet, arrow, from, to))
}

/// The nodes in use, with n as the count.
pub fn nodes(sheet: &[u8]) -> Asked<NodeSet> {
    node_set(raw::nodes(sheet))
}

/// The nodes that have a label.
pub fn label_set(sheet: &[u8], label: usize) -> Asked<NodeSet> {
    node_set(raw::label_set(sheet, label))
}

/// The nodes to which arrows of a kind go from a node.
pub fn row_set(sheet: &[u8], arrow: usize, from: usize) -> Asked<NodeSet> {
    node_set(raw::row_set(sheet, arrow, from))
}

/// Prints the page of an arrow kind into the output, and returns its length.
pub fn print_arrow(sheet: &[u8], arrow: usize, output: &mut [u8]) -> Asked<usize> {
    length(raw::print_arrow(sheet, arrow, output))
}

/// Prints the label page into the output, and returns its length.
pub fn print_labels(sheet: &[u8], output: &mut [u8]) -> Asked<usize> {
    length(raw::print_labels(sheet, output))
}

/// Types a page back into the sheet, in place of the block that the page's head names.
pub fn type_page(sheet: &mut [u8], page: &[u8]) -> Asked<()> {
    done(raw::type_page(sheet, page))
}

/// The length of the first rule of a text.
pub fn first_rule(text: &[u8]) -> Asked<usize> {
    length(raw::first_rule(text))
}

/// Where a rule of the book starts on a sheet of n nodes; the book's length if there is no such rule.
pub fn rule_start(book: &[u8], n: usize, rule: usize) -> usize {
    raw::rule_start(book, n, rule)
}

/// Checks whether each rule of the book holds on the sheet.
pub fn judge(sheet: &[u8], book: &[u8]) -> Asked<()> {
    let judged = raw::judge(sheet, book);
    asked(judged.number, judged.place, ())
        .map_err(|refused| Refused { rule: judged.start..judged.start + judged.length, ..refused })
}

/// Finds who breaks the first rule of a text on the sheet. After a 41 of [`enter`] pass its scratch as the text.
pub fn witness(sheet: &[u8], rule: &[u8]) -> Asked<Witness> {
    let answer = raw::witness(sheet, rule);
    let witness = match answer.kind {
        0 => Witness::Holds,
        1 => Witness::Node { first: answer.first, nodes: answer.nodes },
        2 => Witness::Pair { first: answer.first, second: answer.second },
        _ => Witness::Unnamed,
    };
    asked(answer.number, answer.place, witness)
}

/// Rewrites a stored book, which may have any counts, as one whose counts are in range, and returns its length.
pub fn rewrite(book: &[u8], output: &mut [u8]) -> Asked<usize> {
    length(raw::rewrite(book, output))
}

/// Checks whether the steps, made on the carried rule, give the text sent.
pub fn check_steps(rule: &[u8], steps: &[u8], sent: &[u8]) -> Asked<()> {
    done(raw::check_steps(rule, steps, sent))
}

/// Joins two edits into one that makes the steps of p and then those of q, and returns its length.
pub fn join_edits(p: &[u8], q: &[u8], output: &mut [u8]) -> Asked<usize> {
    length(raw::join_edits(p, q, output))
}

/// Makes the edit's steps on the sheet, without a book.
pub fn apply(sheet: &mut [u8], edit: &[u8]) -> Asked<()> {
    done(raw::apply(sheet, edit))
}

/// Carries the book back through the edit into the output, and returns its length. It may be too long or too deep for
/// [`judge`].
pub fn carry_back(book: &[u8], edit: &[u8], output: &mut [u8]) -> Asked<usize> {
    length(raw::carry_back(book, edit, output))
}

/// Enters the edit if each rule of the book holds on the sheet after it; otherwise the sheet stays as it was. After a
/// 41, [`witness`] with sheet and scratch says who would break the rule.
pub fn enter(sheet: &mut [u8], book: &[u8], edit: &[u8], scratch: &mut [u8]) -> Asked<()> {
    done(raw::enter(sheet, book, edit, scratch))
}

/// Cuts an edit into the blocks of a log, and returns their length.
pub fn log_edit(edit: &[u8], output: &mut [u8]) -> Asked<usize> {
    length(raw::log_edit(edit, output))
}

/// Checks whether a text is a table of names.
pub fn check_names(names: &[u8]) -> Asked<()> {
    done(raw::check_names(names))
}

/// Prints a book in words into the output, and returns their length.
pub fn book_to_words(names: &[u8], book: &[u8], output: &mut [u8]) -> Asked<usize> {
    length(raw::book_to_words(names, book, output))
}

/// Prints an edit in words into the output, and returns their length.
pub fn edit_to_words(names: &[u8], edit: &[u8], output: &mut [u8]) -> Asked<usize> {
    length(raw::edit_to_words(names, edit, output))
}

/// Prints the first rule of a text, which may be a carried rule, in words into the output, and returns their length.
pub fn rule_to_words(names: &[u8], rule: &[u8], output: &mut [u8]) -> Asked<usize> {
    length(raw::rule_to_words(names, rule, output))
}

/// Reads the words of a book into codes, and returns their length.
pub fn book_from_words(names: &[u8], words: &[u8], output: &mut [u8]) -> Asked<usize> {
    length(raw::book_from_words(names, words, output))
}

/// Reads the words of an edit into codes, and returns their length.
pub fn edit_from_words(names: &[u8], words: &[u8], output: &mut [u8]) -> Asked<usize> {
    length(raw::edit_from_words(names, words, output))
}

/// Where the first word of a rule stands in the words of a book; their length if there is no such rule.
pub fn rule_in_words(names: &[u8], words: &[u8], rule: usize) -> usize {
    raw::rule_in_words(names, words, rule)
}

/// Closes a node without labels and arrows, if the sheet then keeps the book.
pub fn close(sheet: &mut [u8], book: &[u8], node: usize) -> Asked<()> {
    done(raw::close(sheet, book, node))
}

/// Opens a closed node, if the sheet then keeps the book.
pub fn open(sheet: &mut [u8], book: &[u8], node: usize) -> Asked<()> {
    done(raw::open(sheet, book, node))
}

/// Makes the buffer a store in which no name is filled.
pub fn store_blank(store: &mut [u8]) -> Asked<()> {
    done(raw::store_blank(store))
}

/// Keeps a copy of the sheet under a name, 1 to 7.
pub fn keep(sheet: &[u8], store: &mut [u8], name: usize) -> Asked<()> {
    done(raw::keep(sheet, store, name))
}

/// Makes the sheet the one kept under a name, if that one keeps the book. The sheet passed must be sound: for a new
/// buffer call [`blank`] first. (`return` is a keyword of the language.)
pub fn return_to(sheet: &mut [u8], store: &[u8], name: usize, book: &[u8]) -> Asked<()> {
    done(raw::return_to(sheet, store, name, book))
}

/// Drops what is kept under a name.
pub fn drop(store: &mut [u8], name: usize) -> Asked<()> {
    done(raw::drop(store, name))
}

/// What the edit does to every sheet of n nodes, 1 to 3, that has no label except 0 and no arrow except 0.
pub fn count(n: usize, book: &[u8], edit: &[u8]) -> Asked<Counts> {
    let raw::Counts { number, place, kept_kept, kept_broken, broken_kept, broken_broken } = raw::count(n, book, edit);
    asked(number, place, Counts { kept_kept, kept_broken, broken_kept, broken_broken })
}

/// Can the dispatcher force the goal against the disruption, and with which edit first? The texts of the edits stand
/// one after the other, the dispatcher's first, and `lengths` holds the length of each.
pub fn play(
    sheet: &[u8],
    book: &[u8],
    goal: &[u8],
    edits: &[u8],
    lengths: &[usize],
    dispatchers: usize,
    moves: usize,
) -> Asked<Outcome> {
    let played = raw::play(sheet, book, goal, edits, lengths, dispatchers, moves);
    let outcome = match played.outcome {
        1 => Outcome::Edit(played.edit),
        2 => Outcome::Pass,
        _ => Outcome::Cannot,
    };
    asked(played.number, played.place, outcome).map_err(|refused| Refused { edit: played.edit, ..refused })
}
