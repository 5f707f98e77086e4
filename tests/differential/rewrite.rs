//! Stored books rewritten by the library, compared with the reference; and the truth of the rewritten ones.

use common::compare::{Lent, Outcome, Tally};
use common::library::{zamiathen_judge, zamiathen_rewrite};
use common::random::Random;
use common::terms::{self, Names};
use common::{graphs, limits, texts};
use reference::graph::Graph;
use reference::meaning::first_broken;
use reference::{reader, rewrite, sheet};

const LONGEST: usize = 4096;

/// What the library writes into an output of this many bytes, after comparing.
fn rewritten(tally: &mut Tally, book: &[u8], room: usize) -> Vec<u8> {
    let blank = vec![0x5A; room];
    let mut wanted_output = blank.clone();
    let wanted = rewrite::rewrite(book, &mut wanted_output);
    let numbers = [wanted.answer.number, wanted.answer.place, wanted.length];
    rewrite_known(tally, "rewrite", book, &blank, &numbers, &wanted_output);
    wanted_output[..wanted.length].to_vec()
}

/// The library's call against these numbers and this output.
fn rewrite_known(tally: &mut Tally, what: &'static str, book: &[u8], before: &[u8], numbers: &[usize], after: &[u8]) {
    let (lent, mut output) = (Lent::of(book), Lent::of(before));
    let found = unsafe { zamiathen_rewrite(lent.ptr(), lent.len(), output.mut_ptr(), output.len()) };
    let found = Outcome::new(&[found.number, found.place, found.length], vec![lent, output]);
    let wanted = Outcome::new(numbers, vec![Lent::of(book), Lent::of(after)]);
    tally.compare(what, &found, &wanted, &[("book", book), ("room", &before.len().to_le_bytes())]);
}

/// Known without the reference: this book is left as it is.
fn left_alone(tally: &mut Tally, book: &[u8]) {
    rewrite_known(tally, "left alone", book, &vec![0x5A; book.len()], &[0, 0, book.len()], book);
}

/// A book with outputs too short by one, just long enough, and longer; the rewritten book is left as it is.
fn rooms(tally: &mut Tally, book: &[u8]) -> Vec<u8> {
    let text = rewritten(tally, book, LONGEST + 9);
    for room in [0, text.len().saturating_sub(1), text.len(), text.len() + 1] {
        rewritten(tally, book, room);
    }
    left_alone(tally, &text);
    text
}

/// Every count of both codes: alone; as an operand of another count, which keeps it or drops it; under a 16; twice in a rule.
fn every_count(tally: &mut Tally) {
    for m in 0..=255 {
        for code in [0x0A, 0x0B] {
            let count = [code, m, 0x11, 0x00, 0x03, 0x01];
            rooms(tally, &[&[0x21], &count[..], &[0x01]].concat());
            rooms(tally, &[&[0x26, 0x23, 0x00], &count[..], &[0x27, 0x21, 0x02], &count[..]].concat());
            for (outer, k) in [(0x0A, 0), (0x0A, 1), (0x0A, 60), (0x0A, 61), (0x0B, 0), (0x0B, 59), (0x0B, 60)] {
                rooms(tally, &[&[0x23, 0x3B, outer, k, 0x11, 0x00], &count[..]].concat());
                rooms(tally, &[&[0x23, 0x3B, outer, k, 0x16, 0x11, 0x00], &count[..], &count[..]].concat());
                rooms(
                    tally,
                    &[&[0x22, 0x16, 0x11, 0x00, outer, k, 0x12, 0x11, 0x0F], &count[..], &[0x17, 0x3B, 0x00]].concat(),
                );
            }
        }
    }
}

/// Counts one inside the other, as deep as levels go: dropped at each level, and kept down to it.
fn nested(tally: &mut Tally) {
    for depth in 1..=31 {
        for dropped in 0..=depth {
            for count in [[0x0A, 0x00], [0x0A, 0xFF], [0x0B, 0x3C]] {
                let mut book = vec![0x23, 0x00];
                for level in 0..depth {
                    book.extend(if level == dropped { count } else { [0x0A, 0x01] });
                    book.extend([0x11, 0x00]);
                }
                book.push(0x01);
                rooms(tally, &book);
            }
        }
    }
}

/// What would be dropped is read like all else: a fault in it is answered, at its own place.
fn faults_in_what_is_dropped(tally: &mut Tally) {
    let faults: [(&[u8], usize, usize); 8] = [
        (&[0x03, 0x30], 15, 6),
        (&[0x04, 0x3C], 15, 6),
        (&[0x08, 0x11, 0x10, 0x01], 15, 7),
        (&[0x11, 0x00], 13, 5),
        (&[0x0C], 13, 5),
        (&[0x03], 12, 6),
        (&[], 12, 5),
        (&[0x05; 31], 14, 5 + 30),
    ];
    for count in [[0x0A, 0x00], [0x0A, 0x3D], [0x0B, 0x3C], [0x0A, 0x3C]] {
        for (operand, number, place) in faults {
            let book = [&[0x21], &count[..], &[0x11, 0x00], operand].concat();
            let before = [0x5A; 64];
            rewrite_known(tally, "fault in what is dropped", &book, &before, &[number, place, 0], &before);
        }
    }
}

/// Each limit and one more than it, with a dropped count before it: the stored book is measured, not the rewritten one.
fn limit_texts(tally: &mut Tally) {
    let dropped = [0x23, 0x00, 0x0A, 0x00, 0x11, 0x00, 0x01];
    for text in [limits::lengths(), limits::levels(), limits::rule_counts()].concat() {
        rooms(tally, &text);
        rooms(tally, &[&dropped, &text[..]].concat());
    }
    for times in [31, 32, 33, 585, 586] {
        rooms(tally, &dropped.repeat(times));
    }
    for length in [LONGEST - 1, LONGEST, LONGEST + 1] {
        rooms(tally, &long_dropped(length));
    }
}

/// A rule of this length that becomes 23 00 01: a tree of 07 in an 0A 0.
fn long_dropped(length: usize) -> Vec<u8> {
    let head = [0x23, 0x00, 0x0A, 0x00, 0x11, 0x00];
    [&head[..], &tree(length - head.len())].concat()
}

/// A node expression of this length, not deep.
fn tree(length: usize) -> Vec<u8> {
    match length {
        1 => vec![0x01],
        2 => vec![0x03, 0x00],
        _ => [vec![0x07], tree((length - 1) / 2), tree(length - 1 - (length - 1) / 2)].concat(),
    }
}

/// Sound books with some counts made others, and any texts; the truth of each rule is as before, by the library's judge.
fn random_books(tally: &mut Tally, rounds: usize) {
    let mut random = Random::new(31);
    let mut changed = 0;
    for _ in 0..rounds {
        let n = graphs::node_count(&mut random);
        let names = Names::some(&mut random, n);
        let most = terms::some_rules(&mut random);
        let mut book = terms::book_code(&terms::book(&mut random, names, most));
        left_alone(tally, &book);
        for _ in 0..random.below(6) {
            book = texts::miscounted(&mut random, book);
        }
        let text = rooms(tally, &book);
        changed += usize::from(!text.is_empty() && text != book);
        let sheets: Vec<_> = (0..3).map(|_| graphs::graph(&mut random, names)).collect();
        sheets.iter().for_each(|graph| same_truth(tally, graph, &book, &text));
        rooms(tally, &texts::any(&mut random, n));
    }
    assert!(10 * changed > rounds, "{changed} of {rounds} books had a count that says nothing");
}

/// Where the stored book's numbers fit the sheet, its first broken rule, by the reference, is that of the rewritten book, by the library.
fn same_truth(tally: &mut Tally, graph: &Graph, book: &[u8], text: &[u8]) {
    let Ok(rules) = reader::former_book(book, graph.n) else { return };
    let wanted = match first_broken(graph, rules.iter().map(|placed| &placed.rule)) {
        None => [0, 0],
        Some(place) => [41, place],
    };
    let (lent, lent_text) = (Lent::of(&sheet::store(graph)), Lent::of(text));
    let found = unsafe { zamiathen_judge(lent.ptr(), lent.len(), lent_text.ptr(), lent_text.len()) };
    let found = Outcome::new(&[found.number, found.place], vec![]);
    tally.compare("judge", &found, &Outcome::new(&wanted, vec![]), &[("book", book), ("rewritten", text)]);
}

fn main() {
    let mut tally = Tally::new();
    every_count(&mut tally);
    nested(&mut tally);
    faults_in_what_is_dropped(&mut tally);
    limit_texts(&mut tally);
    random_books(&mut tally, 30_000);
    tally.both_frequent("judge", 0, 41);
    tally.finish(&[0, 11, 12, 13, 14, 15, 16, 33, 41]);
}
