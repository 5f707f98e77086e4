//! Questions of books and edits, rule ends and rule starts of the library, compared with the reference.

use common::compare::{Lent, Outcome, Tally};
use common::library::{zamiathen_apply, zamiathen_first_rule, zamiathen_judge, zamiathen_rule_start};
use common::random::Random;
use common::{limits, texts};
use reference::answer::answer_of;
use reference::graph::{Graph, MOST_NODES};
use reference::{calls, reader, sheet};
use std::sync::OnceLock;

/// The blank sheet of n, on which a text is checked as a book and as an edit. Where n is odd, every third node is closed.
struct Blank {
    graph: Graph,
    bytes: Vec<u8>,
}

impl Blank {
    fn of(n: usize) -> Blank {
        let mut graph = Graph::blank(n);
        graph.in_use.iter_mut().skip(1).step_by(3).for_each(|used| *used = n % 2 == 0);
        Blank { bytes: sheet::store(&graph), graph }
    }

    /// The questions of a book, and whether its rules hold on the blank sheet.
    fn book(&self, tally: &mut Tally, text: &[u8]) {
        let (lent, lent_text) = (Lent::of(&self.bytes), Lent::of(text));
        let found = unsafe { zamiathen_judge(lent.ptr(), lent.len(), lent_text.ptr(), lent_text.len()) };
        let found = Outcome::new(&[found.number, found.place, found.start, found.length], vec![lent, lent_text]);
        let judged = calls::judge_on(&self.graph, text);
        let numbers = [judged.answer.number, judged.answer.place, judged.start, judged.length];
        let wanted = Outcome::new(&numbers, vec![Lent::of(&self.bytes), Lent::of(text)]);
        tally.compare("book", &found, &wanted, &[("book", text), ("n", &self.bytes[2..3])]);
    }

    /// The questions of an edit, and what its steps leave of the blank sheet.
    fn edit(&self, tally: &mut Tally, text: &[u8]) {
        let (mut lent, lent_text) = (Lent::of(&self.bytes), Lent::of(text));
        let found = unsafe { zamiathen_apply(lent.mut_ptr(), lent.len(), lent_text.ptr(), lent_text.len()) };
        let found = Outcome::new(&[found.number, found.place], vec![lent, lent_text]);
        let asked = calls::apply_on(&self.graph, text);
        let answer = answer_of(&asked);
        let after = asked.map_or_else(|_| Lent::of(&self.bytes), |graph| Lent::of(&sheet::store(&graph)));
        let wanted = Outcome::of_answer(answer, vec![after, Lent::of(text)]);
        tally.compare("edit", &found, &wanted, &[("edit", text), ("n", &self.bytes[2..3])]);
    }
}

/// The blank sheet of n, from 1 to 60, made once.
fn blank(n: usize) -> &'static Blank {
    static BLANKS: OnceLock<Vec<Blank>> = OnceLock::new();
    &BLANKS.get_or_init(|| (1..=MOST_NODES).map(Blank::of).collect())[n - 1]
}

fn first_rule(tally: &mut Tally, text: &[u8]) {
    let lent = Lent::of(text);
    let found = unsafe { zamiathen_first_rule(lent.ptr(), lent.len()) };
    let found = Outcome::new(&[found.number, found.place, found.length], vec![lent]);
    let asked = reader::first_rule(text);
    let answer = answer_of(&asked);
    let wanted = Outcome::new(&[answer.number, answer.place, asked.unwrap_or(0)], vec![Lent::of(text)]);
    tally.compare("first rule", &found, &wanted, &[("text", text)]);
}

/// Where rules 0 to 34 start, and one that no text has. With any n.
fn rule_starts(tally: &mut Tally, text: &[u8], n: usize) {
    let asked: Vec<usize> = (0..=34).chain([usize::MAX]).collect();
    let lent = Lent::of(text);
    let start = |rule: &usize| unsafe { zamiathen_rule_start(lent.ptr(), lent.len(), n, *rule) };
    let found: Vec<usize> = asked.iter().map(start).collect();
    let found = Outcome::new(&found, vec![lent]);
    let starts = reader::rule_starts(text, n);
    let wanted: Vec<usize> = asked.iter().map(|i| starts.get(*i).copied().unwrap_or(text.len())).collect();
    let wanted = Outcome::new(&wanted, vec![Lent::of(text)]);
    tally.compare_numbers("rule starts", &found, &wanted, &[("book", text), ("n", &n.to_le_bytes())]);
}

fn all(tally: &mut Tally, text: &[u8], n: usize) {
    blank(n).book(tally, text);
    blank(n).edit(tally, text);
    first_rule(tally, text);
    rule_starts(tally, text, n);
}

/// Every text of at most two bytes, and of three with a code first.
fn short_texts(tally: &mut Tally) {
    all(tally, &[], 60);
    for first in 0..=255 {
        all(tally, &[first], 60);
        for second in 0..=255 {
            all(tally, &[first, second], 60);
        }
    }
    for first in 0x21..=0x35 {
        for second in 0..=0x40 {
            (0..=255).for_each(|third| all(tally, &[first, second, third], 47));
        }
    }
}

/// Each limit and one more than it; each of these texts also cut by one byte and with one byte more.
fn limit_texts(tally: &mut Tally) {
    let at_limits = [limits::lengths(), limits::levels(), limits::rule_counts()].concat();
    for text in &at_limits {
        for n in [1, 2, 60] {
            all(tally, text, n);
            all(tally, &text[..text.len() - 1], n);
            for extra in [0x00, 0x01, 0x21, 0x30] {
                all(tally, &[&text[..], &[extra]].concat(), n);
            }
        }
    }
    for n in 1..=60 {
        for number in [0, 1, n - 1, n, n + 1, 15, 16, 47, 48, 59, 60, 61, 255] {
            limits::numbers(number as u8).iter().for_each(|text| all(tally, text, n));
        }
    }
    // A rule's start may be read with any n, also one that no sheet has.
    for n in [0, 61, 255, 256, 257, 1 << 32, usize::MAX] {
        for number in [0, 1, 59, 60, 61, 254, 255] {
            limits::numbers(number).iter().for_each(|text| rule_starts(tally, text, n));
        }
    }
}

/// Each byte of a sound text changed to each code's first and last and some other values.
fn changed_bytes(tally: &mut Tally) {
    let mut random = Random::new(11);
    for _ in 0..300 {
        let n = 1 + random.below(60);
        let sound = texts::sound(&mut random, n);
        for at in 0..sound.len().min(60) {
            let mut text = sound.clone();
            for value in [0x00, 0x01, 0x0B, 0x0C, 0x11, 0x17, 0x18, 0x21, 0x27, 0x30, 0x35, 0x36, n as u8] {
                text[at] = value;
                all(tally, &text, n);
            }
            all(tally, &sound[..at], n);
        }
    }
}

fn random_texts(tally: &mut Tally, rounds: usize) {
    let mut random = Random::new(12);
    for _ in 0..rounds {
        let n = 1 + random.below(60);
        let text = texts::any(&mut random, n);
        all(tally, &text, n);
    }
}

fn main() {
    let mut tally = Tally::new();
    short_texts(&mut tally);
    limit_texts(&mut tally);
    changed_bytes(&mut tally);
    random_texts(&mut tally, 220_000);
    tally.finish(&[0, 11, 12, 13, 14, 15, 16, 21, 22, 23, 24, 25, 26, 41]);
}
