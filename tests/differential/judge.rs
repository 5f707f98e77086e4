//! Judge of the library compared with the reference: number, place and the part of the book.

use common::compare::{Lent, Outcome, Tally};
use common::library::zamiathen_judge;
use common::random::Random;
use common::terms::{self, Names};
use common::{damage, graphs, limits, texts};
use reference::calls;
use reference::graph::Graph;
use reference::meaning::holds;
use reference::sheet;
use reference::syntax::Rule;

fn judge(tally: &mut Tally, bytes: &[u8], book: &[u8]) {
    let (lent, lent_book) = (Lent::of(bytes), Lent::of(book));
    let found = unsafe { zamiathen_judge(lent.ptr(), lent.len(), lent_book.ptr(), lent_book.len()) };
    let found = Outcome::new(&[found.number, found.place, found.start, found.length], vec![lent, lent_book]);
    let judged = calls::judge(bytes, book);
    let numbers = [judged.answer.number, judged.answer.place, judged.start, judged.length];
    let wanted = Outcome::new(&numbers, vec![Lent::of(bytes), Lent::of(book)]);
    tally.compare("judge", &found, &wanted, &[("sheet", bytes), ("book", book)]);
}

/// Broken rules are often turned round by a 27, so that both answers are frequent.
fn mostly_kept(random: &mut Random, graph: &Graph, rules: Vec<Rule>) -> Vec<Rule> {
    let mend = |rule: Rule, random: &mut Random| match holds(graph, &rule) || random.one_in(5) {
        true => rule,
        false => Rule::Not(Box::new(rule)),
    };
    rules.into_iter().map(|rule| mend(rule, random)).collect()
}

fn random_pairs(tally: &mut Tally, rounds: usize) {
    let mut random = Random::new(21);
    for _ in 0..rounds {
        let n = graphs::node_count(&mut random);
        let names = Names::some(&mut random, n);
        let graph = graphs::graph(&mut random, names);
        let bytes = sheet::store(&graph);
        for _ in 0..12 {
            let most = terms::some_rules(&mut random);
            let rules = terms::book(&mut random, names, most);
            let book = terms::book_code(&mostly_kept(&mut random, &graph, rules));
            judge(tally, &bytes, &book);
        }
        refused_pair(tally, &mut random, &bytes, n);
    }
}

/// A fault in the sheet, in the book, or in both.
fn refused_pair(tally: &mut Tally, random: &mut Random, bytes: &[u8], n: usize) {
    let text = texts::any(random, n);
    judge(tally, bytes, &text);
    if random.one_in(4) {
        let damaged = damage::damaged(random, bytes.to_vec());
        judge(tally, &damaged, &text);
    }
}

/// One rule of each code on each n, with a graph of its own.
fn every_n(tally: &mut Tally) {
    let mut random = Random::new(22);
    for n in 1..=60 {
        let names = Names { n, labels: 2, arrows: 2 };
        for _ in 0..20 {
            let bytes = sheet::store(&graphs::graph(&mut random, names));
            for _ in 0..4 {
                let rule = terms::rule(&mut random, names, 5);
                judge(tally, &bytes, &terms::book_code(&[rule.clone()]));
                judge(tally, &bytes, &terms::book_code(&[Rule::Not(Box::new(rule))]));
            }
        }
    }
}

/// Books at the limits on one sheet.
fn limit_books(tally: &mut Tally) {
    let mut random = Random::new(23);
    let names = Names { n: 60, labels: 3, arrows: 3 };
    let bytes = sheet::store(&graphs::graph(&mut random, names));
    for text in [limits::lengths(), limits::levels(), limits::rule_counts()].concat() {
        judge(tally, &bytes, &text);
    }
    // The same broken rule earlier and later: the part is at the broken rule's own place.
    judge(tally, &bytes, &[0x27, 0x21, 0x01, 0x02, 0x21, 0x01, 0x02, 0x21, 0x01, 0x02]);
}

fn main() {
    let mut tally = Tally::new();
    every_n(&mut tally);
    limit_books(&mut tally);
    random_pairs(&mut tally, 17_000);
    tally.both_frequent("judge", 0, 41);
    tally.finish(&[0, 1, 2, 3, 4, 11, 12, 13, 14, 15, 16, 41]);
}
