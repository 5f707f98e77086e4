//! Two sheets joined by the library, compared with what the words of their bytes say and with the reference; and what item 8 says of
//! rules, by the library's judge.

use common::compare::{Lent, Outcome, Tally};
use common::library::{zamiathen_join_sheets, zamiathen_judge};
use common::random::Random;
use common::terms::{self, Names};
use common::{damage, graphs};
use reference::answer::{Answer, DONE};
use reference::graph::{Graph, MOST_NODES};
use reference::join;
use reference::meaning::holds;
use reference::sheet::{self, BLOCK, SHEET};
use reference::syntax::{Arrow, Coded, Node, Rule};

fn library(first: &[u8], second: &[u8]) -> Outcome {
    let (mut lent, other) = (Lent::of(first), Lent::of(second));
    let found = unsafe { zamiathen_join_sheets(lent.mut_ptr(), lent.len(), other.ptr(), other.len()) };
    Outcome::new(&[found.number, found.place], vec![lent, other])
}

/// The library's call against this answer and this first sheet after it.
fn known(tally: &mut Tally, what: &'static str, first: &[u8], second: &[u8], answer: Answer, after: &[u8]) {
    let wanted = Outcome::of_answer(answer, vec![Lent::of(after), Lent::of(second)]);
    tally.compare(what, &library(first, second), &wanted, &[("first", first), ("second", second)]);
}

/// Both sides; gives the reference's answer and the first sheet after it.
fn compare(tally: &mut Tally, first: &[u8], second: &[u8]) -> (Answer, Vec<u8>) {
    let mut after = first.to_vec();
    let answer = join::join_sheets(&mut after, second);
    known(tally, "join", first, second, answer, &after);
    (answer, after)
}

/// Known without the reference: each word of the second, raised by the first's n, with the first's; the second's rows after the first's.
fn by_words(first: &[u8], second: &[u8]) -> (Answer, Vec<u8>) {
    let (n, m) = (usize::from(first[2]), usize::from(second[2]));
    if n + m > MOST_NODES {
        return (Answer { number: 58, place: n + m }, first.to_vec());
    }
    let mut after = first.to_vec();
    after[2] += second[2];
    for k in 0..49 {
        put(&mut after, 16 + 8 * k, word(first, 16 + 8 * k) | word(second, 16 + 8 * k) << n);
    }
    for block in 1..17 {
        let rows = block * BLOCK + 16;
        (0..m).for_each(|i| put(&mut after, rows + 8 * (n + i), word(second, rows + 8 * i) << n));
    }
    after.chunks_mut(BLOCK).for_each(sheet::seal);
    (DONE, after)
}

fn word(bytes: &[u8], at: usize) -> u64 {
    u64::from_le_bytes(bytes[at..at + 8].try_into().expect("8 bytes"))
}

fn put(bytes: &mut [u8], at: usize, word: u64) {
    bytes[at..at + 8].copy_from_slice(&word.to_le_bytes());
}

fn some_graph(random: &mut Random, n: usize) -> Graph {
    let names = Names::some(random, n);
    graphs::graph(random, names)
}

/// Each n with each other n, full sheets, blank ones, and some in between.
fn every_total(tally: &mut Tally) {
    let mut random = Random::new(81);
    for n in 1..=MOST_NODES {
        for m in 1..=MOST_NODES {
            let graphs = match (n + m) % 8 {
                0 => (graphs::full(n), graphs::full(m)),
                1 => (Graph::blank(n), graphs::full(m)),
                2 => (graphs::full(n), Graph::blank(m)),
                _ => (some_graph(&mut random, n), some_graph(&mut random, m)),
            };
            let (first, second) = (sheet::store(&graphs.0), sheet::store(&graphs.1));
            let (answer, after) = by_words(&first, &second);
            known(tally, "every total", &first, &second, answer, &after);
            assert!(compare(tally, &first, &second) == (answer, after), "the reference joins by words");
        }
    }
}

/// A sheet of n nodes with each fault, in the first block and in the last, and one without.
fn sheets(n: usize) -> Vec<(Vec<u8>, Answer)> {
    let refused = |number, place| Answer { number, place };
    let sound = sheet::store(&Graph::blank(n));
    let mut sheets = vec![(sound.clone(), DONE)];
    for length in [0, 1, SHEET - 1, SHEET + 1, 2 * SHEET] {
        sheets.push((sound.repeat(3)[..length].to_vec(), refused(1, 0)));
    }
    for (at, value, number) in
        [(500, 1, 2), (8703, 9, 2), (1, 1, 3), (2, 0, 3), (2, 61, 3), (8194, 1, 3), (407, 255, 4), (8192 + 500, 1, 4)]
    {
        let mut bytes = sound.clone();
        bytes[at] = value;
        if number != 2 {
            sheet::seal(&mut bytes[at / BLOCK * BLOCK..(at / BLOCK + 1) * BLOCK]);
        }
        sheets.push((bytes, refused(number, at / BLOCK)));
    }
    sheets
}

/// Every question in its place: each fault of the first before each of the second before the total. Known without the reference.
fn orders(tally: &mut Tally) {
    for (n, m) in [(1, 1), (30, 30), (31, 30), (60, 1), (1, 60), (60, 60)] {
        for (first, first_answer) in sheets(n) {
            for (second, second_answer) in sheets(m) {
                let (answer, after) = match (first_answer, second_answer) {
                    (DONE, DONE) => by_words(&first, &second),
                    (DONE, _) => (second_answer, first.clone()),
                    _ => (first_answer, first.clone()),
                };
                known(tally, "orders of join", &first, &second, answer, &after);
            }
        }
    }
}

/// Any two sheets, damaged or not.
fn random_sheets(tally: &mut Tally, rounds: usize) {
    let mut random = Random::new(82);
    for _ in 0..rounds {
        let (n, m) = (graphs::node_count(&mut random), graphs::node_count(&mut random));
        let mut sheets = [n, m].map(|n| sheet::store(&some_graph(&mut random, n)));
        for bytes in &mut sheets {
            if random.one_in(3) {
                *bytes = damage::damaged(&mut random, bytes.clone());
            }
        }
        compare(tally, &sheets[0], &sheets[1]);
    }
}

/// A third after two others, joined from either side: the same bytes.
fn thirds(tally: &mut Tally, rounds: usize) {
    let mut random = Random::new(83);
    for _ in 0..rounds {
        let sizes = [0; 3].map(|_| 1 + random.below(20));
        let [a, b, c] = sizes.map(|n| sheet::store(&some_graph(&mut random, n)));
        let (_, ab) = compare(tally, &a, &b);
        let (_, bc) = compare(tally, &b, &c);
        let (answer, all) = compare(tally, &ab, &c);
        known(tally, "from either side", &a, &bc, answer, &all);
    }
}

/// A node expression without 04 and 17.
fn plain_node(e: Node) -> Node {
    let node = |e: Box<Node>| Box::new(plain_node(*e));
    let arrow = |r: Box<Arrow>| Box::new(plain_arrow(*r));
    match e {
        Node::Only(_) => Node::All,
        Node::All | Node::Nothing | Node::Label(_) => e,
        Node::Not(e) => Node::Not(node(e)),
        Node::And(e, f) => Node::And(node(e), node(f)),
        Node::Or(e, f) => Node::Or(node(e), node(f)),
        Node::Some(r, e) => Node::Some(arrow(r), node(e)),
        Node::Every(r, e) => Node::Every(arrow(r), node(e)),
        Node::AtLeast(m, r, e) => Node::AtLeast(m, arrow(r), node(e)),
        Node::AtMost(m, r, e) => Node::AtMost(m, arrow(r), node(e)),
    }
}

fn plain_arrow(r: Arrow) -> Arrow {
    let arrow = |r: Box<Arrow>| Box::new(plain_arrow(*r));
    match r {
        Arrow::Pair(_, _) => Arrow::Kind(0),
        Arrow::Kind(_) => r,
        Arrow::Reversed(r) => Arrow::Reversed(arrow(r)),
        Arrow::Union(r, s) => Arrow::Union(arrow(r), arrow(s)),
        Arrow::Common(r, s) => Arrow::Common(arrow(r), arrow(s)),
        Arrow::Without(r, s) => Arrow::Without(arrow(r), arrow(s)),
        Arrow::EndingIn(r, e) => Arrow::EndingIn(arrow(r), Box::new(plain_node(*e))),
    }
}

/// A rule built only from 21, 22 and 25, in which 04 and 17 do not appear.
fn plain_rule(random: &mut Random, names: Names, levels: usize) -> Rule {
    let below = levels - 1;
    match random.below(if levels > 2 { 4 } else { 3 }) {
        0..=1 => {
            let (e, f) = (terms::node(random, names, below), terms::node(random, names, below));
            Rule::Nodes(plain_node(e), plain_node(f))
        }
        2 => {
            let (r, s) = (terms::arrow(random, names, below), terms::arrow(random, names, below));
            Rule::Pairs(plain_arrow(r), plain_arrow(s))
        }
        _ => Rule::And(Box::new(plain_rule(random, names, below)), Box::new(plain_rule(random, names, below))),
    }
}

fn judged(bytes: &[u8], rule: &[u8]) -> usize {
    unsafe { zamiathen_judge(bytes.as_ptr(), bytes.len(), rule.as_ptr(), rule.len()) }.number
}

/// Such a rule holds on the joined sheet exactly when it holds on both.
fn rules_on_both(tally: &mut Tally, rounds: usize) {
    let mut random = Random::new(84);
    for _ in 0..rounds {
        let names = Names { n: 1, labels: 2, arrows: 2 };
        let sizes = [0; 2].map(|_| 1 + random.below(3));
        let [g, h] = sizes.map(|n| graphs::graph(&mut random, Names { n, ..names }));
        let (_, both) = compare(tally, &sheet::store(&g), &sheet::store(&h));
        for _ in 0..6 {
            let levels = terms::some_levels(&mut random);
            let rule = plain_rule(&mut random, names, levels);
            let number = if holds(&g, &rule) && holds(&h, &rule) { 0 } else { 41 };
            let code = rule.code();
            let found = Outcome::new(&[judged(&both, &code)], vec![]);
            tally.compare(
                "rule on both",
                &found,
                &Outcome::new(&[number], vec![]),
                &[("joined", &both), ("rule", &code)],
            );
        }
    }
}

/// Why item 8 leaves 04, 17, 23, 24, 26 and 27 out: a rule with each, two sheets, and its truth on each and on both.
fn needed(tally: &mut Tally) {
    let mut labelled = Graph::blank(1);
    labelled.labels[0][0] = true;
    labelled.arrows[0] = reference::graph::Pairs::new(1, |_, _| true);
    let (a, b) = (sheet::store(&labelled), sheet::store(&Graph::blank(1)));
    let rules: [(&[u8], [usize; 3]); 6] = [
        (&[0x21, 0x01, 0x04, 0x00], [0, 0, 41]),
        (&[0x22, 0x11, 0x00, 0x17, 0x00, 0x00], [0, 0, 0]),
        (&[0x23, 0x00, 0x03, 0x00], [0, 41, 0]),
        (&[0x24, 0x00, 0x00, 0x11, 0x00], [0, 41, 0]),
        (&[0x26, 0x21, 0x01, 0x03, 0x00, 0x21, 0x03, 0x00, 0x02], [0, 0, 41]),
        (&[0x27, 0x21, 0x01, 0x03, 0x00], [41, 0, 0]),
    ];
    let (_, both) = compare(tally, &a, &b);
    let (_, twice) = compare(tally, &a, &a);
    for (rule, wanted) in rules {
        let found = [&a, &b, &both].map(|bytes| judged(bytes, rule));
        tally.compare("needed", &Outcome::new(&found, vec![]), &Outcome::new(&wanted, vec![]), &[("rule", rule)]);
    }
    let pair = judged(&twice, &[0x22, 0x11, 0x00, 0x17, 0x00, 0x00]);
    tally.compare("needed", &Outcome::new(&[pair], vec![]), &Outcome::new(&[41], vec![]), &[("joined", &twice)]);
}

fn main() {
    let mut tally = Tally::new();
    every_total(&mut tally);
    orders(&mut tally);
    random_sheets(&mut tally, 6_000);
    thirds(&mut tally, 1_500);
    needed(&mut tally);
    rules_on_both(&mut tally, 8_000);
    for what in ["every total", "orders of join", "join"] {
        tally.all_reached(what, &[0, 58]);
    }
    tally.all_reached("orders of join", &[1, 2, 3, 4]);
    tally.all_reached("join", &[1, 2, 3, 4]);
    tally.both_frequent("rule on both", 0, 41);
    tally.finish(&[0, 1, 2, 3, 4, 41, 58]);
}
