//! Close and open of the library compared with the reference: answers and all bytes, alone and between calls of enter.

use common::compare::{self, Lent, Outcome, Tally};
use common::library::{zamiathen_close, zamiathen_open};
use common::random::Random;
use common::terms::{self, Names};
use common::{damage, graphs, texts};
use reference::answer::{Answer, DONE};
use reference::calls;
use reference::clerk::Clerk;
use reference::graph::{Graph, Pairs, MOST_NODES};
use reference::meaning::holds;
use reference::syntax::{Coded, Rule};
use reference::{reader, sheet};

#[derive(Clone, Copy, PartialEq)]
enum Way {
    Close,
    Open,
}

use Way::{Close, Open};

impl Way {
    fn name(self) -> &'static str {
        match self {
            Close => "close",
            Open => "open",
        }
    }

    fn other(self) -> Way {
        match self {
            Close => Open,
            Open => Close,
        }
    }

    fn library(self, bytes: &[u8], book: &[u8], node: usize) -> Outcome {
        let (mut lent, lent_book) = (Lent::of(bytes), Lent::of(book));
        let (at, length) = (lent.mut_ptr(), lent.len());
        let found = match self {
            Close => unsafe { zamiathen_close(at, length, lent_book.ptr(), lent_book.len(), node) },
            Open => unsafe { zamiathen_open(at, length, lent_book.ptr(), lent_book.len(), node) },
        };
        Outcome::new(&[found.number, found.place], vec![lent, lent_book])
    }

    fn reference(self, bytes: &mut [u8], book: &[u8], node: usize) -> Answer {
        match self {
            Close => calls::close(bytes, book, node),
            Open => calls::open(bytes, book, node),
        }
    }
}

/// A call of both sides; gives the answer and the sheet after it.
fn call(tally: &mut Tally, way: Way, bytes: &[u8], book: &[u8], node: usize) -> (Answer, Vec<u8>) {
    let mut after = bytes.to_vec();
    let answer = way.reference(&mut after, book, node);
    call_known(tally, way.name(), way, (bytes, book, node), answer, &after);
    (answer, after)
}

/// The library's call against this answer and this sheet after it.
fn call_known(
    tally: &mut Tally,
    what: &'static str,
    way: Way,
    (bytes, book, node): (&[u8], &[u8], usize),
    answer: Answer,
    after: &[u8],
) {
    let wanted = Outcome::of_answer(answer, vec![Lent::of(after), Lent::of(book)]);
    let inputs = [("sheet", bytes), ("book", book), ("node", &node.to_le_bytes()[..])];
    tally.compare(what, &way.library(bytes, book, node), &wanted, &inputs);
}

/// Some nodes, all in use, without labels and arrows: those can be closed.
fn with_bare_nodes(random: &mut Random, graph: Graph) -> Graph {
    let in_use = graph.in_use.clone();
    let dressed = (0..graph.n).map(|i| in_use[i] && !random.one_in(3)).collect();
    Graph { in_use, ..graphs::with_use(graph, dressed) }
}

/// A graph with a book that it mostly keeps; in one of `broken_one_in` books a rule that it breaks is left.
fn opening(random: &mut Random, names: Names, broken_one_in: usize) -> (Graph, Vec<u8>) {
    let graph = graphs::graph(random, names);
    let graph = with_bare_nodes(random, graph);
    let most = terms::some_rules(random);
    let mut rules = terms::book(random, names, most);
    for rule in &mut rules {
        if !holds(&graph, rule) && !random.one_in(broken_one_in) {
            *rule = Rule::Not(Box::new(rule.clone()));
        }
    }
    (graph, terms::book_code(&rules))
}

/// A node below n, or n.
fn some_node(random: &mut Random, n: usize) -> usize {
    match random.below(16) {
        0 => n + random.below(3),
        1 => random.pick(&[60, 63, 64, 255, 256, 1 << 32, usize::MAX]),
        _ => random.below(n),
    }
}

/// Closing then opening, or opening then closing, gives the sheet back when both are done and the first changed it.
fn there_and_back(tally: &mut Tally, way: Way, bytes: &[u8], book: &[u8], node: usize) {
    let (answer, after) = call(tally, way, bytes, book, node);
    if answer == DONE && after != bytes {
        let (back, again) = call(tally, way.other(), &after, book, node);
        if back == DONE {
            call_known(tally, "there and back", way.other(), (&after, book, node), DONE, bytes);
            assert!(again == bytes, "the reference gives the sheet back");
        }
        call_known(tally, "a second time", way, (&after, book, node), DONE, &after);
    }
}

fn random_calls(tally: &mut Tally, rounds: usize) {
    let mut random = Random::new(41);
    for _ in 0..rounds {
        let n = graphs::node_count(&mut random);
        let names = Names::some(&mut random, n);
        let (graph, book) = opening(&mut random, names, 20);
        let bytes = sheet::store(&graph);
        for _ in 0..6 {
            let node = some_node(&mut random, n);
            there_and_back(tally, Close, &bytes, &book, node);
            there_and_back(tally, Open, &bytes, &book, node);
            there_and_back(tally, random.pick(&[Close, Open]), &bytes, &[], node);
        }
        faulty_call(tally, &mut random, bytes, book, n);
    }
}

/// A fault in the sheet, in the book, or in both.
fn faulty_call(tally: &mut Tally, random: &mut Random, mut bytes: Vec<u8>, mut book: Vec<u8>, n: usize) {
    if random.one_in(2) {
        bytes = damage::damaged(random, bytes);
    }
    if random.one_in(2) {
        book = texts::any(random, n);
    }
    let node = some_node(random, n);
    call(tally, random.pick(&[Close, Open]), &bytes, &book, node);
}

/// Every set of nodes in use of up to four nodes without labels and arrows, each node and the first one after them; rules that
/// count the nodes in use. Known without the reference.
fn small_sheets(tally: &mut Tally) {
    for n in 1..=4usize {
        for word in 1..1usize << n {
            let in_use = (0..n).map(|i| word >> i & 1 == 1).collect();
            let bytes = sheet::store(&graphs::with_use(Graph::blank(n), in_use));
            for node in 0..=n {
                (0..n).for_each(|member| small_calls(tally, &bytes, word, node, member));
            }
        }
    }
}

/// Close and open on such a sheet, under a book that wants one node in use, and under one that wants it closed.
fn small_calls(tally: &mut Tally, bytes: &[u8], word: usize, node: usize, member: usize) {
    let n = usize::from(bytes[2]);
    for way in [Close, Open] {
        let left = if way == Close { word & !(1 << node) } else { word | 1 << node };
        for closed in [false, true] {
            let rule = [vec![0x27; usize::from(closed)], vec![0x23, member as u8, 0x01]].concat();
            let kept = (left >> member & 1 == 1) != closed;
            let (number, place) = match () {
                _ if node >= n => (7, 0),
                _ if left == word => (0, 0),
                _ if left == 0 => (54, node),
                _ if !kept => (41, 0),
                _ => (0, 0),
            };
            let mut after = bytes.to_vec();
            if number == 0 {
                after[400] = left as u8;
                sheet::seal(&mut after[..512]);
            }
            let answer = Answer { number, place };
            call_known(tally, "small sheets", way, (bytes, &rule, node), answer, &after);
        }
    }
}

/// What may be wrong with a node: 7, nothing to do, 54 in each way, or nothing.
const NODES: [(usize, usize); 9] =
    [(0, 0), (1, 54), (2, 54), (3, 54), (4, 54), (5, 1), (6, 7), (60, 7), (usize::MAX, 7)];

/// Six nodes: 0 has nothing; 1 has a label; 2 an arrow from it, 3 one to it, 4 one to itself; 5 is closed.
fn six() -> Graph {
    let mut graph = Graph::blank(6);
    graph.labels[47][1] = true;
    graph.arrows[0] = Pairs::new(6, |i, j| i == 2 && j == 3);
    graph.arrows[15] = Pairs::new(6, |i, j| i == 4 && j == 4);
    graph.in_use[5] = false;
    graph
}

/// Sheets with each fault, in block 0 and in the last, and one without.
fn six_sheets() -> Vec<(Vec<u8>, Answer)> {
    let sound = sheet::store(&six());
    let mut sheets = vec![(sound.clone(), DONE), (sound[1..].to_vec(), Answer { number: 1, place: 0 })];
    for (at, value, number) in
        [(500, 1, 2), (8703, 9, 2), (1, 1, 3), (400, 0, 3), (400, 95, 4), (16, 32, 4), (8192 + 56, 1, 4)]
    {
        let mut bytes = sound.clone();
        let place = at / 512;
        bytes[at] = value;
        if number != 2 {
            sheet::seal(&mut bytes[512 * place..512 * (place + 1)]);
        }
        sheets.push((bytes, Answer { number, place }));
    }
    sheets
}

/// Every question of a call on the six nodes in its place: each fault of a sheet, then each of a book, then each of a node, then
/// a rule that the sheet left would break. Known without the reference.
fn orders(tally: &mut Tally) {
    let books: [(Vec<u8>, usize, usize); 9] = [
        (vec![], 0, 0),
        ([vec![0x21, 0x01, 0x01], vec![0x21, 0x01, 0x02]].concat(), 41, 1),
        (vec![0x21; 4097], 11, 0),
        (vec![0x21, 0x01, 0x02, 0x21], 12, 4),
        (vec![0x21, 0x01, 0x02, 0x11], 13, 3),
        ([vec![0x23, 0x00], vec![0x05; 32]].concat(), 14, 33),
        (vec![0x23, 0x06, 0x01], 15, 1),
        ([vec![0x21, 0x01, 0x02].repeat(32), vec![0xFF]].concat(), 16, 96),
        (vec![0x23, 0x05, 0x02], 41, 0),
    ];
    for (bytes, sheet_answer) in six_sheets() {
        for (book, number, place) in &books {
            for (node, fault) in NODES {
                let answer = match (fault, *number) {
                    _ if sheet_answer != DONE => sheet_answer,
                    (_, 11..=16) => Answer { number: *number, place: *place },
                    (7, _) => Answer { number: 7, place: 0 },
                    (1, _) => DONE,
                    (54, _) => Answer { number: 54, place: node },
                    _ => Answer { number: *number, place: *place },
                };
                let mut after = bytes.clone();
                if answer == DONE && fault == 0 {
                    after[400] &= 0xFE;
                    sheet::seal(&mut after[..512]);
                }
                call_known(tally, "orders of close", Close, (&bytes, book, node), answer, &after);
                orders_of_open(tally, &bytes, sheet_answer, book, (*number, *place), node);
            }
        }
    }
}

/// The same for open: nodes 0 to 4 are open, so that there is nothing to do and nothing is judged.
fn orders_of_open(
    tally: &mut Tally,
    bytes: &[u8],
    sheet_answer: Answer,
    book: &[u8],
    (number, place): (usize, usize),
    node: usize,
) {
    let answer = match (node, number) {
        _ if sheet_answer != DONE => sheet_answer,
        (_, 11..=16) => Answer { number, place },
        (6.., _) => Answer { number: 7, place: 0 },
        (0..=4, _) => DONE,
        _ => Answer { number, place },
    };
    let mut after = bytes.to_vec();
    if answer == DONE && node == 5 {
        after[400] |= 32;
        sheet::seal(&mut after[..512]);
    }
    call_known(tally, "orders of open", Open, (bytes, book, node), answer, &after);
}

/// The node to be closed is the only one in use, for each n; a rule that would be broken is not judged.
fn only_ones(tally: &mut Tally) {
    for n in 1..=MOST_NODES {
        for node in [0, n / 2, n - 1] {
            let in_use = (0..n).map(|i| i == node).collect();
            let bytes = sheet::store(&graphs::with_use(Graph::blank(n), in_use));
            let rule = [0x23, node as u8, 0x01];
            call_known(tally, "the only one", Close, (&bytes, &rule, node), Answer { number: 54, place: node }, &bytes);
        }
    }
}

/// Calls of enter, close and open under one book, from a sheet that keeps it: the answers and sheets are the clerk's, who is
/// never given an answer, and after each the sheet keeps the book.
fn histories(tally: &mut Tally, rounds: usize) {
    let mut random = Random::new(42);
    for _ in 0..rounds {
        let n = graphs::node_count(&mut random);
        let names = Names::some(&mut random, n);
        let (graph, book) = opening(&mut random, names, usize::MAX);
        let Ok(rules) = reader::book(&book, n) else { continue };
        let mut clerk = Clerk::new(graph.clone(), rules);
        let mut bytes = sheet::store(&graph);
        for _ in 0..14 {
            bytes = match random.below(5) {
                0..=1 => entered(tally, &mut random, &mut clerk, names, &bytes, &book),
                2..=3 => turned(tally, Close, &mut random, &mut clerk, &bytes, &book),
                _ => turned(tally, Open, &mut random, &mut clerk, &bytes, &book),
            };
            assert!(calls::judge(&bytes, &book).answer == DONE, "the sheet keeps the book");
        }
    }
}

/// One call of close or open in a history: the sheet after it.
fn turned(tally: &mut Tally, way: Way, random: &mut Random, clerk: &mut Clerk, bytes: &[u8], book: &[u8]) -> Vec<u8> {
    let node = some_node(random, clerk.graph.n);
    let answer = clerk.set_use(node, way == Open);
    let after = sheet::store(&clerk.graph);
    call_known(tally, "in a history", way, (bytes, book, node), answer, &after);
    after
}

/// One call of enter in a history: the sheet after it.
fn entered(
    tally: &mut Tally,
    random: &mut Random,
    clerk: &mut Clerk,
    names: Names,
    bytes: &[u8],
    book: &[u8],
) -> Vec<u8> {
    let steps = random.below(4);
    let levels = terms::some_levels(random);
    let edit = terms::edit(random, names, steps, levels).code();
    let (numbers, [lent, lent_book, lent_edit, _]) = compare::enter(bytes, book, &edit, &[0; 2000]);
    let found = Outcome::new(&numbers, vec![lent, lent_book, lent_edit]);
    let called = clerk.call(&edit, 2000);
    let after = sheet::store(&clerk.graph);
    let wanted = Outcome::of_answer(called.answer, vec![Lent::of(&after), Lent::of(book), Lent::of(&edit)]);
    tally.compare("enter in a history", &found, &wanted, &[("sheet", bytes), ("book", book), ("edit", &edit)]);
    after
}

fn main() {
    let mut tally = Tally::new();
    small_sheets(&mut tally);
    orders(&mut tally);
    only_ones(&mut tally);
    random_calls(&mut tally, 10_000);
    histories(&mut tally, 8_000);
    for what in ["orders of close", "orders of open"] {
        tally.all_reached(what, &[0, 1, 2, 3, 4, 7, 11, 12, 13, 14, 15, 16, 41]);
    }
    for what in ["close", "small sheets", "orders of close", "in a history"] {
        tally.all_reached(what, &[0, 7, 41, 54]);
    }
    tally.all_reached("open", &[0, 7, 41]);
    tally.all_reached("enter in a history", &[0, 41]);
    tally.finish(&[0, 1, 2, 3, 4, 7, 11, 12, 13, 14, 15, 16, 41, 54]);
}
