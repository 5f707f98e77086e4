//! The marked examples of document 01, some of its remarks, check bytes, old cards, pages of its sheet T, rewritten books,
//! closed nodes, stores, joined sheets and edits, laws, counts, games and words, by the reference itself.

use reference::answer::{Answer, DONE};
use reference::calls::{apply, carry_back, close, enter, judge, open, Judged, Lengthy};
use reference::chain::join_edits;
use reference::counts::count;
use reference::game::{self, Edits};
use reference::graph::{Graph, Pairs, MOST_NODES};
use reference::join::join_sheets;
use reference::laws::check_steps;
use reference::meaning::{holds, nodes};
use reference::pages::{page, type_page, Shown};
use reference::rewrite::rewrite;
use reference::sheet::{BLOCK, SUMS_255, SUMS_257};
use reference::syntax::{Node, Rule};
use reference::{plans, reader, sheet, words};

/// Bytes from hexadecimal with blanks.
fn hex(text: &str) -> Vec<u8> {
    text.split_whitespace().map(|pair| u8::from_str_radix(pair, 16).expect("two digits")).collect()
}

/// Sheet T.
fn sheet_t() -> Vec<u8> {
    let mut graph = Graph::blank(3);
    graph.labels[0] = vec![true, true, false];
    graph.labels[1] = vec![false, false, true];
    graph.arrows[0] = Pairs::new(3, |i, j| i < 2 && j == 2);
    sheet::store(&graph)
}

struct Tally {
    passed: usize,
    failed: usize,
}

impl Tally {
    fn same<T: PartialEq + std::fmt::Debug>(&mut self, what: &str, found: T, wanted: T) {
        if found == wanted {
            self.passed += 1;
        } else {
            self.failed += 1;
            println!("{what}: found {found:?}, wanted {wanted:?}");
        }
    }
}

/// The node expression that stands in the text of 23 00 E, with any count: example 6 has one that a book may no longer have.
fn expression(text: &str) -> Node {
    let rules = reader::former_book(&hex(&format!("23 00 {text}")), MOST_NODES).expect("a sound rule");
    match &rules[0].rule {
        Rule::Member(_, e) => e.clone(),
        other => panic!("not a membership: {other:?}"),
    }
}

fn meanings(tally: &mut Tally) {
    let graph = sheet::read(&sheet_t());
    let examples: [(&str, &[usize]); 6] = [
        ("05 03 00", &[2]),
        ("08 11 00 03 01", &[0, 1]),
        ("09 11 00 02", &[2]),
        ("0A 02 12 11 00 01", &[2]),
        ("0B 00 11 00 01", &[2]),
        ("0A 00 11 00 02", &[0, 1, 2]),
    ];
    for (text, wanted) in examples {
        let found: Vec<usize> = (0..3).filter(|i| nodes(&graph, &expression(text))[*i]).collect();
        tally.same(text, found, wanted.to_vec());
    }
}

/// Counts that say nothing, and those that say the least.
fn rewritten(tally: &mut Tally) {
    let examples = [
        ("23 00 0A 00 11 00 02", "23 00 01"),
        ("23 00 0A 01 11 00 02", "23 00 0A 01 11 00 02"),
        ("23 00 0A 3C 11 00 02", "23 00 0A 3C 11 00 02"),
        ("23 00 0A 3D 11 00 02", "23 00 02"),
        ("23 00 0B 3B 11 00 02", "23 00 0B 3B 11 00 02"),
        ("23 00 0B 3C 11 00 02", "23 00 01"),
        ("23 00 0A 02 16 11 00 0A FF 11 00 01 0B FF 11 00 01 21 01 01", "23 00 0A 02 16 11 00 02 01 21 01 01"),
        ("23 00 05 0A 00 11 00 0B 00 11 01 01", "23 00 05 01"),
    ];
    for (book, wanted) in examples {
        let mut out = vec![0xEE; 100];
        let found = rewrite(&hex(book), &mut out);
        tally.same(book, (found.answer, out[..found.length].to_vec()), (DONE, hex(wanted)));
    }
    let answer = rewrite(&hex("21 0A 00 11 00 03 30 01"), &mut []).answer;
    tally.same("label 48 in what is dropped", answer, Answer { number: 15, place: 6 });
    let answer = rewrite(&hex("23 00 0A 00 11 00 02"), &mut [0; 2]).answer;
    tally.same("a short output", answer, Answer { number: 33, place: 3 });
}

const B: &str = "21 03 00 08 11 00 03 01";

fn carried(tally: &mut Tally, book: &str, edit: &str, wanted: &str) {
    let mut out = vec![0xEE; 100];
    let found = carry_back(&hex(book), &hex(edit), &mut out);
    tally.same("carried length", (found.answer, found.length), (DONE, hex(wanted).len()));
    tally.same("carried text", out[..found.length].to_vec(), hex(wanted));
    tally.same("rest of the output", out[found.length..].iter().all(|byte| *byte == 0xEE), true);
}

fn carrying(tally: &mut Tally) {
    carried(tally, B, "32 01 04 02 30", "21 03 00 08 11 00 06 03 01 05 04 02");
    carried(tally, B, "32 01 04 02 31 01 04 02 30", "21 03 00 08 11 00 07 06 03 01 05 04 02 04 02");
    carried(
        tally,
        "21 03 01 03 00",
        "35 23 00 03 01 31 00 04 02 30 30 30",
        "25 26 27 23 00 03 01 21 03 01 07 03 00 04 02 26 23 00 03 01 21 03 01 03 00",
    );
    // An earlier step replaces inside the K and E of a later one.
    let x = "23 00 07 03 00 04 00";
    let wanted = format!("25 26 27 {x} {x} 26 {x} {x}");
    carried(tally, "23 00 03 00", "31 00 04 00 35 23 00 03 00 30 30 30", &wanted);
    // A count is not a code.
    carried(tally, "23 00 0A 03 11 00 01", "31 11 01 30", "23 00 0A 03 11 00 01");
}

fn entering(tally: &mut Tally) {
    let t = sheet_t();
    let holds = Judged { answer: DONE, start: 0, length: 0 };
    tally.same("B holds", judge(&t, &hex(B)), holds);
    let mut after = t.clone();
    let mut scratch = vec![0; 100];
    let answer = enter(&mut after, &hex(B), &hex("32 01 04 02 30"), &mut scratch);
    tally.same("example 8", (answer, after == t), (Answer { number: 41, place: 0 }, true));
    let answer = enter(&mut after, &hex(B), &hex("32 01 04 02 31 01 04 02 30"), &mut scratch);
    tally.same("example 9", (answer, after == t), (DONE, true));
    let answer = enter(&mut after, &[], &hex("33 00 12 11 00 30"), &mut scratch);
    let reversed: Vec<bool> = sheet::read(&after).arrows[0].row(2).to_vec();
    tally.same("33 00 12 11 00", (answer, reversed), (DONE, vec![true, true, false]));
}

fn refused(tally: &mut Tally, text: Vec<u8>, number: usize, place: usize) {
    let found = reader::book(&text, 60).map(|_| ()).unwrap_err();
    tally.same("book refused", found, Answer { number, place });
}

fn reading(tally: &mut Tally) {
    refused(tally, hex("24 3C"), 15, 1);
    // Counts: example 6 in a book, and just outside each other end.
    refused(tally, hex("23 00 0A 00 11 00 02"), 15, 3);
    refused(tally, hex("23 00 0A 3D"), 15, 3);
    refused(tally, hex("23 00 0B 3C"), 15, 3);
    for count in ["0A 01", "0A 3C", "0B 00", "0B 3B"] {
        tally.same(count, reader::first_rule(&hex(&format!("23 00 {count} 11 00 02"))), Ok(7));
    }
    let counted_edit = hex("31 00 0B 3C 11 00 02 30");
    tally.same("60 in an edit", reader::edit(&counted_edit, 60).unwrap_err(), Answer { number: 25, place: 3 });
    refused(tally, vec![0; 4097], 11, 0);
    refused(tally, hex("21 01"), 12, 2);
    refused(tally, hex("21 11"), 13, 1);
    let deep = [hex("23 01"), vec![0x05; 31]].concat();
    refused(tally, deep.clone(), 12, 33);
    refused(tally, [deep, hex("01")].concat(), 14, 33);
    refused(tally, [hex("21 01 01").repeat(32), hex("FF")].concat(), 16, 96);
    let deep_edit = [hex("35"), vec![0x27; 30], hex("23 00 01 30 30 30")].concat();
    tally.same("K of 35", reader::edit(&deep_edit, 60).unwrap_err(), Answer { number: 24, place: 33 });
    tally.same("empty edit", reader::edit(&[], 60).unwrap_err(), Answer { number: 22, place: 0 });
    tally.same("more after the end", reader::edit(&hex("30 30"), 60).unwrap_err(), Answer { number: 26, place: 1 });
    tally.same("empty text", reader::first_rule(&[]).unwrap_err(), Answer { number: 12, place: 0 });
    tally.same("first rule", reader::first_rule(&hex("21 01 01 FF")), Ok(3));
    tally.same("rule starts", reader::rule_starts(&hex("21 01 01 23 00 01 FF"), 60), vec![0, 3, 6]);
}

/// The sums in the words of the papers, a remainder for each byte.
fn sums_in_words(body: &[u8], modulus: u32) -> (u32, u32) {
    let (mut s, mut t) = (0, 0);
    for byte in body {
        s = (s + u32::from(*byte)) % modulus;
        t = (t + s) % modulus;
    }
    (s, t)
}

fn check_bytes(tally: &mut Tally) {
    for (first, step) in [(0, 1), (255, 0), (254, 3), (7, 101), (255, 255)] {
        let block: Vec<u8> = (0..512u32).map(|i| (first + step * i) as u8).collect();
        let (s, t) = sums_in_words(&block[..508], 257);
        let bytes = vec![(s % 256) as u8, (s / 256) as u8, (t % 256) as u8, (t / 256) as u8];
        tally.same("sums modulo 257", SUMS_257.check_bytes(&block), bytes);
        let (s, t) = sums_in_words(&block[..510], 255);
        tally.same("sums modulo 255", SUMS_255.check_bytes(&block), vec![s as u8, t as u8]);
    }
}

/// A graph of n nodes with one label.
fn labelled(n: usize, k: usize, nodes: &[usize]) -> Graph {
    let mut graph = Graph::blank(n);
    nodes.iter().for_each(|i| graph.labels[k][*i] = true);
    graph
}

/// The check bytes of block 0 as stored, and the answer for the sheet when others stand there.
fn stored_sums(tally: &mut Tally, graph: &Graph, wanted: [u8; 4], other: [u8; 4]) {
    let mut bytes = sheet::store(graph);
    tally.same("check bytes", (&bytes[508..512], sheet::check(&bytes)), (&wanted[..], DONE));
    bytes[508..512].copy_from_slice(&other);
    tally.same("sums not reduced", sheet::check(&bytes), Answer { number: 2, place: 0 });
}

fn sheets(tally: &mut Tally) {
    let blank = sheet::store(&Graph::blank(7));
    tally.same("block 1 without arrows", &blank[1020..1024], &[3, 0, 238, 0][..]);
    stored_sums(tally, &labelled(60, 0, &[1, 6, 7]), [0, 1, 174, 0], [1, 2, 174, 0]);
    stored_sums(tally, &labelled(60, 0, &[0, 1, 6, 7]), [0, 0, 152, 0], [1, 1, 152, 0]);
    stored_sums(tally, &labelled(2, 3, &[0]), [7, 0, 0, 1], [7, 0, 1, 2]);
    stored_sums(tally, &labelled(2, 35, &[0]), [7, 0, 0, 0], [7, 0, 1, 1]);
    let mut worn = blank;
    worn[512 * 9 + 100] = 255;
    tally.same("0 turned into 255", sheet::check(&worn), Answer { number: 2, place: 9 });
    let read = sheet::read(&sheet_t());
    tally.same("stored as one sheet", sheet::store(&read), sheet_t());
}

/// Old cards, which are checked by document 01's sums or by item 2's, and do not hold the nodes in use.
fn cards(tally: &mut Tally) {
    let card = SUMS_255.store(&Graph::blank(7));
    tally.same("block 1 of an old card", &card[1020..1024], &[0, 0, 3, 254][..]);
    let mut converted = card.clone();
    let answer = sheet::convert_255(&mut converted);
    tally.same("converted", (answer, converted), (DONE, sheet::store(&Graph::blank(7))));
    let mut converted = SUMS_257.store(&Graph::blank(7));
    tally.same("zeros in use on a card", (&converted[400..408], sheet::check(&converted).number), (&[0; 8][..], 3));
    let answer = sheet::convert_257(&mut converted);
    tally.same("converted", (answer, converted.clone()), (DONE, sheet::store(&Graph::blank(7))));
    tally.same("bits 0 to 6", &converted[400..408], &[127, 0, 0, 0, 0, 0, 0, 0][..]);
    tally.same("a sheet is no card", sheet::convert_257(&mut converted), Answer { number: 4, place: 0 });
    tally.same("nor with other sums", sheet::convert_257(&mut card.clone()), Answer { number: 2, place: 0 });
    let mut refused = |what: &str, at: usize, value: u8, number: usize| {
        let mut bytes = SUMS_255.store(&labelled(60, 0, &[1, 6, 7]));
        bytes[at] = value;
        let before = bytes.clone();
        let place = at / 512;
        tally.same(what, (sheet::convert_255(&mut bytes), bytes), (Answer { number, place }, before));
    };
    refused("255 is not 0", 510, 255, 2);
    refused("a byte of block 3", 512 * 3 + 40, 1, 2);
    refused("0 turned into 255 is not seen by the old sums, but as no zero", 512 * 3 + 508, 255, 4);
    let mut sheet = sheet::store(&Graph::blank(7));
    tally.same("no old card", sheet::convert_255(&mut sheet), Answer { number: 2, place: 0 });
    tally.same("a short card", sheet::convert_255(&mut sheet[1..]), Answer { number: 1, place: 0 });
}

/// The pages of sheet T, by document 02's words.
fn pages_of_t(tally: &mut Tally) {
    let line = |start: &str| format!("{start:63}\n");
    let arrow_page = [line("A00"), line("00 ..#"), line("01 ..#"), line("02 ...")].concat().into_bytes();
    let graph = sheet::read(&sheet_t());
    tally.same("arrow page", page(&graph, Shown::Arrow(0)), arrow_page.clone());
    let labels = page(&graph, Shown::Labels);
    let start = [line("L03"), line("00 ##."), line("01 ..#"), line("02 ...")].concat().into_bytes();
    tally.same("label page", (labels.len(), &labels[..256]), (64 * 50, &start[..]));
    tally.same("its last line", &labels[64 * 49..], line("48 ###").as_bytes());
    let mut bytes = sheet_t();
    tally.same("typed back", (type_page(&mut bytes, &arrow_page), bytes), (DONE, sheet_t()));
    let mut wrong = arrow_page.clone();
    wrong[64 * 3 + 6] = b'.';
    tally.same("a mark behind column n", type_page(&mut sheet_t(), &wrong), Answer { number: 51, place: 3 });
    tally.same("cut short", type_page(&mut sheet_t(), &wrong[1..]), Answer { number: 51, place: 0 });
}

/// T without node 1, which is closed.
fn sheet_u() -> Vec<u8> {
    let mut graph = labelled(3, 0, &[0]);
    graph.labels[1][2] = true;
    graph.arrows[0] = Pairs::new(3, |i, j| i == 0 && j == 2);
    graph.in_use[1] = false;
    sheet::store(&graph)
}

/// Every node expression has only nodes in use as its value; 04 and 17 on a closed node are empty, 23 and 24 false there.
fn closed_meanings(tally: &mut Tally) {
    let graph = sheet::read(&sheet_u());
    let examples: [(&str, &[usize]); 14] = [
        ("01", &[0, 2]),
        ("02", &[]),
        ("04 01", &[]),
        ("04 02", &[2]),
        ("05 02", &[0, 2]),
        ("05 03 00", &[2]),
        ("05 04 01", &[0, 2]),
        ("09 11 00 02", &[2]),
        ("09 17 00 01 02", &[0, 2]),
        ("08 17 00 02 01", &[0]),
        ("08 17 00 01 01", &[]),
        ("08 17 01 02 01", &[]),
        ("0B 00 11 00 01", &[2]),
        ("0A 00 11 00 01", &[0, 2]),
    ];
    for (text, wanted) in examples {
        let found: Vec<usize> = (0..3).filter(|i| nodes(&graph, &expression(text))[*i]).collect();
        tally.same(text, found, wanted.to_vec());
    }
    let rules = [
        ("23 01 01", false),
        ("27 23 01 01", true),
        ("23 01 05 02", false),
        ("24 01 02 17 01 02", false),
        ("24 02 01 12 17 01 02", false),
        ("24 00 02 17 00 02", true),
        ("21 01 07 03 00 03 01", true),
    ];
    for (text, wanted) in rules {
        tally.same(text, holds(&graph, &reader::book(&hex(text), 3).expect("a sound rule")[0].rule), wanted);
    }
    let mut after = sheet_u();
    let answer = apply(&mut after, &hex("31 02 01 33 01 17 01 00 33 01 17 00 01 31 03 04 01 30"));
    let mut wanted = graph;
    wanted.labels[2] = vec![true, false, true];
    tally.same("steps leave closed nodes alone", (answer, sheet::read(&after)), (DONE, wanted));
}

/// The sheet with some bytes put in, and the sums right.
fn with(mut bytes: Vec<u8>, changes: &[(usize, u8)]) -> Vec<u8> {
    changes.iter().for_each(|(at, value)| bytes[*at] = *value);
    bytes.chunks_mut(BLOCK).for_each(sheet::seal);
    bytes
}

fn closed_sheets(tally: &mut Tally) {
    tally.same("nodes in use", &sheet_u()[400..408], &[5, 0, 0, 0, 0, 0, 0, 0][..]);
    let mut asked = |what: &str, changes: &[(usize, u8)], number: usize, place: usize| {
        tally.same(what, sheet::check(&with(sheet_u(), changes)), Answer { number, place });
    };
    asked("all three in use", &[(400, 7)], 0, 0);
    asked("none in use", &[(400, 0)], 3, 0);
    asked("only a node above", &[(400, 8), (407, 128)], 3, 0);
    asked("node 3 of 3 in use beside others", &[(400, 13)], 4, 0);
    asked("node 63 in use beside others", &[(407, 128)], 4, 0);
    asked("byte 408", &[(408, 1)], 4, 0);
    asked("a label of a closed node", &[(16, 3)], 4, 0);
    asked("label 47 of a closed node", &[(392, 2)], 4, 0);
    asked("an arrow to a closed node", &[(16 * 512 + 16, 2)], 4, 16);
    asked("an arrow from a closed node", &[(512 + 24, 1)], 4, 1);
    asked("a wrong head beside", &[(400, 0), (2, 0)], 3, 0);
    tally.same("its bit reads clear", sheet::label_bit(&sheet_u(), 0, 1), Ok(false));
}

/// The label page of U, and the place of 51 for others.
fn closed_pages(tally: &mut Tally) {
    let labels = page(&sheet::read(&sheet_u()), Shown::Labels);
    tally.same("line 48", &labels[64 * 49..64 * 49 + 7], b"48 #.# ".as_slice());
    let arrows = page(&sheet::read(&sheet_u()), Shown::Arrow(0));
    let mut typed = |what: &str, page: &[u8], changes: &[(usize, u8)], number: usize, place: usize| {
        let mut page = page.to_vec();
        changes.iter().for_each(|(at, value)| page[*at] = *value);
        tally.same(what, type_page(&mut sheet_u(), &page), Answer { number, place });
    };
    typed("typed back", &labels, &[], 0, 0);
    typed("another node in use", &labels, &[(64 * 49 + 4, b'#')], 51, 49);
    typed("one node less in use", &labels, &[(64 * 49 + 3, b'.')], 51, 49);
    typed("a label of a closed node", &labels, &[(64 * 6 + 4, b'#'), (64 * 49 + 4, b'#')], 51, 6);
    typed("a label of a node in use", &labels, &[(64 * 6 + 5, b'#')], 0, 0);
    typed("an arrow to a closed node", &arrows, &[(64 * 3 + 4, b'#')], 51, 3);
    typed("an arrow from a closed node", &arrows, &[(64 * 2 + 3, b'#')], 51, 2);
    typed("the label page of before", &labels[..64 * 49], &[], 51, 0);
}

fn closing(tally: &mut Tally) {
    let u = sheet_u();
    let refused = |number, place| Answer { number, place };
    let book = hex("21 01 08 11 00 01 21 01 01");
    let mut bytes = u.clone();
    tally.same("open", (open(&mut bytes, &[], 1), sheet::read(&bytes).in_use), (DONE, vec![true; 3]));
    tally.same("and close", (close(&mut bytes, &[], 1), bytes == u), (DONE, true));
    tally.same("close a closed node, unjudged", (close(&mut bytes, &book, 1), bytes == u), (DONE, true));
    tally.same("open an open node, unjudged", (open(&mut bytes, &book, 0), bytes == u), (DONE, true));
    tally.same("the book before", close(&mut bytes, &hex("23 03 01"), 3), refused(15, 1));
    tally.same("node 3", close(&mut bytes, &[], 3), refused(7, 0));
    tally.same("node 3", open(&mut bytes, &[], usize::MAX), refused(7, 0));
    tally.same("54 before 41", close(&mut bytes, &hex("21 01 02"), 2), refused(54, 2));
    tally.same("an arrow from it", close(&mut with(u.clone(), &[(16, 0)]), &[], 0), refused(54, 0));
    tally.same("an arrow to it", close(&mut with(u.clone(), &[(24, 0)]), &[], 2), refused(54, 2));
    tally.same("the sheet it would leave", open(&mut bytes, &hex("21 01 01 21 01 07 03 00 03 01"), 1), refused(41, 1));
    tally.same("a refusal changes nothing", bytes == u, true);
    let mut one = with(sheet::store(&Graph::blank(2)), &[(400, 2)]);
    tally.same("the only one in use", close(&mut one, &[], 1), refused(54, 1));
    tally.same("judged with it open", open(&mut one.clone(), &hex("27 23 00 01"), 0), refused(41, 0));
    tally.same("or closed", close(&mut sheet::store(&Graph::blank(2)), &hex("23 00 01"), 0), refused(41, 0));
    tally.same("repaired by opening", open(&mut one, &hex("23 00 01"), 0), DONE);
}

/// A store in the words of item 7, byte by byte.
fn stores(tally: &mut Tally) {
    let refused = |number| Answer { number, place: 0 };
    let mut store = vec![0xEE; 61_440];
    let answer = plans::store_blank(&mut store);
    let blank = store.clone();
    let first = [&[4, 0][..], &[0; 506]].concat();
    let head = (&store[..508] == first, &store[508..512], store[512..].iter().all(|byte| *byte == 0));
    // s is 4; t is 4 for each of 508 bytes, 2,032, which leaves 233.
    tally.same("blank store", (answer, head), (DONE, (true, &[4, 0, 233, 0][..], true)));
    tally.same("wrong length", plans::store_blank(&mut store[1..]), refused(55));
    let (t, u) = (sheet_t(), sheet_u());
    tally.same("keep", plans::keep(&t, &mut store, 2), DONE);
    // Name 2 is bit 1: s is 6; t is 2,032 and 2 for each of 507 bytes, 3,046, which leaves 219.
    tally.same("filled", (&store[..2], &store[508..512]), (&[4, 2][..], &[6, 0, 219, 0][..]));
    let around = store[512..512 + 8704].iter().chain(&store[512 + 2 * 8704..]).all(|byte| *byte == 0);
    tally.same("the second place", (store[512 + 8704..512 + 2 * 8704] == t, around), (true, true));
    tally.same("unfilled", plans::give_back(&mut u.clone(), &store, 1, &[]), refused(57));
    tally.same("no name", plans::give_back(&mut u.clone(), &store, 0, &[]), refused(56));
    tally.same("no name", plans::keep(&u, &mut store, 8), refused(56));
    tally.same("the sheet first", plans::keep(&u[1..], &mut store[1..], 8), refused(1));
    let mut present = u.clone();
    tally.same("returned", (plans::give_back(&mut present, &store, 2, &hex(B)), present == t), (DONE, true));
    // Node 1 is closed on U and in use on T: the kept sheet is judged.
    let closed = hex("21 01 01 27 23 01 01");
    let mut present = u.clone();
    let answer = plans::give_back(&mut present, &store, 2, &closed);
    tally.same("judged on the kept sheet", (answer, present == u), (Answer { number: 41, place: 1 }, true));
    let blank_4 = sheet::store(&Graph::blank(4));
    let answer = plans::give_back(&mut blank_4.clone(), &store, 2, &hex("23 03 01"));
    tally.same("read with the kept sheet's n", answer, Answer { number: 15, place: 1 });
    tally.same("keep again", plans::keep(&u, &mut store, 2), DONE);
    tally.same("replaced", plans::give_back(&mut present, &store, 2, &closed), DONE);
    tally.same("keep another", plans::keep(&t, &mut store, 7), DONE);
    let mut worn = store.clone();
    worn[61_439] ^= 1;
    tally.same("a filled sheet", plans::drop(&mut worn, 2), refused(55));
    tally.same("drop", (plans::drop(&mut store, 7), plans::drop(&mut store, 7)), (DONE, refused(57)));
    tally.same("drop the last", (plans::drop(&mut store, 2), store == blank), (DONE, true));
    store[30_000] = 1;
    tally.same("an unfilled place", plans::drop(&mut store, 2), refused(55));
    let mut bit_7 = blank;
    bit_7[1] = 128;
    sheet::seal(&mut bit_7[..BLOCK]);
    tally.same("bit 7", plans::keep(&t, &mut bit_7, 1), refused(55));
}

/// T followed by U, whose nodes are then 3, 4 (closed) and 5; and the totals.
fn two_stations(tally: &mut Tally) {
    let (t, u) = (sheet_t(), sheet_u());
    let mut both = t.clone();
    let answer = join_sheets(&mut both, &u);
    let graph = sheet::read(&both);
    tally.same("joined", (answer, sheet::check(&both), graph.n), (DONE, DONE, 6));
    tally.same("in use", &both[400..402], &[0b101111, 0][..]);
    tally.same("labels 0 and 1", (both[16], both[24]), (0b001011, 0b100100));
    let rows: Vec<u8> = (0..6).map(|i| both[512 + 16 + 8 * i]).collect();
    tally.same("arrow 0", rows, vec![4, 4, 0, 32, 0, 0]);
    let mut other = u.clone();
    tally.same("the other way", (join_sheets(&mut other, &t), other[400], other[16]), (DONE, 0b111101, 0b011001));
    // Each of these holds on both or does not; those of 04, 23, 26 and 27 are outside of what item 8 says.
    let rules = [(B, 0), ("25 21 03 01 02 21 01 01", 41), ("21 01 07 03 00 03 01", 0), ("26 21 01 01 21 01 02", 0)];
    for (rule, number) in rules {
        tally.same(rule, judge(&both, &hex(rule)).answer, Answer { number, place: 0 });
    }
    let sixty = |n: usize, m: usize| {
        let mut first = sheet::store(&Graph::blank(n));
        let before = first.clone();
        let answer = join_sheets(&mut first, &sheet::store(&Graph::blank(m)));
        (answer, first == before, usize::from(first[2]))
    };
    tally.same("60 in all", sixty(59, 1), (DONE, false, 60));
    tally.same("61 in all", sixty(1, 60), (Answer { number: 58, place: 61 }, true, 1));
    tally.same("120 in all", sixty(60, 60), (Answer { number: 58, place: 120 }, true, 60));
    tally.same("the first's questions first", join_sheets(&mut t[1..].to_vec(), &[]), Answer { number: 1, place: 0 });
    let mut damaged = u.clone();
    damaged[8000] ^= 1;
    let mut full = sheet::store(&Graph::blank(60));
    tally.same("then the second's", join_sheets(&mut full, &damaged), Answer { number: 2, place: 15 });
}

/// Q where P's end stood, which is not where a branch ends.
fn chains(tally: &mut Tally) {
    let examples = [
        ("30", "30", "30"),
        ("31 00 01 30", "30", "31 00 01 30"),
        ("30", "31 00 01 30", "31 00 01 30"),
        ("31 00 01 30", "32 00 04 3B 30", "31 00 01 32 00 04 3B 30"),
        ("35 21 01 01 30 30 30", "31 00 01 30", "35 21 01 01 30 30 31 00 01 30"),
        ("35 21 01 01 31 30 01 30 30 30", "30", ""),
        (
            "35 23 00 03 01 31 00 04 02 30 35 21 01 01 30 30 30 30",
            "33 00 12 11 00 30",
            "35 23 00 03 01 31 00 04 02 30 35 21 01 01 30 30 30 33 00 12 11 00 30",
        ),
    ];
    for (p, q, wanted) in examples {
        let mut out = vec![0xEE; 40];
        let found = join_edits(&hex(p), &hex(q), &mut out);
        let wanted = hex(wanted);
        let answer = if wanted.is_empty() { Answer { number: 25, place: 5 } } else { DONE };
        let rest = out[wanted.len()..].iter().all(|byte| *byte == 0xEE);
        let found = (found.answer, found.length, out[..wanted.len()].to_vec(), rest);
        tally.same(p, found, (answer, wanted.len(), wanted, true));
    }
    let refused = |number, place| Answer { number, place };
    let long = [hex("31 00 01").repeat(1365), hex("30")].concat();
    tally.same("4,096 bytes", join_edits(&long, &hex("30"), &mut [0; 4096]).length, 4096);
    let one = hex("31 00 01 30");
    tally.same("4,099 bytes, no room", join_edits(&long, &one, &mut []).answer, refused(21, 0));
    tally.same("no room", join_edits(&one, &one, &mut [0; 6]).answer, refused(33, 7));
    tally.same("P first", join_edits(&hex("30 30"), &[], &mut []).answer, refused(26, 1));
    tally.same("then Q", join_edits(&long, &hex("31 00"), &mut []).answer, refused(22, 2));
}

/// Rules judged one by one, each written over the one before: on T, through an edit that takes label 0 from node 1.
fn rule_by_rule(tally: &mut Tally) {
    let (t, edit) = (sheet_t(), hex("32 00 04 01 30"));
    // Carried they have 13, 5 and 8 bytes; the third is broken.
    let book = hex("21 03 00 03 00 22 11 00 11 00 23 01 03 00");
    let (first, second) = (hex("21 06 03 00 05 04 01 06 03 00 05 04 01"), hex("22 11 00 11 00"));
    let third = hex("23 01 06 03 00 05 04 01");
    let mut entered = |what: &str, book: &[u8], room: usize, answer: Answer, written: Vec<u8>| {
        let (mut after, mut scratch) = (t.clone(), vec![0xEE; room]);
        let found = enter(&mut after, book, &edit, &mut scratch);
        let mut wanted = written;
        wanted.resize(room, 0xEE);
        tally.same(what, (found, after == t, scratch), (answer, answer != DONE, wanted));
    };
    let broken = [&third[..], &first[8..]].concat();
    entered("the third is broken", &book, 20, Answer { number: 41, place: 2 }, broken.clone());
    entered("just enough", &book, 13, Answer { number: 41, place: 2 }, broken);
    entered("one less", &book, 12, Answer { number: 33, place: 13 }, vec![]);
    entered("two rules", &book[..10], 13, DONE, [&second[..], &first[5..]].concat());
    entered("no rule", &[], 0, DONE, vec![]);
    // The longest rule stands after the broken one, and is measured, not written.
    let behind = [&book[10..], &book[..10]].concat();
    entered("broken before the longest", &behind, 13, Answer { number: 41, place: 0 }, third);
    entered("measured before", &behind, 12, Answer { number: 33, place: 13 }, vec![]);
}

/// Each law by itself, and steps that do not fit.
fn laws(tally: &mut Tally) {
    let done = [
        ("23 00 05 05 03 01", "02 00 01", "23 00 03 01"),
        ("23 00 06 03 01 03 01", "02 00 02", "23 00 03 01"),
        ("23 00 07 04 02 04 02", "02 00 03", "23 00 04 02"),
        ("23 00 06 03 01 05 03 01", "02 00 04", "23 00 02"),
        ("23 00 07 01 03 01", "02 00 05", "23 00 01"),
        ("23 00 06 01 03 01", "02 00 06", "23 00 03 01"),
        ("27 27 23 00 01", "00 00 07", "23 00 01"),
        ("26 23 00 01 23 00 01", "00 00 08", "23 00 01"),
        ("23 00 01", "", "23 00 01"),
        // Inside out: 06 E E where E is 05 05 03 01, and once more where it stood.
        ("21 02 06 05 05 03 01 03 01", "03 00 01 02 00 02", "21 02 03 01"),
    ];
    for (rule, steps, sent) in done {
        tally.same(rule, check_steps(&hex(rule), &hex(steps), &hex(sent)), DONE);
    }
    let refused = [
        ("23 00 05 05 03 01", "01 00 01", "", 59, 0),
        ("23 00 05 05 03 01", "03 00 01", "", 59, 0),
        ("23 00 05 05 03 01", "06 00 01", "", 59, 0),
        ("23 00 05 05 03 01", "02 00 00", "", 59, 0),
        ("23 00 05 05 03 01", "02 00 09", "", 59, 0),
        ("23 00 05 05 03 01", "02 00 01 02 00", "23 00 03 01", 59, 1),
        // The first 05 here is an arrow number.
        ("23 05 0B 05 11 05 05 03 01", "05 00 01", "", 59, 0),
        ("23 00 06 03 01 03 02", "02 00 02", "", 59, 0),
        ("23 00 06 03 01 05 03 02", "02 00 04", "", 59, 0),
        ("23 00 07 03 01 01", "02 00 05", "", 59, 0),
        ("23 00 05 05 03 01", "", "23 00 05 03 01", 60, 3),
        ("23 00 05 05 03 01", "02 00 01", "23 00 03 01 00", 60, 4),
        ("23 00 05 05 03 01", "02 00 01", "23 00", 60, 2),
        ("23 00 05 05 03 01 23", "02", "", 16, 6),
        ("", "02", "", 12, 0),
        ("23 3C 01", "02", "", 15, 1),
        ("23 00 0A 00 11 00 01", "02", "", 15, 3),
        ("11 00", "02", "", 13, 0),
    ];
    for (rule, steps, sent, number, place) in refused {
        tally.same(rule, check_steps(&hex(rule), &hex(steps), &hex(sent)), Answer { number, place });
    }
    let deep = |levels: usize| [hex("23 00"), vec![0x05; levels - 2], hex("01")].concat();
    tally.same("255 levels", check_steps(&deep(255), &[], &deep(255)), DONE);
    tally.same("256 levels", check_steps(&deep(256), &[], &deep(256)), Answer { number: 14, place: 256 });
    tally.same("16,385 bytes", check_steps(&[0; 16385], &[], &[]), Answer { number: 11, place: 0 });
}

/// The marked case of item 12, and some whose numbers are easy to work out.
fn counts(tally: &mut Tally) {
    let done = [
        (1, "21 01 03 00", "30", [2, 0, 0, 2]),
        (1, "", "30", [4, 0, 0, 0]),
        (1, "21 01 02", "30", [0, 0, 0, 4]),
        // All nodes have the label: 1 set of 2, 4, 8; 2, 16, 512 sets of arrows.
        (2, "21 01 03 00", "30", [16, 0, 0, 48]),
        (3, "21 01 03 00", "30", [512, 0, 0, 3584]),
        // Given to all, taken from all.
        (2, "21 01 03 00", "31 00 01 30", [16, 0, 48, 0]),
        (2, "21 01 03 00", "32 00 01 30", [0, 16, 0, 48]),
        // Node 0 has an arrow to itself, 32 of 64; then to none.
        (2, "24 00 00 11 00", "34 00 11 00 30", [0, 32, 0, 32]),
        // Taken from node 0 if it has it, else given.
        (1, "23 00 03 00", "35 23 00 03 00 32 00 01 30 31 00 01 30 30", [0, 2, 2, 0]),
    ];
    for (n, book, edit, wanted) in done {
        tally.same(book, count(n, &hex(book), &hex(edit)), Ok(wanted));
    }
    let refused = [
        (0, "FF", "FF", 61, 0),
        (4, "", "30", 61, 0),
        (usize::MAX, "", "30", 61, 0),
        (1, "23 01 01", "FF", 15, 1),
        (1, "21 03 01 01", "FF", 23, 0),
        (1, "21 03 01 01", "30", 61, 0),
        (2, "", "33 01 11 00 30", 61, 0),
        (2, "", "35 21 01 01 30 31 00 08 11 0F 01 30 30", 61, 0),
    ];
    for (n, book, edit, number, place) in refused {
        tally.same(book, count(n, &hex(book), &hex(edit)), Err(Answer { number, place }));
    }
}

/// Games on a blank sheet of two nodes: what the dispatcher and the disruption may do, and who wins after a number of moves.
fn games(tally: &mut Tally) {
    let blank = sheet::store(&Graph::blank(2));
    let played = |book: &str, goal: &str, ours: &[&str], theirs: &[&str], moves: usize| {
        let texts: Vec<Vec<u8>> = ours.iter().chain(theirs).map(|text| hex(text)).collect();
        let lengths: Vec<usize> = texts.iter().map(Vec::len).collect();
        let edits = Edits { bytes: &texts.concat(), lengths: &lengths, dispatchers: ours.len() };
        game::numbers(game::play(&blank, &hex(book), &hex(goal), &edits, moves))
    };
    let (give, take, idle) = ("31 00 04 00 30", "32 00 04 00 30", "30");
    let labelled = "23 00 03 00";
    tally.same("given last", played("", labelled, &[give], &[take], 1), [0, 0, 1, 0]);
    tally.same("taken last", played("", labelled, &[give], &[take], 2), [0, 0, 0, 0]);
    tally.same("given again", played("", labelled, &[idle, give], &[take], 3), [0, 0, 1, 0]);
    tally.same("lowest that forces", played("", labelled, &[idle, give], &[take], 1), [0, 0, 1, 1]);
    tally.same("no disruption", played("", labelled, &[idle, give], &[], 2), [0, 0, 1, 1]);
    tally.same("none to choose from", played("", labelled, &[idle, idle], &[idle, give], 2), [0, 0, 0, 0]);
    tally.same("they must give it", played("", labelled, &[idle, idle], &[give], 2), [0, 0, 1, 0]);
    // The book forbids label 0: giving it cannot be made, so the dispatcher passes, and may only pass then.
    let never = "21 03 00 02";
    tally.same("a pass", played(never, "21 01 01", &[give], &[], 1), [0, 0, 2, 0]);
    tally.same("a pass that loses", played(never, labelled, &[give], &[idle], 2), [0, 0, 0, 0]);
    tally.same("a pass, then theirs", played(never, labelled, &[give], &[give], 2), [0, 0, 2, 0]);
    tally.same("no pass beside an edit", played("", "27 23 00 03 00", &[give], &[], 1), [0, 0, 0, 0]);
    // Once they break the book by giving the label, no edit of ours can be made except one that takes it.
    tally.same("theirs without the book", played(never, labelled, &[idle], &[give], 3), [0, 0, 1, 0]);
    tally.same("ours under it", played(never, labelled, &[take], &[give], 3), [0, 0, 0, 0]);
    // The given sheet need not keep the book.
    tally.same("repaired", played("21 01 03 00", "23 01 03 00", &[give, "31 00 01 30"], &[], 1), [0, 0, 1, 1]);
    let four = ["30"; 5];
    tally.same("no dispatcher", played("FF", "", &[], &[], 1), [62, 0, 3, 0]);
    tally.same("five dispatchers", played("FF", "", &four, &[], 1), [62, 0, 3, 0]);
    tally.same("five disruptions", played("FF", "", &["30"], &four, 1), [62, 0, 3, 0]);
    tally.same("no move", played("FF", "", &["30"], &[], 0), [62, 0, 3, 0]);
    tally.same("seven moves", played("FF", "", &["30"], &[], 7), [62, 0, 3, 0]);
    tally.same("book", played("FF", "", &["FF"], &[], 1), [13, 0, 3, 0]);
    tally.same("no goal", played("", "", &["FF"], &[], 1), [12, 0, 3, 0]);
    tally.same("two goals", played("", "21 01 01 21 01 01", &["FF"], &[], 1), [16, 3, 3, 0]);
    tally.same("a goal of node 2", played("", "23 02 01", &["FF"], &[], 1), [15, 1, 3, 0]);
    tally.same("our second edit", played("", labelled, &["30", "30 30"], &["FF"], 1), [26, 1, 3, 1]);
    tally.same("their edit", played("", labelled, &["30"], &["FF"], 1), [23, 0, 3, 1]);
    let deep = ["31 00 02 "; 255].concat() + "30";
    tally.same("too deep for ours", played(labelled, labelled, &["30", &deep], &[], 1), [32, 0, 3, 1]);
    tally.same("not asked of theirs", played(labelled, labelled, &[give], &[&deep], 1), [0, 0, 1, 0]);
    // The lengths together are that of the bytes: no text is cut off, and none is left over.
    for lengths in [[4, 4], [4, 0], [5, usize::MAX], [usize::MAX, 6]] {
        let wrong = Edits { bytes: &hex("31 00 01 30 30"), lengths: &lengths, dispatchers: 1 };
        let found = game::numbers(game::play(&blank, &[], &hex(labelled), &wrong, 1));
        tally.same("lengths that do not fill the bytes", found, [62, 0, 3, 0]);
    }
}

const NAMES: &str =
    "label 0 train label 1 Gleis-3 arrow 0 stands-at arrow 15 label node 34 T34 node 2 4711 node 7 08:15";

/// Tables: the first wrong token, or the length where one is missing.
fn tables(tally: &mut Tally) {
    let name = "n".repeat(64);
    for names in
        ["", "# label", "label 0 label arrow 0 arrow node 0 node", "node 59 59#\nlabel 47\t47\rarrow 15 \u{fc}", NAMES]
    {
        tally.same(names, words::check_names(names.as_bytes()), DONE);
    }
    tally.same("64 bytes", words::check_names(format!("node 0 {name}").as_bytes()), DONE);
    let wrong = [
        ("train 0", 0),
        ("label", 5),
        ("label 0", 7),
        ("label 0 # train", 15),
        ("label 48", 6),
        ("arrow 16 a", 6),
        ("node 60 a", 5),
        ("node 07 a", 5),
        ("node +7 a", 5),
        ("label 0 a label 0 b", 16),
        ("label 0 a node 0 a", 17),
        ("label 0 every", 8),
        ("label 0 end", 8),
        ("label 0 (", 8),
        ("label 0 node:x", 8),
        ("label 0 a\u{7f}", 8),
        ("label 0 a\u{1f}b", 8),
        ("label,", 5),
    ];
    for (names, place) in wrong {
        tally.same(names, words::check_names(names.as_bytes()), Answer { number: 63, place });
    }
    tally.same("65 bytes", words::check_names(format!("node 0 {name}n").as_bytes()), Answer { number: 63, place: 7 });
}

/// What is printed, and that it is read back.
fn printed(tally: &mut Tally) {
    let texts = |found: Lengthy, out: &[u8]| (found.answer, String::from_utf8_lossy(&out[..found.length]).into_owned());
    let books = [
        ("", ""),
        ("21 03 00 0B 3B 12 11 00 04 22", "each(train, at-most(59, reversed(stands-at), T34))\n"),
        ("23 22 01 24 02 07 11 0F", "is(T34, all)\njoined(4711, 08:15, label)\n"),
        (
            "27 26 22 11 01 17 00 22 21 03 02 02",
            "not(or(each-arrow(arrow:1, pair(node:0, T34)), each(label:2, none)))\n",
        ),
    ];
    for (book, wanted) in books {
        let (mut out, mut back) = ([0; 200], [0; 200]);
        let found = words::book_to_words(NAMES.as_bytes(), &hex(book), &mut out);
        tally.same(book, texts(found, &out), (DONE, wanted.to_string()));
        let found = words::book_from_words(NAMES.as_bytes(), &out[..found.length], &mut back);
        tally.same(wanted, back[..found.length].to_vec(), hex(book));
    }
    let branch = "35 23 22 01 31 00 01 35 21 01 01 30 33 00 16 11 00 02 30 30 32 01 02 34 00 13 11 00 14 11 00 15 11 00 11 00 30 30";
    let lines = "if(is(T34, all))\n  mark(train, all)\n  if(each(all, all))\n  else\n    add(stands-at, to(stands-at, none))\n  end\nelse\n  \
                 unmark(Gleis-3, none)\n  take(stands-at, or(stands-at, and(stands-at, without(stands-at, stands-at))))\nend\n";
    for (edit, wanted) in [("30", ""), (branch, lines)] {
        let (mut out, mut back) = ([0; 300], [0; 200]);
        let found = words::edit_to_words(NAMES.as_bytes(), &hex(edit), &mut out);
        tally.same(edit, texts(found, &out), (DONE, wanted.to_string()));
        let found = words::edit_from_words(NAMES.as_bytes(), &out[..found.length], &mut back);
        tally.same(wanted, back[..found.length].to_vec(), hex(edit));
    }
    let mut out = [0; 100];
    let found = words::rule_to_words(b"", &hex("23 00 08 11 00 0A 3C 11 01 07 03 00 06 01 09 11 00 01 FF"), &mut out);
    let wanted = "is(node:0, some(arrow:0, at-least(60, arrow:1, or(label:0, and(all, every(arrow:0, all))))))\n";
    tally.same("first rule", texts(found, &out), (DONE, wanted.to_string()));
    let short = words::rule_to_words(b"", &hex("23 00 01"), &mut out[..15]).answer;
    tally.same("a short output", short, Answer { number: 33, place: 16 });
}

/// Faults of a book's words.
fn misspelled_books(tally: &mut Tally) {
    let book = |words: &str| words::book_from_words(NAMES.as_bytes(), words.as_bytes(), &mut [0; 5000]).answer;
    let deep = |levels: usize| format!("is(T34, {}all{})", "not(".repeat(levels - 2), ")".repeat(levels - 2));
    let books = [
        ("each(", 64, 5),
        ("each(train # , all)", 64, 19),
        ("train", 65, 0),
        ("each(stands-at, all)", 65, 5),
        ("each(label:0, all)", 65, 5),
        ("each(label:48, all)", 65, 5),
        ("each(T34, train))", 65, 16),
        ("each all", 66, 5),
        ("each(all(, all)", 66, 8),
        ("is(train, all)", 67, 3),
        ("each(all, at-least(0, stands-at, all))", 67, 19),
        ("each(all, at-most(60, stands-at, all))", 67, 18),
        ("each(all, at-most(06, stands-at, all))", 67, 18),
    ];
    for (words, number, place) in books {
        tally.same(words, book(words), Answer { number, place });
    }
    tally.same("32 levels", book(&deep(32)), DONE);
    tally.same("33 levels", book(&deep(33)), Answer { number: 68, place: 8 + 4 * 31 });
    tally.same(
        "33 levels, and no word there",
        book(&deep(33).replace("all", "to")),
        Answer { number: 65, place: 8 + 4 * 31 },
    );
    tally.same("32 rules", book(&"each(all,all)".repeat(32)), DONE);
    tally.same("33 rules", book(&"each(all,all)".repeat(33)), Answer { number: 69, place: 13 * 32 });
}

/// Those of an edit's.
fn misspelled_edits(tally: &mut Tally) {
    let edit = |words: &str| words::edit_from_words(NAMES.as_bytes(), words.as_bytes(), &mut [0; 5000]).answer;
    let mark = "mark(train,all)";
    tally.same("4,096 bytes", edit(&mark.repeat(1365)), DONE);
    tally.same("4,099 bytes", edit(&mark.repeat(1366)), Answer { number: 70, place: 4099 });
    let branch = "if(each(all, all)) mark(train, all) else";
    for (words, number, place) in [(branch, 64, 40), ("end", 65, 0), ("else", 65, 0), ("mark(stands-at, all)", 67, 5)] {
        tally.same(words, edit(words), Answer { number, place });
    }
    tally.same("else twice", edit(&format!("{branch} else end")), Answer { number: 65, place: 41 });
    tally.same("end twice", edit(&format!("{branch} end end")), Answer { number: 65, place: 45 });
    tally.same("the branch", edit(&format!("{branch} end")), DONE);
}

fn rules_in_words(tally: &mut Tally) {
    let place = |words: &str, rule| words::rule_in_words(NAMES.as_bytes(), words.as_bytes(), rule);
    let words = "# first\neach(all, all)\n\nis(T34, all) #\n train";
    tally.same("rules in words", [0, 1, 2, 3, 32].map(|rule| place(words, rule)), [8, 24, 40, 45, 45]);
    tally.same("of a wrong table", words::rule_in_words(b"label", b"each", 0), 4);
    tally.same("rule 32", [31, 32].map(|rule| place(&"each(all,all)".repeat(33), rule)), [13 * 31, 13 * 33]);
}

/// None of these may take exponential time.
fn explosions(tally: &mut Tally) {
    let rule = hex("23 00 03 00");
    let branches = [hex("35 21 01 01 30 30").repeat(682), hex("30")].concat();
    let growing = [hex("31 00 01").repeat(1365), hex("30")].concat();
    let doubling = [hex("31 00 03 00").repeat(1023), hex("30")].concat();
    let idle = [hex("35 21 01 01 30 30").repeat(10), hex("31 01 01").repeat(1345 - 20), hex("30")].concat();
    let answer = |book: &[u8], edit: &[u8]| carry_back(book, edit, &mut [0; 16384]).answer.number;
    tally.same("empty book", answer(&[], &branches), 0);
    tally.same("682 branches", answer(&rule, &branches), 31);
    tally.same("1,365 steps", answer(&rule, &growing), 32);
    tally.same("1,023 doublings", answer(&rule, &doubling), 31);
    tally.same("ten branches, then idle steps", answer(&rule, &idle), 0);
}

fn main() {
    let mut tally = Tally { passed: 0, failed: 0 };
    meanings(&mut tally);
    rewritten(&mut tally);
    carrying(&mut tally);
    entering(&mut tally);
    reading(&mut tally);
    check_bytes(&mut tally);
    sheets(&mut tally);
    cards(&mut tally);
    pages_of_t(&mut tally);
    closed_meanings(&mut tally);
    closed_sheets(&mut tally);
    closed_pages(&mut tally);
    closing(&mut tally);
    stores(&mut tally);
    two_stations(&mut tally);
    chains(&mut tally);
    rule_by_rule(&mut tally);
    laws(&mut tally);
    counts(&mut tally);
    games(&mut tally);
    tables(&mut tally);
    printed(&mut tally);
    misspelled_books(&mut tally);
    misspelled_edits(&mut tally);
    rules_in_words(&mut tally);
    explosions(&mut tally);
    println!("{} passed, {} failed", tally.passed, tally.failed);
    std::process::exit(i32::from(tally.failed > 0));
}
