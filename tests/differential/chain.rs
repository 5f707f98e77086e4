//! Edits joined by the library, compared with the reference; and what item 9 says about carrying a book back through them and about the
//! sheets that they leave, by the library's own calls.

use common::compare::{Lent, Outcome, Tally};
use common::library::{zamiathen_apply, zamiathen_carry_back, zamiathen_enter, zamiathen_join_edits};
use common::random::Random;
use common::terms::{self, Names};
use common::{graphs, limits, texts};
use reference::answer::{Answer, DONE};
use reference::carry::CARRIED_BYTES;
use reference::meaning::holds;
use reference::syntax::{Coded, Rule};
use reference::{chain, sheet};

const LONGEST: usize = 4096;

/// The library's call against these numbers and this output.
fn known(tally: &mut Tally, what: &'static str, p: &[u8], q: &[u8], before: &[u8], numbers: &[usize], after: &[u8]) {
    let (first, second, mut output) = (Lent::of(p), Lent::of(q), Lent::of(before));
    let found = unsafe {
        zamiathen_join_edits(first.ptr(), first.len(), second.ptr(), second.len(), output.mut_ptr(), output.len())
    };
    let found = Outcome::new(&[found.number, found.place, found.length], vec![first, second, output]);
    let wanted = Outcome::new(numbers, vec![Lent::of(p), Lent::of(q), Lent::of(after)]);
    tally.compare(what, &found, &wanted, &[("P", p), ("Q", q), ("room", &before.len().to_le_bytes())]);
}

/// Both sides, with an output of this many bytes.
fn compare(tally: &mut Tally, p: &[u8], q: &[u8], room: usize) {
    let before = vec![0x5A; room];
    let mut after = before.clone();
    let wanted = chain::join_edits(p, q, &mut after);
    known(tally, "join edits", p, q, &before, &[wanted.answer.number, wanted.answer.place, wanted.length], &after);
}

/// Two sound edits with outputs too short by one, just long enough and longer; known without the reference: P without its last
/// byte, then Q. Gives them joined, if they do.
fn rooms(tally: &mut Tally, p: &[u8], q: &[u8]) -> Option<Vec<u8>> {
    let text = [&p[..p.len() - 1], q].concat();
    for room in [0, text.len() - 1, text.len(), text.len() + 1, LONGEST, LONGEST + 99] {
        let before = vec![0x5A; room];
        let mut after = before.clone();
        let numbers = match text.len() {
            length if length > LONGEST => [21, 0, 0],
            length if length > room => [33, length, 0],
            length => {
                after[..length].copy_from_slice(&text);
                [0, 0, length]
            }
        };
        known(tally, "rooms", p, q, &before, &numbers, &after);
        compare(tally, p, q, room);
    }
    (text.len() <= LONGEST).then_some(text)
}

/// Branches at the end of P, in both ways and inside each other; edits that are an end alone; steps of each kind.
const EDITS: [&[u8]; 10] = [
    &[0x30],
    &[0x31, 0x00, 0x01, 0x30],
    &[0x32, 0x2F, 0x04, 0x3B, 0x30],
    &[0x33, 0x00, 0x12, 0x11, 0x00, 0x30],
    &[0x34, 0x0F, 0x17, 0x30, 0x30, 0x30],
    &[0x35, 0x21, 0x01, 0x01, 0x30, 0x30, 0x30],
    &[0x35, 0x23, 0x00, 0x03, 0x2F, 0x31, 0x00, 0x01, 0x30, 0x32, 0x00, 0x01, 0x30, 0x30],
    &[0x31, 0x01, 0x01, 0x35, 0x21, 0x01, 0x01, 0x30, 0x35, 0x21, 0x01, 0x02, 0x30, 0x30, 0x30, 0x30],
    &[0x35, 0x21, 0x01, 0x01, 0x35, 0x21, 0x01, 0x02, 0x30, 0x30, 0x30, 0x30, 0x32, 0x01, 0x01, 0x30],
    &[0x35, 0x24, 0x30, 0x30, 0x17, 0x30, 0x30, 0x30, 0x30, 0x30],
];

fn pairs_of_edits(tally: &mut Tally) {
    for p in EDITS {
        for q in EDITS {
            rooms(tally, p, q);
        }
    }
}

/// Edits that have 4,094 to 4,099 bytes when joined, and two that are as long as can be.
fn lengths(tally: &mut Tally) {
    for total in LONGEST - 2..=LONGEST + 3 {
        for first in [1, 5, 6, 7, 500, 2048, total - 6, total - 4, LONGEST.min(total)] {
            let p = if first < 5 { vec![0x30] } else { limits::long_edit(first) };
            let second = total + 1 - first;
            let q = if second < 5 { vec![0x30] } else { limits::long_edit(second.min(LONGEST)) };
            rooms(tally, &p, &q);
        }
    }
    let branches = [[0x35, 0x21, 0x01, 0x01, 0x30, 0x30].repeat(682), vec![0x30]].concat();
    rooms(tally, &branches, &EDITS[1][..]);
    rooms(tally, &branches, &EDITS[0][..]);
    rooms(tally, &EDITS[5][..], &branches);
    rooms(tally, &limits::long_edit(LONGEST), &limits::long_edit(LONGEST));
    // Z is on the level of its step: as many steps as there are bytes for.
    rooms(
        tally,
        &[[0x31, 0x00, 0x01].repeat(700), vec![0x30]].concat(),
        &[[0x31, 0x00, 0x01].repeat(665), vec![0x30]].concat(),
    );
}

/// Edits with each fault, and one with none that is short and one that is long.
fn faulty_edits() -> Vec<(Vec<u8>, Answer)> {
    let refused = |number, place| Answer { number, place };
    vec![
        (EDITS[5].to_vec(), DONE),
        (limits::long_edit(LONGEST), DONE),
        (limits::long_edit(LONGEST + 1), refused(21, 0)),
        (vec![0x36; LONGEST + 1], refused(21, 0)),
        (vec![], refused(22, 0)),
        (vec![0x31, 0x00, 0x01], refused(22, 3)),
        (vec![0x31, 0x00, 0x11, 0x00, 0x30], refused(23, 2)),
        ([vec![0x31, 0x00], vec![0x05; 31], vec![0x01, 0x30]].concat(), refused(24, 33)),
        (vec![0x31, 0x00, 0x04, 0x3C, 0x30], refused(25, 3)),
        (vec![0x31, 0x00, 0x0A, 0x00, 0x11, 0x00, 0x01, 0x30], refused(25, 3)),
        (vec![0x30, 0x30], refused(26, 1)),
        (vec![0x35, 0x21, 0x01, 0x01, 0x30, 0x30, 0x30, 0xFF], refused(26, 7)),
    ]
}

/// Every question in its place: each fault of P before each of Q before the length before the room. Known without the reference.
fn orders(tally: &mut Tally) {
    for (p, p_answer) in faulty_edits() {
        for (q, q_answer) in faulty_edits() {
            for room in [0, 12, 13, LONGEST, 2 * LONGEST] {
                let before = vec![0x5A; room];
                let mut after = before.clone();
                let length = (p.len() + q.len()).saturating_sub(1);
                let answer = [p_answer, q_answer].into_iter().find(|answer| *answer != DONE);
                let numbers = match answer {
                    Some(answer) => [answer.number, answer.place, 0],
                    None if length > LONGEST => [21, 0, 0],
                    None if length > room => [33, length, 0],
                    None => {
                        after[..length].copy_from_slice(&[&p[..p.len() - 1], &q].concat());
                        [0, 0, length]
                    }
                };
                known(tally, "orders of join edits", &p, &q, &before, &numbers, &after);
            }
        }
    }
}

/// Any two texts.
fn random_texts(tally: &mut Tally, rounds: usize) {
    let mut random = Random::new(91);
    for _ in 0..rounds {
        let [p, q] =
            [0; 2].map(|_| if random.one_in(2) { some_edit(&mut random) } else { texts::any(&mut random, 60) });
        let room = (p.len() + q.len()).saturating_sub(random.below(4));
        compare(tally, &p, &q, room);
    }
}

fn some_edit(random: &mut Random) -> Vec<u8> {
    let names = Names::some(random, 60);
    edit_of(random, names)
}

fn edit_of(random: &mut Random, names: Names) -> Vec<u8> {
    let steps = random.pick(&[0, 1, 1, 1, 2, 2, 3, 4]);
    let levels = 2 + random.below(3);
    terms::edit(random, names, steps, levels).code()
}

fn carry_back(book: &[u8], edit: &[u8], room: usize) -> ([usize; 3], Vec<u8>) {
    let mut output = vec![0x5A; room];
    let found = unsafe {
        let out = output.as_mut_ptr();
        zamiathen_carry_back(book.as_ptr(), book.len(), edit.as_ptr(), edit.len(), out, room)
    };
    ([found.number, found.place, found.length], output)
}

fn apply(bytes: &mut [u8], edit: &[u8]) -> usize {
    unsafe { zamiathen_apply(bytes.as_mut_ptr(), bytes.len(), edit.as_ptr(), edit.len()) }.number
}

fn enter(bytes: &mut [u8], book: &[u8], edit: &[u8]) -> usize {
    let mut scratch = vec![0; CARRIED_BYTES];
    unsafe {
        zamiathen_enter(
            bytes.as_mut_ptr(),
            bytes.len(),
            book.as_ptr(),
            book.len(),
            edit.as_ptr(),
            edit.len(),
            scratch.as_mut_ptr(),
            scratch.len(),
        )
    }
    .number
}

/// Where the text carried through Q keeps a book's own limits: a book carried through the joined edit is that text carried through
/// P, in answer and bytes.
fn carried(tally: &mut Tally, book: &[u8], [p, q, joined]: [&[u8]; 3], rooms: &[usize]) {
    let (numbers, text) = carry_back(book, q, CARRIED_BYTES);
    if numbers[0] != 0 {
        return;
    }
    let text = &text[..numbers[2]];
    for room in rooms {
        let (wanted, output) = carry_back(text, p, *room);
        if wanted[0] == 11 || wanted[0] == 14 {
            return;
        }
        let (found, other) = carry_back(book, joined, *room);
        let outcome = |numbers: &[usize], bytes: Vec<u8>| Outcome::new(numbers, vec![Lent::of(&bytes)]);
        let inputs = [("book", book), ("P", p), ("Q", q)];
        tally.compare("carried", &outcome(&found, other), &outcome(&wanted, output), &inputs);
    }
}

/// The joined edit leaves the sheet that P and then Q leave; and where each is entered, so is the joined one, with the same sheet.
fn sheets(tally: &mut Tally, bytes: &[u8], book: &[u8], [p, q, joined]: [&[u8]; 3]) {
    let inputs = [("sheet", bytes), ("book", book), ("P", p), ("Q", q)];
    let (mut one, mut two) = (bytes.to_vec(), bytes.to_vec());
    let wanted = [apply(&mut two, p), apply(&mut two, q)];
    let found = [apply(&mut one, joined), 0];
    let outcome = |numbers: &[usize], bytes: Vec<u8>| Outcome::new(numbers, vec![Lent::of(&bytes)]);
    tally.compare("sheets", &outcome(&found, one), &outcome(&wanted, two), &inputs);
    let mut two = bytes.to_vec();
    if enter(&mut two, book, p) == 0 && enter(&mut two, book, q) == 0 {
        let mut one = bytes.to_vec();
        let number = enter(&mut one, book, joined);
        if number != 31 && number != 32 {
            tally.compare("entered", &outcome(&[number], one), &outcome(&[0], two), &inputs);
        }
    }
}

/// A book that the sheet keeps, and two edits that join.
fn laws(tally: &mut Tally, rounds: usize) {
    let mut random = Random::new(92);
    for _ in 0..rounds {
        let n = 1 + random.below(6);
        let names = Names { n, labels: 1 + random.below(2), arrows: 1 + random.below(2) };
        let graph = graphs::graph(&mut random, names);
        let mut rules = terms::book(&mut random, names, 4);
        for rule in &mut rules {
            if !holds(&graph, rule) {
                *rule = Rule::Not(Box::new(rule.clone()));
            }
        }
        let book = terms::book_code(&rules);
        let (p, q) = (edit_of(&mut random, names), edit_of(&mut random, names));
        let Some(joined) = rooms(tally, &p, &q) else { continue };
        let edits = [&p[..], &q, &joined];
        let needed = carry_back(&book, &joined, CARRIED_BYTES).0[2];
        carried(tally, &book, edits, &[CARRIED_BYTES, needed, needed.saturating_sub(1)]);
        sheets(tally, &sheet::store(&graph), &book, edits);
    }
}

/// Carried books that are long or deep by P and Q together, around 16,384 bytes and 255 levels; conditions of a 35 in both.
fn great_laws(tally: &mut Tally) {
    let label = [0x23, 0x00, 0x03, 0x00];
    let adds = |step: &[u8], count: usize| [step.repeat(count), vec![0x30]].concat();
    let mut edits = vec![];
    for count in [0, 1, 5, 29, 30, 31, 222, 224, 225, 226, 253] {
        edits.push(adds(&[0x31, 0x00, 0x01], count));
        edits.push(adds(&[0x32, 0x00, 0x01], count / 2));
    }
    for count in 0..=11 {
        edits.push(adds(&[0x31, 0x00, 0x03, 0x00], count));
        edits.push(adds(&[0x35, 0x23, 0x00, 0x03, 0x00, 0x31, 0x00, 0x04, 0x00, 0x30, 0x30], count));
    }
    for p in &edits {
        for q in &edits {
            let joined = [&p[..p.len() - 1], q].concat();
            carried(tally, &label, [p, q, &joined], &[CARRIED_BYTES, 100]);
        }
    }
}

/// Entered as one, but not one after the other: example 9 of document 01, whose first step breaks B.
fn not_the_other_way(tally: &mut Tally) {
    let book = [0x21, 0x03, 0x00, 0x08, 0x11, 0x00, 0x03, 0x01];
    let mut graph = reference::graph::Graph::blank(3);
    graph.labels[0] = vec![true, true, false];
    graph.labels[1] = vec![false, false, true];
    graph.arrows[0] = reference::graph::Pairs::new(3, |i, j| i < 2 && j == 2);
    let t = sheet::store(&graph);
    let (p, q) = ([0x32, 0x01, 0x04, 0x02, 0x30], [0x31, 0x01, 0x04, 0x02, 0x30]);
    let joined = rooms(tally, &p, &q).expect("they join");
    let found = [enter(&mut t.clone(), &book, &joined), enter(&mut t.clone(), &book, &p)];
    tally.compare("example 9", &Outcome::new(&found, vec![]), &Outcome::new(&[0, 41], vec![]), &[("joined", &joined)]);
}

fn main() {
    let mut tally = Tally::new();
    pairs_of_edits(&mut tally);
    lengths(&mut tally);
    orders(&mut tally);
    random_texts(&mut tally, 20_000);
    laws(&mut tally, 12_000);
    great_laws(&mut tally);
    not_the_other_way(&mut tally);
    for what in ["rooms", "join edits", "orders of join edits"] {
        tally.all_reached(what, &[0, 21, 33]);
    }
    tally.all_reached("carried", &[0, 31, 32, 33]);
    tally.all_reached("entered", &[0]);
    tally.finish(&[0, 21, 22, 23, 24, 25, 26, 31, 32, 33]);
}
