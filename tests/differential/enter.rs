//! Enter, carry back and apply of the library, compared with the reference: answers and all bytes of all buffers.

use common::compare::{self, Lent, Outcome, Tally};
use common::library::{zamiathen_apply, zamiathen_carry_back};
use common::random::Random;
use common::terms::{self, Names};
use common::{carried, damage, graphs, limits, texts};
use reference::answer::DONE;
use reference::calls;
use reference::carry::{carry, CARRIED_BYTES};
use reference::clerk::Clerk;
use reference::graph::{Graph, Pairs};
use reference::meaning::{first_broken, holds};
use reference::syntax::{Coded, Node, Rule};
use reference::{reader, sheet, witness};

/// What a call of enter takes.
struct Call<'c> {
    sheet: &'c [u8],
    book: &'c [u8],
    edit: &'c [u8],
    scratch: &'c [u8],
}

impl Call<'_> {
    fn library(&self) -> Outcome {
        let (numbers, lent) = compare::enter(self.sheet, self.book, self.edit, self.scratch);
        Outcome::new(&numbers, lent.into())
    }

    fn reference(&self) -> Outcome {
        let (mut bytes, mut scratch) = (self.sheet.to_vec(), self.scratch.to_vec());
        let answer = calls::enter(&mut bytes, self.book, self.edit, &mut scratch);
        Outcome::of_answer(answer, vec![Lent::of(&bytes), Lent::of(self.book), Lent::of(self.edit), Lent::of(&scratch)])
    }

    fn inputs(&self) -> [(&str, &[u8]); 4] {
        [("sheet", self.sheet), ("book", self.book), ("edit", self.edit), ("scratch", self.scratch)]
    }

    fn compare(&self, tally: &mut Tally) {
        let wanted = self.reference();
        tally.compare("enter", &self.library(), &wanted, &self.inputs());
        if wanted.numbers[0] == 41 {
            foretold(tally, self, wanted.numbers[1]);
        }
    }
}

/// After 41 the scratch names, on the sheet before, who would break the rule on the sheet after the edit.
fn foretold(tally: &mut Tally, call: &Call, place: usize) {
    let (mut bytes, mut scratch) = (call.sheet.to_vec(), call.scratch.to_vec());
    calls::enter(&mut bytes, call.book, call.edit, &mut scratch);
    let after = calls::apply_on(&sheet::read(&bytes), call.edit).expect("the edit was read");
    let rules = reader::book(call.book, after.n).expect("the book was read");
    let told = witness::witness(&after, &rules[place].rule);
    assert!(told.kind > 0, "the rule is broken after the edit");
    compare::witness(tally, "witness after 41", &bytes, &scratch, (DONE, told));
}

/// Gives the length of the carried book, which is 0 when it is refused.
fn carry_back(tally: &mut Tally, book: &[u8], edit: &[u8], out: &[u8]) -> usize {
    let (lent_book, lent_edit, mut lent) = (Lent::of(book), Lent::of(edit), Lent::of(out));
    let found = unsafe {
        zamiathen_carry_back(
            lent_book.ptr(),
            lent_book.len(),
            lent_edit.ptr(),
            lent_edit.len(),
            lent.mut_ptr(),
            lent.len(),
        )
    };
    let found = Outcome::new(&[found.number, found.place, found.length], vec![lent_book, lent_edit, lent]);
    let mut buffer = out.to_vec();
    let carried = calls::carry_back(book, edit, &mut buffer);
    let numbers = [carried.answer.number, carried.answer.place, carried.length];
    let wanted = Outcome::new(&numbers, vec![Lent::of(book), Lent::of(edit), Lent::of(&buffer)]);
    tally.compare("carry back", &found, &wanted, &[("book", book), ("edit", edit), ("output", out)]);
    carried.length
}

fn apply(tally: &mut Tally, bytes: &[u8], edit: &[u8]) {
    let (mut lent, lent_edit) = (Lent::of(bytes), Lent::of(edit));
    let found = unsafe { zamiathen_apply(lent.mut_ptr(), lent.len(), lent_edit.ptr(), lent_edit.len()) };
    let found = Outcome::new(&[found.number, found.place], vec![lent, lent_edit]);
    let mut buffer = bytes.to_vec();
    let answer = calls::apply(&mut buffer, edit);
    let wanted = Outcome::of_answer(answer, vec![Lent::of(&buffer), Lent::of(edit)]);
    tally.compare("apply", &found, &wanted, &[("sheet", bytes), ("edit", edit)]);
}

/// The length of the longest carried rule of a book, which is all that enter needs; 0 when there is none.
fn longest(book: &[u8], edit: &[u8]) -> usize {
    let (Ok(rules), Ok(steps)) = (reader::book(book, 60), reader::edit(edit, 60)) else { return 0 };
    carry(rules.iter().map(|placed| &placed.rule), &steps).map_or(0, |carried| carried.longest())
}

/// A scratch with room to spare, of the length needed, one byte short, of the whole carried book, or of another length.
fn scratch(random: &mut Random, needed: usize, whole: usize) -> Vec<u8> {
    let length = match random.below(16) {
        0..=1 => needed,
        2..=3 => needed.saturating_sub(1),
        4 => needed + 1,
        5 => random.below(needed + 2),
        6 => 0,
        7 => whole,
        8 => whole.saturating_sub(1),
        9 => random.below(whole + 2),
        _ => whole + random.below(200),
    };
    random.bytes(length)
}

/// A sheet, and a book that it mostly keeps.
struct Opening {
    graph: Graph,
    names: Names,
    rules: Vec<Rule>,
}

fn opening(random: &mut Random, broken_one_in: usize) -> Opening {
    let n = graphs::node_count(random);
    let names = Names::some(random, n);
    let graph = graphs::graph(random, names);
    let most = terms::some_rules(random).min(30);
    let mut rules = terms::book(random, names, most);
    for rule in &mut rules {
        if !holds(&graph, rule) && !random.one_in(broken_one_in) {
            *rule = Rule::Not(Box::new(rule.clone()));
        }
    }
    for _ in 0..random.below(3) {
        rules.insert(random.below(rules.len() + 1), watch(random, &graph, names));
    }
    Opening { graph, names, rules }
}

/// A rule that holds as long as a label gets no other node, or as long as it loses none.
fn watch(random: &mut Random, graph: &Graph, names: Names) -> Rule {
    let k = random.below(names.labels);
    let members: Vec<u8> = (0..graph.n).filter(|i| graph.labels[k][*i]).map(|i| i as u8).collect();
    let (label, only) = (Node::Label(k as u8), any_of(&members));
    if random.one_in(2) {
        Rule::Nodes(label, only)
    } else {
        Rule::Nodes(only, label)
    }
}

/// Just these nodes.
fn any_of(nodes: &[u8]) -> Node {
    match nodes {
        [] => Node::Nothing,
        [i] => Node::Only(*i),
        _ => {
            let (first, second) = nodes.split_at(nodes.len() / 2);
            Node::Or(Box::new(any_of(first)), Box::new(any_of(second)))
        }
    }
}

fn some_edit(random: &mut Random, names: Names) -> Vec<u8> {
    let steps = random.pick(&[0, 1, 1, 1, 2, 2, 2, 2, 3, 3, 4, 5, 6, 12]);
    let levels = terms::some_levels(random);
    let text = terms::edit(random, names, steps, levels).code();
    match random.below(12) {
        0 => texts::damaged(random, text),
        _ => text,
    }
}

/// Theorem 4.2 on the reference: the carried rules hold before exactly when the rules hold after.
fn theorem(opening: &Opening, edit: &[u8]) {
    let mut clerk = Clerk::new(opening.graph.clone(), reader::book(&terms::book_code(&opening.rules), 60).unwrap());
    let called = clerk.call(edit, CARRIED_BYTES);
    if let Some(carried) = called.carried {
        let broken = first_broken(&opening.graph, carried.rules.iter());
        let answered = (called.answer.number == 41).then_some(called.answer.place);
        assert_eq!(broken, answered, "the reference judges alike before and after {edit:02X?}");
    }
}

/// An output that is always long enough.
const OUTPUT: [u8; CARRIED_BYTES] = [0xEE; CARRIED_BYTES];

/// Carry back with room to spare, enter with the scratch that is given back, and apply.
fn all_three(tally: &mut Tally, random: &mut Random, bytes: &[u8], book: &[u8], edit: &[u8]) -> Vec<u8> {
    let whole = carry_back(tally, book, edit, &OUTPUT);
    let scratch = scratch(random, longest(book, edit), whole);
    Call { sheet: bytes, book, edit, scratch: &scratch }.compare(tally);
    apply(tally, bytes, edit);
    scratch
}

/// Single calls, refused ones too.
fn single_calls(tally: &mut Tally, rounds: usize) {
    let mut random = Random::new(31);
    for round in 0..rounds {
        let opening = opening(&mut random, 40);
        let bytes = sheet::store(&opening.graph);
        let book = terms::book_code(&opening.rules);
        for _ in 0..8 {
            let edit = some_edit(&mut random, opening.names);
            let scratch = all_three(tally, &mut random, &bytes, &book, &edit);
            if round % 4 == 0 {
                carry_back(tally, &book, &edit, &scratch);
            }
            if round % 8 == 0 {
                theorem(&opening, &edit);
            }
        }
        faulty_call(tally, &mut random, &bytes, &book, opening.names);
    }
}

/// A call with a fault in one or more of its inputs.
fn faulty_call(tally: &mut Tally, random: &mut Random, bytes: &[u8], book: &[u8], names: Names) {
    let mut edit = some_edit(random, names);
    let (mut bytes, mut book) = (bytes.to_vec(), book.to_vec());
    if random.one_in(3) {
        bytes = damage::damaged(random, bytes);
    }
    if random.one_in(2) {
        book = texts::any(random, names.n);
    }
    if random.one_in(2) {
        edit = texts::any(random, names.n);
    }
    all_three(tally, random, &bytes, &book, &edit);
}

/// Runs: the sheet as the call before left it, against the plain clerk, who is never given an answer.
fn runs(tally: &mut Tally, rounds: usize) {
    let mut random = Random::new(32);
    for _ in 0..rounds {
        let opening = opening(&mut random, usize::MAX);
        let book = terms::book_code(&opening.rules);
        let Ok(rules) = reader::book(&book, opening.names.n) else { continue };
        run(tally, &mut random, &opening, &book, Clerk::new(opening.graph.clone(), rules));
    }
}

fn run(tally: &mut Tally, random: &mut Random, opening: &Opening, book: &[u8], mut clerk: Clerk) {
    let mut bytes = sheet::store(&opening.graph);
    for _ in 0..10 {
        let edit = some_edit(random, opening.names);
        let length = match random.below(6) {
            0 => random.below(60),
            1 => random.below(300),
            _ => 1000,
        };
        let before = random.bytes(length);
        let found = Call { sheet: &bytes, book, edit: &edit, scratch: &before }.library();
        let called = clerk.call(&edit, before.len());
        let mut scratch = before.clone();
        called.write(&mut scratch);
        let after = if called.answer == DONE { sheet::store(&clerk.graph) } else { bytes.clone() };
        let lent = vec![Lent::of(&after), Lent::of(book), Lent::of(&edit), Lent::of(&scratch)];
        let wanted = Outcome::of_answer(called.answer, lent);
        let inputs = Call { sheet: &bytes, book, edit: &edit, scratch: &before };
        tally.compare("enter in a run", &found, &wanted, &inputs.inputs());
        if called.answer.number == 41 {
            foretold(tally, &inputs, called.answer.place);
        }
        bytes = after;
    }
}

/// Edits whose carried books are long or deep, around 16,384 bytes and 255 levels, and those that explode.
fn carried_limits(tally: &mut Tally) {
    let mut random = Random::new(33);
    let names = Names { n: 60, labels: 2, arrows: 2 };
    let bytes = sheet::store(&graphs::graph(&mut random, names));
    for (book, edit) in carried::all() {
        let rule = longest(&book, &edit);
        for length in [0, rule.saturating_sub(1), rule, CARRIED_BYTES] {
            let scratch = random.bytes(length);
            Call { sheet: &bytes, book: &book, edit: &edit, scratch: &scratch }.compare(tally);
        }
        let needed = carry_back(tally, &book, &edit, &OUTPUT);
        for length in [0, needed.saturating_sub(1), needed, needed + 1, CARRIED_BYTES - 1] {
            carry_back(tally, &book, &edit, &random.bytes(length));
        }
    }
}

/// Steps with expressions of three codes on three labels, and branches among them with such steps in both ways, at most so deep.
fn steps(random: &mut Random, count: usize, branches: usize) -> Vec<u8> {
    let mut text = vec![];
    for _ in 0..count {
        if branches > 0 && random.one_in(12) {
            text.extend([0x35, 0x23, random.below(60) as u8, 0x03, random.below(3) as u8]);
            for _ in 0..2 {
                let inner = random.below(4);
                text.extend(steps(random, inner, branches - 1));
                text.push(0x30);
            }
        }
        let op = random.pick(&[0x31, 0x32]);
        text.extend([op, random.below(3) as u8, 0x06, 0x04, random.below(60) as u8, 0x04, random.below(60) as u8]);
    }
    text
}

/// Steps with a last one that makes them an edit of just this length.
fn edit_of(random: &mut Random, length: usize) -> Vec<u8> {
    let mut edit = steps(random, 18, 1);
    while edit.len() + 4 > length {
        edit = steps(random, 18, 1);
    }
    edit.extend([0x31, 0x00]);
    edit.extend(limits::wide_node(length - 1 - edit.len()));
    edit.push(0x30);
    edit
}

/// Edits with so many steps and branches that notes of different places share a slot, and edits of each length around 253
/// bytes, where the work arrays change their size.
fn many_steps(tally: &mut Tally, rounds: usize) {
    let mut random = Random::new(35);
    let names = Names { n: 60, labels: 3, arrows: 2 };
    let bytes = sheet::store(&graphs::graph(&mut random, names));
    let book = [0x21, 0x03, 0x00, 0x01, 0x26, 0x21, 0x03, 0x02, 0x01, 0x23, 0x07, 0x03, 0x00, 0x21, 0x03, 0x01, 0x01];
    for round in 0..rounds {
        let count = random.below(70);
        let mut edit = steps(&mut random, count, 2);
        edit.push(0x30);
        all_three(tally, &mut random, &bytes, &book, &edit);
        let edit = edit_of(&mut random, 250 + round % 8);
        all_three(tally, &mut random, &bytes, &book, &edit);
    }
}

/// Sheet T of document 01.
fn sheet_t() -> Vec<u8> {
    let mut graph = Graph::blank(3);
    graph.labels[0] = vec![true, true, false];
    graph.labels[1] = vec![false, false, true];
    graph.arrows[0] = Pairs::new(3, |i, j| i < 2 && j == 2);
    sheet::store(&graph)
}

/// Seven rules as they are carried, with what stands for label 0 in each; the first four hold on every sheet, the others on none.
fn carried_rules(label: &[u8]) -> [Vec<u8>; 7] {
    [
        [&[0x21], label, &[0x01]].concat(),
        [&[0x21], label, &[0x07], label, label].concat(),
        vec![0x22, 0x11, 0x00, 0x11, 0x00],
        [vec![0x21, 0x02], limits::wide_node(100)].concat(),
        vec![0x21, 0x01, 0x02],
        [&[0x27, 0x21], label, &[0x01]].concat(),
        [vec![0x27, 0x21, 0x02], limits::wide_node(60)].concat(),
    ]
}

/// Every book of up to three of them, through three edits: answer, sheet and scratch known without the reference.
fn rule_by_rule(tally: &mut Tally) {
    let edits: [(&[u8], &[u8], u8); 3] = [
        (&[0x30], &[0x03, 0x00], 3),
        (&[0x31, 0x00, 0x04, 0x02, 0x30], &[0x07, 0x03, 0x00, 0x04, 0x02], 7),
        (&[0x32, 0x00, 0x04, 0x01, 0x30], &[0x06, 0x03, 0x00, 0x05, 0x04, 0x01], 1),
    ];
    let mut books = vec![vec![]];
    for length in 1..=3 {
        let longer: Vec<Vec<usize>> = books
            .iter()
            .filter(|book: &&Vec<usize>| book.len() == length - 1)
            .flat_map(|book| (0..7).map(|rule| [&book[..], &[rule]].concat()))
            .collect();
        books.extend(longer);
    }
    for (edit, label, label_0) in edits {
        let (rules, carried) = (carried_rules(&[0x03, 0x00]), carried_rules(label));
        for book in &books {
            one_by_one(tally, edit, label_0, book, &rules, &carried);
        }
    }
}

fn one_by_one(tally: &mut Tally, edit: &[u8], label_0: u8, which: &[usize], rules: &[Vec<u8>], carried: &[Vec<u8>]) {
    let t = sheet_t();
    let book: Vec<u8> = which.iter().flat_map(|rule| rules[*rule].clone()).collect();
    let lengths: Vec<usize> = which.iter().map(|rule| carried[*rule].len()).collect();
    let (longest, whole) = (lengths.iter().max().copied().unwrap_or(0), lengths.iter().sum::<usize>());
    let broken = which.iter().position(|rule| *rule >= 4);
    for room in [0, longest.saturating_sub(1), longest, longest + 1, whole.saturating_sub(1), whole, whole + 9] {
        let call = Call { sheet: &t, book: &book, edit, scratch: &vec![0x5A; room] };
        let (mut after, mut scratch) = (t.clone(), call.scratch.to_vec());
        let numbers = match broken {
            _ if room < longest => [33, longest],
            Some(place) => [41, place],
            None => [0, 0],
        };
        if numbers[0] != 33 {
            for rule in &which[..broken.map_or(which.len(), |place| place + 1)] {
                scratch[..carried[*rule].len()].copy_from_slice(&carried[*rule]);
            }
        }
        if numbers[0] == 0 {
            after[16] = label_0;
            sheet::seal(&mut after[..512]);
        }
        let lent = vec![Lent::of(&after), Lent::of(&book), Lent::of(edit), Lent::of(&scratch)];
        tally.compare("rule by rule", &call.library(), &Outcome::new(&numbers, lent), &call.inputs());
    }
}

/// Books and edits at the limits of length, levels and number of rules.
fn limit_texts(tally: &mut Tally) {
    let mut random = Random::new(34);
    let names = Names { n: 60, labels: 2, arrows: 2 };
    let bytes = sheet::store(&graphs::graph(&mut random, names));
    let scratch = random.bytes(CARRIED_BYTES);
    for text in [limits::lengths(), limits::levels(), limits::rule_counts()].concat() {
        for (book, edit) in [(&text[..], &[0x30][..]), (&[][..], &text[..]), (&text[..], &text[..])] {
            Call { sheet: &bytes, book, edit, scratch: &scratch }.compare(tally);
            carry_back(tally, book, edit, &scratch);
        }
        apply(tally, &bytes, &text);
    }
}

const SHEET: &[u8] = include_bytes!("../../examples/station/sheet.bin");
const SHEET_AFTER: &[u8] = include_bytes!("../../examples/station/sheet_after.bin");
const BOOK: &[u8] = include_bytes!("../../examples/station/book.bin");
const MOVE: &[u8] = include_bytes!("../../examples/station/move.bin");
const MOVE_BACK: &[u8] = include_bytes!("../../examples/station/move_back.bin");
const CROWD: &[u8] = include_bytes!("../../examples/station/crowd.bin");
const CARRIED: &[u8] = include_bytes!("../../examples/station/carried.bin");

/// What is left of a scratch when each rule of a carried book is written at its start, over the one before.
fn overwritten(scratch: &[u8], text: &[u8]) -> Vec<u8> {
    let mut left = scratch.to_vec();
    for ends in reader::rule_starts(text, 60).windows(2) {
        left[..ends[1] - ends[0]].copy_from_slice(&text[ends[0]..ends[1]]);
    }
    left
}

/// An enter on the station against what is kept with it: the answer, the sheet and, where kept, the rules of the carried book.
fn kept(tally: &mut Tally, call: &Call, answer: [usize; 2], after: &[u8], carried: Option<&[u8]>) {
    let mut found = call.library();
    let scratch = found.buffers.pop();
    found.buffers.truncate(1);
    let mut wanted = Outcome::new(&answer, vec![Lent::of(after)]);
    if let Some(text) = carried {
        found.buffers.extend(scratch);
        assert!(reader::rule_starts(text, 60).last() == Some(&text.len()), "rules can be told apart");
        wanted.buffers.push(Lent::of(&overwritten(call.scratch, text)).all());
    }
    tally.compare("enter on the station", &found, &wanted, &call.inputs());
}

/// The station of the examples.
fn station(tally: &mut Tally) {
    let on = |sheet, edit| Call { sheet, book: BOOK, edit, scratch: &[0xEE; 1000] };
    kept(tally, &on(SHEET, MOVE), [0, 0], SHEET_AFTER, Some(CARRIED));
    kept(tally, &on(SHEET_AFTER, MOVE_BACK), [0, 0], SHEET, None);
    kept(tally, &on(SHEET, CROWD), [41, 2], SHEET, None);
    for call in [on(SHEET, MOVE), on(SHEET_AFTER, MOVE_BACK), on(SHEET, CROWD)] {
        call.compare(tally);
        carry_back(tally, BOOK, call.edit, call.scratch);
        apply(tally, call.sheet, call.edit);
    }
}

fn main() {
    let mut tally = Tally::new();
    station(&mut tally);
    rule_by_rule(&mut tally);
    carried_limits(&mut tally);
    limit_texts(&mut tally);
    many_steps(&mut tally, 500);
    single_calls(&mut tally, 11_500);
    runs(&mut tally, 20_000);
    tally.all_reached("rule by rule", &[0, 33, 41]);
    tally.both_frequent("enter", 0, 41);
    tally.both_frequent("enter in a run", 0, 41);
    tally.finish(&[0, 1, 2, 3, 4, 11, 12, 13, 14, 15, 16, 21, 22, 23, 24, 25, 26, 31, 32, 33, 41]);
}
