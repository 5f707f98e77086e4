//! Stores of plans: blank, keep, return and drop of the library compared with the reference, answers and all bytes, alone and
//! in histories with calls of enter between them.

use common::compare::{self, Lent, Outcome, Tally};
use common::library::{zamiathen_drop, zamiathen_keep, zamiathen_return, zamiathen_store_blank};
use common::random::Random;
use common::terms::{self, Names};
use common::{damage, graphs, texts};
use reference::answer::{Answer, DONE};
use reference::carry::CARRIED_BYTES;
use reference::graph::{Graph, Pairs};
use reference::meaning::holds;
use reference::plans::{NAMES, STORE};
use reference::sheet::{BLOCK, SHEET};
use reference::syntax::{Coded, Rule};
use reference::{calls, plans, sheet};

fn refusal(number: usize, place: usize) -> Answer {
    Answer { number, place }
}

/// A call with what it takes. Keep and return take a sheet, return a book.
struct Call<'c> {
    way: Way,
    sheet: &'c [u8],
    store: &'c [u8],
    name: usize,
    book: &'c [u8],
}

#[derive(Clone, Copy, PartialEq)]
enum Way {
    Blank,
    Keep,
    Return,
    Drop,
}

use Way::{Blank, Drop, Keep, Return};

impl Way {
    fn name(self) -> &'static str {
        match self {
            Blank => "store blank",
            Keep => "keep",
            Return => "return",
            Drop => "drop",
        }
    }
}

impl Call<'_> {
    fn library(&self) -> Outcome {
        let (mut sheet, mut store, book) = (Lent::of(self.sheet), Lent::of(self.store), Lent::of(self.book));
        let (at, length) = (store.mut_ptr(), store.len());
        let found = match self.way {
            Blank => unsafe { zamiathen_store_blank(at, length) },
            Keep => unsafe { zamiathen_keep(sheet.ptr(), sheet.len(), at, length, self.name) },
            Return => unsafe {
                zamiathen_return(sheet.mut_ptr(), sheet.len(), at, length, self.name, book.ptr(), book.len())
            },
            Drop => unsafe { zamiathen_drop(at, length, self.name) },
        };
        Outcome::new(&[found.number, found.place], vec![sheet, store, book])
    }

    /// The reference's answer, and the sheet and the store after it.
    fn reference(&self) -> (Answer, Vec<u8>, Vec<u8>) {
        let (mut sheet, mut store) = (self.sheet.to_vec(), self.store.to_vec());
        let answer = match self.way {
            Blank => plans::store_blank(&mut store),
            Keep => plans::keep(&sheet, &mut store, self.name),
            Return => plans::give_back(&mut sheet, &store, self.name, self.book),
            Drop => plans::drop(&mut store, self.name),
        };
        (answer, sheet, store)
    }

    fn compare(&self, tally: &mut Tally) {
        let (answer, sheet, store) = self.reference();
        self.known(tally, self.way.name(), answer, &sheet, &store);
    }

    /// The library's call against this answer, and this sheet and this store after it.
    fn known(&self, tally: &mut Tally, what: &'static str, answer: Answer, sheet: &[u8], store: &[u8]) {
        let wanted = Outcome::of_answer(answer, vec![Lent::of(sheet), Lent::of(store), Lent::of(self.book)]);
        let name = self.name.to_le_bytes();
        let inputs = [("sheet", self.sheet), ("store", self.store), ("name", &name[..]), ("book", self.book)];
        tally.compare(what, &self.library(), &wanted, &inputs);
    }

    /// The same where nothing changes.
    fn refused(&self, tally: &mut Tally, what: &'static str, answer: Answer) {
        self.known(tally, what, answer, self.sheet, self.store);
    }
}

/// What is kept under each name, and the store that says so, by document 02's words.
type Plans = [Option<Vec<u8>>; NAMES];

const NONE: Plans = [const { None }; NAMES];

fn store_of(plans: &Plans) -> Vec<u8> {
    let mut store = vec![0; BLOCK];
    store[0] = 4;
    for (bit, plan) in plans.iter().enumerate() {
        store[1] |= u8::from(plan.is_some()) << bit;
        store.extend(plan.clone().unwrap_or(vec![0; SHEET]));
    }
    sheet::seal(&mut store[..BLOCK]);
    store
}

/// Names in range more often than not, and numbers that are not names: 0, 8, 2^63, and such as are 1 to 7 in fewer bits.
fn some_name(random: &mut Random) -> usize {
    match random.below(12) {
        0 => random.pick(&[0, 8]),
        1 => random.pick(&[9, 64, 65, 255, 256, 257, 1 << 16 | 3, 1 << 32 | 7, 1 << 63, 1 << 63 | 1, usize::MAX]),
        2..=4 => 1 + random.below(NAMES),
        _ => 1 + random.below(3),
    }
}

fn some_sheet(random: &mut Random, names: Names) -> Vec<u8> {
    sheet::store(&graphs::graph(random, names))
}

/// A book that a graph keeps, except one rule in `broken_one_in`.
fn some_book(random: &mut Random, graph: &Graph, names: Names, broken_one_in: usize) -> Vec<u8> {
    let most = terms::some_rules(random);
    let mut rules = terms::book(random, names, most);
    for rule in &mut rules {
        if !holds(graph, rule) && !random.one_in(broken_one_in) {
            *rule = Rule::Not(Box::new(rule.clone()));
        }
    }
    terms::book_code(&rules)
}

/// Blank checks only the length.
fn blanks(tally: &mut Tally) {
    let mut random = Random::new(71);
    for length in [0, 1, 511, 512, SHEET, 30_720, STORE - 512, STORE - 1, STORE, STORE + 1, STORE + 512, 2 * STORE] {
        for store in [vec![0; length], random.bytes(length), vec![255; length]] {
            let call = Call { way: Blank, sheet: &[], store: &store, name: 0, book: &[] };
            if length == STORE {
                call.known(tally, "store blank", DONE, &[], &store_of(&NONE));
            } else {
                call.refused(tally, "store blank", refusal(55, 0));
            }
        }
    }
}

/// Lists of these calls and of enter, the store written by no other: a return that is done gives back the sheet last kept under
/// that name, no matter what was entered since. The plans are known without the reference.
fn histories(tally: &mut Tally, rounds: usize) {
    let mut random = Random::new(72);
    for _ in 0..rounds {
        let names: Vec<Names> = (0..2)
            .map(|_| {
                let n = graphs::node_count(&mut random);
                Names::some(&mut random, n)
            })
            .collect();
        let mut history = History { plans: NONE, sheet: some_sheet(&mut random, names[0]), store: store_of(&NONE) };
        for _ in 0..24 {
            history.next(tally, &mut random, &names);
        }
    }
}

struct History {
    plans: Plans,
    sheet: Vec<u8>,
    store: Vec<u8>,
}

impl History {
    fn next(&mut self, tally: &mut Tally, random: &mut Random, names: &[Names]) {
        let name = some_name(random);
        match random.below(24) {
            0..=6 => self.keep(tally, name),
            7..=13 => self.give_back(tally, random, name, names),
            14..=16 => self.drop(tally, name),
            17..=20 => self.enter(tally, random, names),
            21..=22 => {
                let names = names[random.below(names.len())];
                self.sheet = some_sheet(random, names);
            }
            _ if random.one_in(6) => self.blank(tally),
            _ => {}
        }
    }

    fn call<'c>(&'c self, way: Way, name: usize, book: &'c [u8]) -> Call<'c> {
        Call { way, sheet: &self.sheet, store: &self.store, name, book }
    }

    /// What stands under a name: 56, then 57.
    fn named(&self, name: usize) -> Result<&Vec<u8>, Answer> {
        let plan = name.checked_sub(1).and_then(|index| self.plans.get(index)).ok_or(refusal(56, 0))?;
        plan.as_ref().ok_or(refusal(57, 0))
    }

    fn blank(&mut self, tally: &mut Tally) {
        self.call(Blank, 0, &[]).known(tally, "blank in a history", DONE, &self.sheet, &store_of(&NONE));
        (self.plans, self.store) = (NONE, store_of(&NONE));
    }

    fn keep(&mut self, tally: &mut Tally, name: usize) {
        if self.named(name) == Err(refusal(56, 0)) {
            return self.call(Keep, name, &[]).refused(tally, "keep in a history", refusal(56, 0));
        }
        let mut plans = self.plans.clone();
        plans[name - 1] = Some(self.sheet.clone());
        let store = store_of(&plans);
        self.call(Keep, name, &[]).known(tally, "keep in a history", DONE, &self.sheet, &store);
        (self.plans, self.store) = (plans, store);
    }

    fn drop(&mut self, tally: &mut Tally, name: usize) {
        if let Err(answer) = self.named(name) {
            return self.call(Drop, name, &[]).refused(tally, "drop in a history", answer);
        }
        let mut plans = self.plans.clone();
        plans[name - 1] = None;
        let store = store_of(&plans);
        self.call(Drop, name, &[]).known(tally, "drop in a history", DONE, &self.sheet, &store);
        (self.plans, self.store) = (plans, store);
    }

    /// Under a book that the kept sheet, the present one or another mostly keeps.
    fn give_back(&mut self, tally: &mut Tally, random: &mut Random, name: usize, names: &[Names]) {
        let names = names[random.below(names.len())];
        let graph = match self.named(name) {
            Ok(kept) if !random.one_in(4) => sheet::read(kept),
            _ => sheet::read(&self.sheet),
        };
        let book = match random.below(8) {
            0 => texts::any(random, graph.n),
            _ if graph.n == names.n => some_book(random, &graph, names, 12),
            _ => some_book(random, &graph, Names { n: graph.n, ..names }, 12),
        };
        let answer = match self.named(name) {
            Ok(kept) => calls::judge(kept, &book).answer,
            Err(answer) => answer,
        };
        let after = if answer == DONE { self.named(name).expect("a plan").clone() } else { self.sheet.clone() };
        self.call(Return, name, &book).known(tally, "return in a history", answer, &after, &self.store);
        self.sheet = after;
    }

    /// An edit entered under a book that the present sheet keeps: a run goes on, or opens where a return left the sheet.
    fn enter(&mut self, tally: &mut Tally, random: &mut Random, names: &[Names]) {
        let graph = sheet::read(&self.sheet);
        let names = Names { n: graph.n, ..names[random.below(names.len())] };
        let book = some_book(random, &graph, names, usize::MAX);
        let steps = 1 + random.below(3);
        let levels = terms::some_levels(random);
        let edit = terms::edit(random, names, steps, levels).code();
        let mut after = self.sheet.clone();
        let answer = calls::enter(&mut after, &book, &edit, &mut [0; CARRIED_BYTES]);
        let (numbers, [lent, lent_book, lent_edit, _]) = compare::enter(&self.sheet, &book, &edit, &[0; CARRIED_BYTES]);
        let found = Outcome::new(&numbers, vec![lent, lent_book, lent_edit]);
        let wanted = Outcome::of_answer(answer, vec![Lent::of(&after), Lent::of(&book), Lent::of(&edit)]);
        let inputs = [("sheet", &self.sheet[..]), ("book", &book), ("edit", &edit)];
        tally.compare("enter in a history", &found, &wanted, &inputs);
        self.sheet = after;
    }
}

/// A sheet of this n with a label, an arrow and a closed node, where there are such.
fn plan(n: usize) -> Vec<u8> {
    let mut graph = Graph::blank(n);
    graph.labels[n % 48][0] = true;
    graph.arrows[n % 16] = Pairs::new(n, |i, j| i == 0 && j == n / 2);
    graph.in_use[n - 1] = n < 3;
    sheet::store(&graph)
}

/// Stores with all names filled, none, and some.
fn some_stores() -> [Vec<u8>; 4] {
    let filled = |names: &[usize]| {
        let mut plans = NONE;
        names.iter().for_each(|name| plans[name - 1] = Some(plan(8 * name)));
        store_of(&plans)
    };
    [filled(&[1, 2, 3, 4, 5, 6, 7]), filled(&[]), filled(&[2, 3, 7]), filled(&[1])]
}

/// Drop of a number that is not a name, which shows whether the store passed: 56 if so. Writes nothing, so the store is passed as it is.
fn asked(store: &mut [u8]) -> [usize; 2] {
    let found = unsafe { zamiathen_drop(store.as_mut_ptr(), store.len(), 0) };
    [found.number, found.place]
}

fn asked_known(tally: &mut Tally, what: &'static str, store: &mut [u8], number: usize) {
    let found = Outcome::new(&asked(store), vec![]);
    tally.compare(what, &found, &Outcome::new(&[number, 0], vec![]), &[("store", store)]);
}

/// Each byte of some stores changed makes 55; each of the head, and each of a sheet's first block, to each other value.
fn changed_bytes(tally: &mut Tally) {
    for mut store in some_stores() {
        let sound = store.clone();
        asked_known(tally, "changed byte", &mut store, 56);
        for at in 0..STORE {
            let all = at < 2 || (505..520).contains(&at) || at % 4099 == 0;
            for change in if all { 1..=255 } else { 1 << (at % 8)..=1 << (at % 8) } {
                store[at] ^= change;
                asked_known(tally, "changed byte", &mut store, 55);
                store[at] ^= change;
            }
        }
        assert!(store == sound, "a refusal changes nothing");
    }
}

/// The head with its sums right: byte 0 and byte 1 of each value, each other byte not zero.
fn heads(tally: &mut Tally) {
    for mut store in some_stores() {
        let sound = store.clone();
        let mut tried = |at: usize, value: u8| {
            store[at] = value;
            sheet::seal(&mut store[..BLOCK]);
            let number = if store == sound { 56 } else { 55 };
            asked_known(tally, "head", &mut store, number);
            store[..BLOCK].copy_from_slice(&sound[..BLOCK]);
        };
        for value in 0..=255 {
            tried(0, value);
            tried(1, value);
        }
        (2..508).for_each(|at| tried(at, 1 << (at % 8)));
    }
}

/// In each block of each place, with the block's sums right: a head that no block has, a byte that must be zero. A bit of an arrow
/// leaves a filled sheet sound. The calls see it under every name.
fn damaged_blocks(tally: &mut Tally) {
    let mut random = Random::new(73);
    for sound in some_stores() {
        for block in 1..STORE / BLOCK {
            let filled = sound[1] >> ((block - 1) / 17) & 1 == 1;
            for (at, change) in [(0, 4), (1, 32), (2, 64), (9, 1), (507, 1), (16, 1)] {
                let mut store = sound.clone();
                let bytes = &mut store[block * BLOCK..(block + 1) * BLOCK];
                bytes[at] ^= change;
                sheet::seal(bytes);
                let number = if at == 16 && filled { 56 } else { 55 };
                asked_known(tally, "damaged block", &mut store, number);
                if number == 55 && random.one_in(4) {
                    everywhere(tally, &mut random, &store);
                }
            }
        }
    }
}

/// Keep, return and drop under each name and beyond: 55.
fn everywhere(tally: &mut Tally, random: &mut Random, store: &[u8]) {
    let sheet = plan(5);
    let name = some_name(random);
    for way in [Keep, Return, Drop] {
        Call { way, sheet: &sheet, store, name, book: &[0xFF] }.refused(tally, "damaged store", refusal(55, 0));
    }
}

/// Sheets with each fault, in block 0 and in the last, and one without.
fn sheets() -> Vec<(Vec<u8>, Answer)> {
    let sound = plan(9);
    let mut sheets =
        vec![(sound.clone(), DONE), (sound[1..].to_vec(), refusal(1, 0)), ([&sound[..], &[0]].concat(), refusal(1, 0))];
    for (at, value, number) in [(500, 1, 2), (8703, 9, 2), (1, 1, 3), (8194, 1, 3), (401, 255, 4), (8192 + 500, 1, 4)] {
        let mut bytes = sound.clone();
        bytes[at] = value;
        if number != 2 {
            sheet::seal(&mut bytes[at / BLOCK * BLOCK..(at / BLOCK + 1) * BLOCK]);
        }
        sheets.push((bytes, refusal(number, at / BLOCK)));
    }
    sheets
}

/// Stores in which names 2 and 5 are filled, by sheets of 4 and of 9 nodes, and faults of them.
fn stores() -> Vec<(Vec<u8>, bool)> {
    let mut plans = NONE;
    plans[1] = Some(sheet::store(&Graph::blank(4)));
    plans[4] = Some(plan(9));
    let sound = store_of(&plans);
    let changed = |at: usize, value: u8, mended: bool| {
        let mut store = sound.clone();
        store[at] = value;
        if mended {
            sheet::seal(&mut store[at / BLOCK * BLOCK..(at / BLOCK + 1) * BLOCK]);
        }
        (store, false)
    };
    let lengths = [0, STORE - 1, STORE + 1].map(|length| ([&sound[..], &[0]].concat()[..length].to_vec(), false));
    let faults = [
        changed(0, 3, true),
        changed(1, 0x92, true),
        changed(1, 0x02, true),
        changed(1, 0x13, true),
        changed(2, 1, true),
        changed(508, 1, false),
        changed(512, 1, false),
        changed(STORE - 1, 1, false),
        changed(512 + SHEET + 2, 61, true),
        changed(512 + 5 * SHEET - 600, 1, true),
    ];
    [vec![(sound.clone(), true)], lengths.to_vec(), faults.to_vec()].concat()
}

/// Every question in its place: each fault of a sheet before each of a store, of a name, of a book, and a broken rule. Known
/// without the reference.
fn orders(tally: &mut Tally) {
    let books: [(Vec<u8>, usize, usize); 10] = [
        (vec![], 0, 0),
        (vec![0x21, 0x01, 0x01, 0x23, 0x03, 0x01], 0, 0),
        (vec![0x21, 0x01, 0x01, 0x21, 0x01, 0x02], 41, 1),
        (vec![0x21; 4097], 11, 0),
        (vec![0x21, 0x01, 0x02, 0x21], 12, 4),
        (vec![0x21, 0x01, 0x02, 0x11], 13, 3),
        ([vec![0x23, 0x00], vec![0x05; 32]].concat(), 14, 33),
        (vec![0x23, 0x09, 0x01], 15, 1),
        ([vec![0x21, 0x01, 0x02].repeat(32), vec![0xFF]].concat(), 16, 96),
        // Node 4 is one of the present sheet's and of name 5's, not of name 2's; and name 5's has a node with label 9.
        (vec![0x23, 0x04, 0x01, 0x21, 0x03, 0x09, 0x02], 15, 1),
    ];
    for (sheet, sheet_answer) in sheets() {
        for (store, sound) in stores() {
            for name in [0, 1, 2, 3, 4, 5, 6, 7, 8, 9, 256 + 2, 1 << 32 | 5, 1 << 63, 1 << 63 | 2, usize::MAX] {
                let name_answer = match name {
                    1 | 3 | 4 | 6 | 7 => refusal(57, 0),
                    2 | 5 => DONE,
                    _ => refusal(56, 0),
                };
                let store_answer = if sound { DONE } else { refusal(55, 0) };
                orders_of_keep_and_drop(tally, (&sheet, sheet_answer), (&store, store_answer), name, name_answer);
                for (i, (book, number, place)) in books.iter().enumerate() {
                    let book_answer = match (i, name) {
                        (9, 5) => refusal(41, 1),
                        _ => refusal(*number, *place),
                    };
                    let answers = [sheet_answer, store_answer, name_answer, book_answer];
                    let answer = first_of(&answers);
                    let after = if answer == DONE { kept_in(&store, name) } else { sheet.clone() };
                    let call = Call { way: Return, sheet: &sheet, store: &store, name, book };
                    call.known(tally, "orders of return", answer, &after, &store);
                    if sheet_answer != DONE || !sound {
                        break;
                    }
                }
            }
        }
    }
}

/// The first answer that is not done.
fn first_of(answers: &[Answer]) -> Answer {
    answers.iter().copied().find(|answer| *answer != DONE).unwrap_or(DONE)
}

fn kept_in(store: &[u8], name: usize) -> Vec<u8> {
    store[BLOCK + (name - 1) * SHEET..BLOCK + name * SHEET].to_vec()
}

/// The store with name 2 or 5 dropped, or any kept.
fn store_after(store: &[u8], name: usize, bytes: Option<&[u8]>) -> Vec<u8> {
    let mut after = store.to_vec();
    after[1] = after[1] & !(1 << (name - 1)) | u8::from(bytes.is_some()) << (name - 1);
    sheet::seal(&mut after[..BLOCK]);
    after[BLOCK + (name - 1) * SHEET..BLOCK + name * SHEET].copy_from_slice(bytes.unwrap_or(&[0; SHEET]));
    after
}

fn orders_of_keep_and_drop(
    tally: &mut Tally,
    (sheet, sheet_answer): (&[u8], Answer),
    (store, store_answer): (&[u8], Answer),
    name: usize,
    name_answer: Answer,
) {
    let in_range = if name_answer == refusal(57, 0) { DONE } else { name_answer };
    let answer = first_of(&[sheet_answer, store_answer, in_range]);
    let after = if answer == DONE { store_after(store, name, Some(sheet)) } else { store.to_vec() };
    Call { way: Keep, sheet, store, name, book: &[] }.known(tally, "orders of keep", answer, sheet, &after);
    let answer = first_of(&[store_answer, name_answer]);
    let after = if answer == DONE { store_after(store, name, None) } else { store.to_vec() };
    Call { way: Drop, sheet, store, name, book: &[] }.known(tally, "orders of drop", answer, sheet, &after);
}

/// Any sheets, stores, names and books, damaged or not, against the reference.
fn random_calls(tally: &mut Tally, rounds: usize) {
    let mut random = Random::new(74);
    for _ in 0..rounds {
        let n = graphs::node_count(&mut random);
        let names = Names::some(&mut random, n);
        let mut plans = NONE;
        for plan in plans.iter_mut() {
            *plan = random.one_in(2).then(|| some_sheet(&mut random, names));
        }
        let mut sheet = some_sheet(&mut random, names);
        let mut store = store_of(&plans);
        if random.one_in(8) {
            sheet = damage::damaged(&mut random, sheet);
        }
        if random.one_in(4) {
            hurt(&mut random, &mut store);
        }
        let book = match random.below(4) {
            0 => texts::any(&mut random, n),
            _ => {
                let most = terms::some_rules(&mut random);
                terms::book_code(&terms::book(&mut random, names, most))
            }
        };
        for way in [Keep, Return, Drop] {
            Call { way, sheet: &sheet, store: &store, name: some_name(&mut random), book: &book }.compare(tally);
        }
    }
}

/// A place damaged as a sheet is, a name marked that is unfilled, or unmarked that is filled, or a sheet in another place.
fn hurt(random: &mut Random, store: &mut Vec<u8>) {
    let place = BLOCK + random.below(NAMES) * SHEET;
    match random.below(6) {
        0..=2 => {
            let hurt = damage::damaged(random, store[place..place + SHEET].to_vec());
            store.splice(place..place + SHEET, hurt);
        }
        3 => store[1] ^= 1 << random.below(8),
        4 => {
            let other = BLOCK + random.below(NAMES) * SHEET;
            store.copy_within(other..other + SHEET, place);
        }
        _ => {
            let at = random.below(store.len());
            store[at] ^= 1 << random.below(8);
        }
    }
    if !random.one_in(4) {
        sheet::seal(&mut store[..BLOCK]);
    }
}

fn main() {
    let mut tally = Tally::new();
    blanks(&mut tally);
    changed_bytes(&mut tally);
    heads(&mut tally);
    damaged_blocks(&mut tally);
    orders(&mut tally);
    histories(&mut tally, 800);
    random_calls(&mut tally, 4_000);
    for what in ["keep in a history", "orders of keep", "keep"] {
        tally.all_reached(what, &[0, 56]);
    }
    for what in ["drop in a history", "orders of drop", "drop"] {
        tally.all_reached(what, &[0, 56, 57]);
    }
    for what in ["orders of return", "return"] {
        tally.all_reached(what, &[0, 1, 2, 3, 4, 12, 13, 15, 41, 55, 56, 57]);
    }
    tally.all_reached("orders of return", &[11, 14, 16]);
    tally.both_frequent("return in a history", 0, 41);
    tally.finish(&[0, 1, 2, 3, 4, 11, 12, 13, 14, 15, 16, 41, 55, 56, 57]);
}
