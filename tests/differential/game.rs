//! Games of dispatcher against disruption decided by the library, compared with the reference's plain search and with games of one
//! bit decided without it.

use common::compare::{Lent, Outcome, Tally};
use common::library::zamiathen_play;
use common::random::Random;
use common::terms::{self, Names};
use common::{damage, graphs, texts};
use reference::game::{self, Edits};
use reference::graph::Graph;
use reference::meaning::holds;
use reference::sheet;
use reference::syntax::{Coded, Rule};

/// What a call takes.
struct Call<'c> {
    sheet: &'c [u8],
    book: &'c [u8],
    goal: &'c [u8],
    edits: &'c [u8],
    lengths: &'c [usize],
    dispatchers: usize,
    moves: usize,
}

impl Call<'_> {
    fn library(&self) -> Outcome {
        let [sheet, book, goal, edits] = [self.sheet, self.book, self.goal, self.edits].map(Lent::of);
        let lengths = self.lengths.to_vec();
        let found = unsafe {
            zamiathen_play(
                sheet.ptr(),
                sheet.len(),
                book.ptr(),
                book.len(),
                goal.ptr(),
                goal.len(),
                edits.ptr(),
                edits.len(),
                lengths.as_ptr(),
                lengths.len(),
                self.dispatchers,
                self.moves,
            )
        };
        assert!(lengths == self.lengths, "the lengths stay");
        Outcome::new(&[found.number, found.place, found.outcome, found.edit], vec![sheet, book, goal, edits])
    }

    /// The library's call against these numbers; its buffers stay unchanged.
    fn known(&self, tally: &mut Tally, what: &'static str, numbers: [usize; 4]) {
        let wanted = Outcome::new(&numbers, [self.sheet, self.book, self.goal, self.edits].map(Lent::of).into());
        let lengths: Vec<u8> = self.lengths.iter().flat_map(|length| length.to_le_bytes()).collect();
        let counts = [self.dispatchers.to_le_bytes(), self.moves.to_le_bytes()].concat();
        let inputs = [
            ("sheet", self.sheet),
            ("book", self.book),
            ("goal", self.goal),
            ("edits", self.edits),
            ("lengths", &lengths),
            ("dispatchers, moves", &counts),
        ];
        tally.compare(what, &self.library(), &wanted, &inputs);
    }

    /// Against the reference: the outcome and the edit, and the answer.
    fn compare(&self, tally: &mut Tally) -> [usize; 4] {
        let edits = Edits { bytes: self.edits, lengths: self.lengths, dispatchers: self.dispatchers };
        let numbers = game::numbers(game::play(self.sheet, self.book, self.goal, &edits, self.moves));
        self.known(tally, "play", numbers);
        numbers
    }
}

fn lengths_of(texts: &[Vec<u8>]) -> Vec<usize> {
    texts.iter().map(Vec::len).collect()
}

/// Edits of one bit, whether node 0 has label 0, and what each makes of it: leaves, gives, takes, turns.
const BIT_EDITS: [(&[u8], [bool; 2]); 4] = [
    (&[0x30], [false, true]),
    (&[0x31, 0x00, 0x04, 0x00, 0x30], [true, true]),
    (&[0x32, 0x00, 0x04, 0x00, 0x30], [false, false]),
    (&[0x35, 0x23, 0x00, 0x03, 0x00, 0x32, 0x00, 0x04, 0x00, 0x30, 0x31, 0x00, 0x04, 0x00, 0x30, 0x30], [true, false]),
];

/// Books on that bit: none, that it is clear, that it is set.
const BIT_BOOKS: [(&[u8], [bool; 2]); 3] =
    [(&[], [true, true]), (&[0x21, 0x03, 0x00, 0x02], [true, false]), (&[0x23, 0x00, 0x03, 0x00], [false, true])];

/// Who wins a game of one bit, from the last move back: the first move, as outcome and edit.
fn one_bit(ours: &[usize], theirs: &[usize], allowed: [bool; 2], goal: bool, moves: usize, start: bool) -> [usize; 2] {
    let mut wins = [!goal, goal];
    let mut first = [0, 0];
    for number in (0..moves).rev() {
        let dispatcher = number % 2 == 0;
        let before = wins;
        for state in [false, true] {
            let to = |edit: &usize| BIT_EDITS[*edit].1[usize::from(state)];
            let win = |state: bool| before[usize::from(state)];
            wins[usize::from(state)] = if dispatcher {
                let made: Vec<usize> = (0..ours.len()).filter(|i| allowed[usize::from(to(&ours[*i]))]).collect();
                let forcing = made.iter().find(|i| win(to(&ours[**i])));
                if number == 0 && state == start {
                    first = match forcing {
                        Some(edit) => [1, *edit],
                        None if made.is_empty() && win(state) => [2, 0],
                        None => [0, 0],
                    };
                }
                if made.is_empty() {
                    win(state)
                } else {
                    forcing.is_some()
                }
            } else {
                theirs.iter().all(|edit| win(to(edit))) && (!theirs.is_empty() || win(state))
            };
        }
    }
    first
}

/// Lists of up to this many edits of one bit.
fn lists(least: usize, most: usize) -> Vec<Vec<usize>> {
    let mut all = vec![vec![]];
    let mut last = all.clone();
    for _ in 0..most {
        last = last.iter().flat_map(|list: &Vec<usize>| (0..4).map(|edit| [&list[..], &[edit]].concat())).collect();
        all.extend(last.clone());
    }
    all.into_iter().filter(|list| list.len() >= least).collect()
}

/// All games of one bit with one or two edits against none, one or two; known without the reference.
fn bit_games(tally: &mut Tally) {
    let mut set = Graph::blank(1);
    set.labels[0][0] = true;
    let sheets = [sheet::store(&Graph::blank(1)), sheet::store(&set)];
    let goals: [&[u8]; 2] = [&[0x27, 0x23, 0x00, 0x03, 0x00], &[0x23, 0x00, 0x03, 0x00]];
    for ours in lists(1, 2) {
        for theirs in lists(0, 2) {
            let texts: Vec<Vec<u8>> = ours.iter().chain(&theirs).map(|edit| BIT_EDITS[*edit].0.to_vec()).collect();
            let (edits, lengths) = (texts.concat(), lengths_of(&texts));
            for (book, allowed) in BIT_BOOKS {
                for (moves, start, goal) in (0..24).map(|i| (1 + i / 4, i % 2 == 1, i / 2 % 2 == 1)) {
                    let call = Call {
                        sheet: &sheets[usize::from(start)],
                        book,
                        goal: goals[usize::from(goal)],
                        edits: &edits,
                        lengths: &lengths,
                        dispatchers: ours.len(),
                        moves,
                    };
                    let [outcome, edit] = one_bit(&ours, &theirs, allowed, goal, moves, start);
                    call.known(tally, "one bit", [0, 0, outcome, edit]);
                }
            }
        }
    }
}

/// Four edits against four, six moves, of one bit and of random ones.
fn great_games(tally: &mut Tally) {
    let blank = sheet::store(&Graph::blank(1));
    for (ours, theirs) in [([0, 0, 2, 1], [0, 3, 1, 0]), ([3, 0, 0, 3], [0, 0, 0, 0]), ([0, 2, 3, 1], [1, 1, 3, 2])] {
        let texts: Vec<Vec<u8>> = ours.iter().chain(&theirs).map(|edit| BIT_EDITS[*edit].0.to_vec()).collect();
        let (edits, lengths) = (texts.concat(), lengths_of(&texts));
        for moves in 1..=6 {
            let goal = [0x23, 0x00, 0x03, 0x00];
            let call =
                Call { sheet: &blank, book: &[], goal: &goal, edits: &edits, lengths: &lengths, dispatchers: 4, moves };
            let [outcome, edit] = one_bit(&ours, &theirs, [true, true], true, moves, false);
            call.known(tally, "one bit", [0, 0, outcome, edit]);
        }
    }
}

/// A goal that is often broken by one step and mended by another.
fn random_games(tally: &mut Tally, rounds: usize, most_moves: usize, seed: u64) {
    let mut random = Random::new(seed);
    let mut outcomes = [0; 4];
    for _ in 0..rounds {
        let n = 1 + random.below(3);
        let names = Names { n, labels: 1 + random.below(2), arrows: 1 };
        let graph = graphs::graph(&mut random, names);
        let mut rules = terms::book(&mut random, names, 2);
        for rule in &mut rules {
            if !holds(&graph, rule) && !random.one_in(4) {
                *rule = Rule::Not(Box::new(rule.clone()));
            }
        }
        let goal = terms::rule(&mut random, names, 3).code();
        let (ours, theirs) = (1 + random.below(3), random.below(3));
        let edits: Vec<Vec<u8>> = (0..ours + theirs)
            .map(|_| {
                let steps = random.below(3);
                terms::edit(&mut random, names, steps, 3).code()
            })
            .collect();
        let mut lengths = lengths_of(&edits);
        let mut edits = edits.concat();
        let (mut bytes, mut book, mut goal) = (sheet::store(&graph), terms::book_code(&rules), goal);
        match random.below(24) {
            0 => bytes = damage::damaged(&mut random, bytes),
            1 => book = texts::any(&mut random, n),
            2 => goal = texts::any(&mut random, n),
            3 => edits = texts::damaged(&mut random, edits),
            4 => edits.truncate(random.below(edits.len() + 1)),
            5 => {
                let at = random.below(lengths.len());
                lengths[at] = random.pick(&[0, 1, 5, 4097, 1 << 63, usize::MAX]);
            }
            // The same bytes cut elsewhere.
            6 if lengths.len() > 1 => {
                let at = random.below(lengths.len() - 1);
                let both = lengths[at] + lengths[at + 1];
                lengths[at] = random.below(both + 1);
                lengths[at + 1] = both - lengths[at];
            }
            _ => {}
        }
        let moves = 1 + random.below(most_moves);
        let call = Call {
            sheet: &bytes,
            book: &book,
            goal: &goal,
            edits: &edits,
            lengths: &lengths,
            dispatchers: ours,
            moves,
        };
        outcomes[call.compare(tally)[2]] += 1;
    }
    assert!(outcomes.iter().all(|count| 50 * count > rounds), "each outcome is frequent: {outcomes:?}");
}

/// Every question in its place: 62 before the sheet, the book, the goal, each edit, and 31 or 32 of the dispatcher's edits. Known
/// without the reference. A fault in a later place never shows.
fn orders(tally: &mut Tally) {
    let sound = sheet::store(&Graph::blank(2));
    let goal: &[u8] = &[0x23, 0x00, 0x01];
    let end: &[u8] = &[0x30];
    let doubling = [[0x31, 0x00, 0x03, 0x00].repeat(30), vec![0x30]].concat();
    let deep = [[0x31, 0x00, 0x02].repeat(255), vec![0x30]].concat();
    let label: &[u8] = &[0x23, 0x00, 0x03, 0x00];
    let bad: &[u8] = &[0xFF];
    let mut played = |what, sheet: &[u8], book: &[u8], goal: &[u8], texts: &[&[u8]], ours: usize, moves, numbers| {
        let lengths: Vec<usize> = texts.iter().map(|text| text.len()).collect();
        let edits = texts.concat();
        let call = Call { sheet, book, goal, edits: &edits, lengths: &lengths, dispatchers: ours, moves };
        call.known(tally, what, numbers);
    };
    for moves in [0, 7, 8, 256 + 1, 1 << 32 | 1, 1 << 63, usize::MAX] {
        played("62", &[], bad, &[], &[bad, bad], 1, moves, [62, 0, 3, 0]);
    }
    for (ours, theirs) in [(0, 0), (0, 1), (0, 4), (5, 0), (5, 4), (9, 1), (1, 5), (4, 5), (4, 9), (256 + 1, 0)] {
        played("62", &[], bad, &[], &vec![bad; ours + theirs], ours, 1, [62, 0, 3, 0]);
    }
    // More dispatcher edits than there are edits.
    (1..4).for_each(|count| played("62", &[], bad, &[], &vec![bad; count], count + 1, 1, [62, 0, 3, 0]));
    for (ours, theirs) in (1..=4).flat_map(|ours| (0..=4).map(move |theirs| (ours, theirs))) {
        for moves in [1, 2, 6] {
            played("in range", &[], bad, &[], &vec![bad; ours + theirs], ours, moves, [1, 0, 3, 0]);
            played("in range", &sound, &[], goal, &vec![end; ours + theirs], ours, moves, [0, 0, 1, 0]);
        }
    }
    let sheets: [(usize, u8, [usize; 4]); 4] =
        [(600, 1, [2, 1, 3, 0]), (512, 1, [3, 1, 3, 0]), (400, 7, [4, 0, 3, 0]), (2, 61, [3, 0, 3, 0])];
    for (at, value, numbers) in sheets {
        let mut bytes = sound.clone();
        bytes[at] = value;
        if numbers[0] != 2 {
            sheet::seal(&mut bytes[at / 512 * 512..(at / 512 + 1) * 512]);
        }
        played("orders of play", &bytes, bad, &[], &[bad], 1, 1, numbers);
    }
    let rules: [(Vec<u8>, [usize; 4]); 6] = [
        (vec![0x21; 4097], [11, 0, 3, 0]),
        (vec![0x21, 0x01], [12, 2, 3, 0]),
        (vec![0x21, 0x11], [13, 1, 3, 0]),
        ([vec![0x23, 0x00], vec![0x05; 32]].concat(), [14, 33, 3, 0]),
        (vec![0x23, 0x02, 0x01], [15, 1, 3, 0]),
        (vec![0x23, 0x00, 0x0B, 0x3C, 0x11, 0x00, 0x01], [15, 3, 3, 0]),
    ];
    for (text, numbers) in &rules {
        played("orders of play", &sound, text, &[], &[bad], 1, 1, *numbers);
        played("goal", &sound, &[], text, &[bad], 1, 1, *numbers);
    }
    played("orders of play", &sound, &[&goal.repeat(32)[..], bad].concat(), &[], &[bad], 1, 1, [16, 96, 3, 0]);
    played("goal", &sound, &[], &[], &[bad], 1, 1, [12, 0, 3, 0]);
    played("goal", &sound, &[], &goal.repeat(2), &[bad], 1, 1, [16, 3, 3, 0]);
    played("goal", &sound, &[], &[goal, bad].concat(), &[bad], 1, 1, [16, 3, 3, 0]);
    let faults: [(Vec<u8>, [usize; 2]); 7] = [
        (vec![0x30; 4097], [21, 0]),
        (vec![], [22, 0]),
        (vec![0x31, 0x00], [22, 2]),
        (vec![0x21], [23, 0]),
        ([vec![0x31, 0x00], vec![0x05; 32]].concat(), [24, 33]),
        (vec![0x31, 0x00, 0x04, 0x02, 0x30], [25, 3]),
        (vec![0x30, 0x30], [26, 1]),
    ];
    // A fault in each place of two against two; before it carried books that do not fit, after it another fault.
    for (text, [number, place]) in &faults {
        for edit in 0..4 {
            let mut texts = vec![&doubling[..]; 4];
            texts[edit] = text;
            texts[edit + 1..].iter_mut().for_each(|text| *text = bad);
            played("edits", &sound, label, goal, &texts, 2, 1, [*number, *place, 3, edit]);
        }
    }
    // 31 and 32, edit by edit, of the dispatcher's alone.
    played("fit", &sound, label, label, &[&doubling, &deep], 2, 1, [31, 0, 3, 0]);
    played("fit", &sound, label, label, &[&deep, &doubling], 2, 1, [32, 0, 3, 0]);
    for edit in 0..4 {
        for (text, number) in [(&doubling, 31), (&deep, 32)] {
            let mut texts = vec![end; 8];
            texts[edit..].iter_mut().for_each(|text| *text = &deep);
            texts[edit] = text;
            played("fit", &sound, label, label, &texts, 4, 1, [number, 0, 3, edit]);
        }
    }
    played("fit", &sound, &[], label, &[&deep, &doubling], 2, 1, [0, 0, 0, 0]);
    played("fit", &sound, label, goal, &[end, &doubling, &deep], 1, 1, [0, 0, 2, 0]);
    // 62 too when the lengths together are not that of the bytes, by one or by a sum that wraps to it; before the sheet.
    let add: &[u8] = &[0x31, 0x00, 0x01, 0x30];
    let edits = [end, add].concat();
    let call =
        Call { sheet: &sound, book: &[], goal: label, edits: &edits, lengths: &[1, 4], dispatchers: 2, moves: 1 };
    call.known(tally, "filled", [0, 0, 1, 1]);
    Call { lengths: &[4, 1], ..call }.known(tally, "filled", [26, 1, 3, 0]);
    Call { lengths: &[1, 3, 1], ..call }.known(tally, "filled", [22, 3, 3, 1]);
    Call { lengths: &[0, 5], ..call }.known(tally, "filled", [22, 0, 3, 0]);
    Call { lengths: &[5, 0], ..call }.known(tally, "filled", [26, 1, 3, 0]);
    Call { lengths: &[1, 4, 0], ..call }.known(tally, "filled", [22, 0, 3, 2]);
    let wrong: [&[usize]; 12] = [
        &[1, 3],
        &[1, 5],
        &[1, 0],
        &[0, 0],
        &[6, 0],
        &[1, usize::MAX],
        &[usize::MAX, 4],
        &[6, usize::MAX],
        &[usize::MAX, 6],
        &[1 << 63, 1 << 63, 1, 4],
        &[usize::MAX, usize::MAX, 7],
        &[1, 4, usize::MAX, 1],
    ];
    for lengths in wrong {
        Call { lengths, ..call }.known(tally, "62", [62, 0, 3, 0]);
        Call { lengths, sheet: &[], book: bad, ..call }.known(tally, "62", [62, 0, 3, 0]);
    }
    Call { edits: &edits[..4], ..call }.known(tally, "62", [62, 0, 3, 0]);
    Call { edits: &[], ..call }.known(tally, "62", [62, 0, 3, 0]);
    Call { edits: &[&edits[..], bad].concat(), ..call }.known(tally, "62", [62, 0, 3, 0]);
}

fn main() {
    let mut tally = Tally::new();
    orders(&mut tally);
    bit_games(&mut tally);
    great_games(&mut tally);
    random_games(&mut tally, 4_000, 3, 131);
    random_games(&mut tally, 300, 6, 132);
    tally.all_reached("play", &[0, 2, 3, 4, 12, 13, 15, 16, 22, 26, 62]);
    tally.finish(&[0, 1, 2, 3, 4, 11, 12, 13, 14, 15, 16, 21, 22, 23, 24, 25, 26, 31, 32, 62]);
}
