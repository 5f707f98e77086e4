//! Small sheets counted by the library, compared with the reference and with counts known without it.

use common::compare::{Lent, Outcome, Tally};
use common::library::zamiathen_count;
use common::random::Random;
use common::terms::{self, Names};
use common::texts;
use reference::answer::Answer;
use reference::counts::{count, Counts};
use reference::syntax::{Coded, Rule};

/// The library's call against this answer and these counts, which are 0 after a refusal.
fn known(tally: &mut Tally, what: &'static str, n: usize, book: &[u8], edit: &[u8], wanted: Result<Counts, Answer>) {
    let (lent_book, lent_edit) = (Lent::of(book), Lent::of(edit));
    let found = unsafe { zamiathen_count(n, lent_book.ptr(), lent_book.len(), lent_edit.ptr(), lent_edit.len()) };
    let numbers = [&[found.number, found.place], &found.counts[..]].concat();
    let found = Outcome::new(&numbers, vec![lent_book, lent_edit]);
    let numbers = match wanted {
        Ok(counts) => [&[0, 0], &counts[..]].concat(),
        Err(answer) => vec![answer.number, answer.place, 0, 0, 0, 0],
    };
    let wanted = Outcome::new(&numbers, vec![Lent::of(book), Lent::of(edit)]);
    tally.compare(what, &found, &wanted, &[("n", &n.to_le_bytes()), ("book", book), ("edit", edit)]);
}

fn compare(tally: &mut Tally, n: usize, book: &[u8], edit: &[u8]) {
    let wanted = count(n, book, edit);
    if let Ok(counts) = wanted {
        assert_eq!(counts.iter().sum::<usize>(), [4, 64, 4096][n - 1], "they total all sheets");
    }
    known(tally, "count", n, book, edit, wanted);
}

/// The marked case and others whose counts are easy to work out: how many of n nodes have label 0, or the arrow from 0 to 0.
fn told(tally: &mut Tally) {
    let all = |n: usize| 1usize << (n + n * n);
    for n in 1..=3 {
        let labelled = all(n) >> n;
        let rest = all(n) - labelled;
        let everywhere = [0x21, 0x01, 0x03, 0x00];
        let half = all(n) / 2;
        let cases: [(&[u8], &[u8], Counts); 10] = [
            (&[], &[0x30], [all(n), 0, 0, 0]),
            (&[0x21, 0x01, 0x02], &[0x30], [0, 0, 0, all(n)]),
            (&everywhere, &[0x30], [labelled, 0, 0, rest]),
            (&everywhere, &[0x31, 0x00, 0x01, 0x30], [labelled, 0, rest, 0]),
            (&everywhere, &[0x32, 0x00, 0x04, 0x00, 0x30], [0, labelled, 0, rest]),
            (&[0x21, 0x03, 0x00, 0x02], &[0x32, 0x00, 0x01, 0x30], [labelled, 0, rest, 0]),
            (&[0x24, 0x00, 0x00, 0x11, 0x00], &[0x30], [half, 0, 0, half]),
            (&[0x24, 0x00, 0x00, 0x11, 0x00], &[0x34, 0x00, 0x11, 0x00, 0x30], [0, half, 0, half]),
            (&[0x24, 0x00, 0x00, 0x11, 0x00], &[0x33, 0x00, 0x17, 0x00, 0x00, 0x30], [half, 0, half, 0]),
            // Taken if it is there, else given.
            (
                &[0x23, 0x00, 0x03, 0x00],
                &[0x35, 0x23, 0x00, 0x03, 0x00, 0x32, 0x00, 0x01, 0x30, 0x31, 0x00, 0x01, 0x30, 0x30],
                [0, half, half, 0],
            ),
        ];
        for (book, edit, counts) in cases {
            known(tally, "told", n, book, edit, Ok(counts));
        }
    }
}

/// Another label or arrow at each place of each code, taken or not; node and count numbers are not names.
fn names(tally: &mut Tally) {
    let named: [(&[u8], &[u8]); 16] = [
        (&[0x21, 0x03, 0x01, 0x01], &[0x30]),
        (&[0x21, 0x06, 0x02, 0x03, 0x2F, 0x01], &[0x30]),
        (&[0x26, 0x21, 0x01, 0x01, 0x22, 0x11, 0x01, 0x11, 0x00], &[0x30]),
        (&[0x21, 0x02, 0x08, 0x12, 0x11, 0x0F, 0x01], &[0x30]),
        (&[0x21, 0x02, 0x0A, 0x01, 0x11, 0x00, 0x03, 0x01], &[0x30]),
        (&[0x21, 0x02, 0x0B, 0x00, 0x11, 0x01, 0x01], &[0x30]),
        (&[0x22, 0x16, 0x11, 0x00, 0x03, 0x01, 0x11, 0x00], &[0x30]),
        (&[0x21, 0x01, 0x01, 0x27, 0x23, 0x00, 0x03, 0x01], &[0x30]),
        (&[], &[0x31, 0x01, 0x02, 0x30]),
        (&[], &[0x32, 0x01, 0x01, 0x30]),
        (&[], &[0x33, 0x01, 0x11, 0x00, 0x30]),
        (&[], &[0x34, 0x0F, 0x17, 0x00, 0x00, 0x30]),
        (&[], &[0x31, 0x00, 0x03, 0x01, 0x30]),
        (&[], &[0x35, 0x23, 0x00, 0x03, 0x01, 0x30, 0x30, 0x30]),
        (&[], &[0x35, 0x21, 0x01, 0x01, 0x30, 0x31, 0x00, 0x08, 0x11, 0x01, 0x01, 0x30, 0x30]),
        (&[], &[0x35, 0x21, 0x01, 0x02, 0x32, 0x2F, 0x01, 0x30, 0x30, 0x30]),
    ];
    for n in 1..=3 {
        for (book, edit) in named {
            known(tally, "another name", n, book, edit, Err(Answer { number: 61, place: 0 }));
        }
    }
    // 17 01 02 and 0A 03, 0B 01 name none.
    compare(tally, 3, &[0x22, 0x17, 0x01, 0x02, 0x11, 0x00, 0x23, 0x02, 0x0A, 0x03, 0x11, 0x00, 0x01], &[0x30]);
    compare(tally, 2, &[0x23, 0x01, 0x0B, 0x01, 0x11, 0x00, 0x04, 0x01], &[0x33, 0x00, 0x17, 0x01, 0x01, 0x30]);
}

/// Every question in its place: n, each fault of the book, each of the edit, and another name. Known without the reference.
fn orders(tally: &mut Tally) {
    let refused = |number, place| Some(Answer { number, place });
    let books: [(Vec<u8>, Option<Answer>); 9] = [
        (vec![0x21, 0x01, 0x01], None),
        (vec![0x21, 0x03, 0x01, 0x01], refused(61, 0)),
        (vec![0x21; 4097], refused(11, 0)),
        (vec![0x21, 0x03, 0x01], refused(12, 3)),
        (vec![0x21, 0x03, 0x01, 0x11], refused(13, 3)),
        ([vec![0x23, 0x00], vec![0x05; 32]].concat(), refused(14, 33)),
        (vec![0x23, 0x03, 0x01], refused(15, 1)),
        (vec![0x23, 0x00, 0x0A, 0x00, 0x11, 0x00, 0x01], refused(15, 3)),
        ([vec![0x21, 0x03, 0x01, 0x01].repeat(32), vec![0xFF]].concat(), refused(16, 128)),
    ];
    let edits: [(Vec<u8>, Option<Answer>); 9] = [
        (vec![0x30], None),
        (vec![0x31, 0x01, 0x01, 0x30], refused(61, 0)),
        (vec![0x30; 4097], refused(21, 0)),
        (vec![], refused(22, 0)),
        (vec![0x31, 0x01, 0x01], refused(22, 3)),
        (vec![0x31, 0x01, 0x11], refused(23, 2)),
        ([vec![0x31, 0x01], vec![0x05; 32]].concat(), refused(24, 33)),
        (vec![0x31, 0x01, 0x04, 0x03, 0x30], refused(25, 3)),
        (vec![0x30, 0x31], refused(26, 1)),
    ];
    let is_name = |answer: &Answer| answer.number == 61;
    for n in [0, 1, 2, 3, 4, 60, 256 + 1, 1 << 32 | 2, 1 << 63, 1 << 63 | 3, usize::MAX] {
        for (book, of_book) in &books {
            for (edit, of_edit) in &edits {
                let faults = [of_book, of_edit].map(|answer| answer.filter(|answer| !is_name(answer)));
                let name = of_book.filter(is_name).or(of_edit.filter(is_name));
                let answer = match n {
                    1..=3 => faults[0].or(faults[1]).or(name),
                    _ => refused(61, 0),
                };
                let wanted = answer.map_or(Ok([1 << (n.min(3) + n.min(3) * n.min(3)), 0, 0, 0]), Err);
                known(tally, "orders of count", n, book, edit, wanted);
            }
        }
    }
}

/// Books and edits of label 0 and arrow 0, now and then with a fault.
fn random_texts(tally: &mut Tally, n: usize, rounds: usize) {
    let mut random = Random::new(120 + n as u64);
    for _ in 0..rounds {
        let names = Names { n, labels: 1, arrows: 1 };
        let mut rules = terms::book(&mut random, names, 3);
        if rules.is_empty() || random.one_in(3) {
            rules.push(terms::rule(&mut random, names, 3));
        }
        if random.one_in(2) {
            rules[0] = Rule::Not(Box::new(rules[0].clone()));
        }
        let steps = random.below(5);
        let levels = 2 + random.below(3);
        let mut edit = terms::edit(&mut random, names, steps, levels).code();
        let mut book = terms::book_code(&rules);
        match random.below(12) {
            0 => book = texts::damaged(&mut random, book),
            1 => edit = texts::damaged(&mut random, edit),
            _ => {}
        }
        compare(tally, n, &book, &edit);
    }
}

fn main() {
    let mut tally = Tally::new();
    told(&mut tally);
    names(&mut tally);
    orders(&mut tally);
    random_texts(&mut tally, 1, 4_000);
    random_texts(&mut tally, 2, 2_000);
    random_texts(&mut tally, 3, 60);
    tally.all_reached("orders of count", &[0, 11, 12, 13, 14, 15, 16, 21, 22, 23, 24, 25, 26, 61]);
    tally.finish(&[0, 11, 12, 13, 14, 15, 16, 21, 22, 23, 24, 25, 26, 61]);
}
