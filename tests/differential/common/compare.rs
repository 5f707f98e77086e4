//! The outcome of a call, on both sides, and the count of comparisons.

use crate::library::{zamiathen_enter, zamiathen_witness};
use reference::answer::Answer;
use reference::witness::Witness;
use std::collections::BTreeMap;

/// Bytes on each side of a buffer that no call may touch; an odd number, so that buffers begin anywhere.
const GUARD: usize = 37;
const GUARD_BYTE: u8 = 0xA7;

/// A buffer passed to the library, with a guard on each side.
pub struct Lent {
    all: Vec<u8>,
    length: usize,
}

impl Lent {
    pub fn of(bytes: &[u8]) -> Lent {
        let guard = [GUARD_BYTE; GUARD];
        Lent { all: [&guard, bytes, &guard].concat(), length: bytes.len() }
    }

    pub fn len(&self) -> usize {
        self.length
    }

    pub fn is_empty(&self) -> bool {
        self.length == 0
    }

    pub fn ptr(&self) -> *const u8 {
        self.all[GUARD..].as_ptr()
    }

    pub fn mut_ptr(&mut self) -> *mut u8 {
        self.all[GUARD..].as_mut_ptr()
    }

    /// All bytes, the guards too.
    pub fn all(self) -> Vec<u8> {
        self.all
    }
}

/// What a call leaves: its numbers, the first of them the answer's number where it has one, and all buffers passed to it.
#[derive(PartialEq)]
pub struct Outcome {
    pub numbers: Vec<usize>,
    pub buffers: Vec<Vec<u8>>,
}

impl Outcome {
    pub fn new(numbers: &[usize], buffers: Vec<Lent>) -> Outcome {
        Outcome { numbers: numbers.to_vec(), buffers: buffers.into_iter().map(Lent::all).collect() }
    }

    pub fn of_answer(answer: Answer, buffers: Vec<Lent>) -> Outcome {
        Outcome::new(&[answer.number, answer.place], buffers)
    }
}

/// Enters an edit: the answer's numbers, and sheet, book, edit and scratch as they are left.
pub fn enter(sheet: &[u8], book: &[u8], edit: &[u8], scratch: &[u8]) -> ([usize; 2], [Lent; 4]) {
    let (mut sheet, book) = (Lent::of(sheet), Lent::of(book));
    let (edit, mut scratch) = (Lent::of(edit), Lent::of(scratch));
    let found = unsafe {
        zamiathen_enter(
            sheet.mut_ptr(),
            sheet.len(),
            book.ptr(),
            book.len(),
            edit.ptr(),
            edit.len(),
            scratch.mut_ptr(),
            scratch.len(),
        )
    };
    ([found.number, found.place], [sheet, book, edit, scratch])
}

/// Asks who breaks the first rule of a text, and compares.
pub fn witness(tally: &mut Tally, what: &'static str, sheet: &[u8], text: &[u8], wanted: (Answer, Witness)) {
    let (lent, lent_text) = (Lent::of(sheet), Lent::of(text));
    let found = unsafe { zamiathen_witness(lent.ptr(), lent.len(), lent_text.ptr(), lent_text.len()) };
    let numbers = [found.number, found.place, found.kind, found.first, found.second, found.nodes as usize];
    let (answer, told) = wanted;
    let wanted = [answer.number, answer.place, told.kind, told.first, told.second, told.nodes as usize];
    let lent = [Outcome::new(&numbers, vec![lent, lent_text]), Outcome::new(&wanted, vec![Lent::of(sheet), Lent::of(text)])];
    tally.compare(what, &lent[0], &lent[1], &[("sheet", sheet), ("rule", text)]);
}

/// How many comparisons agreed, and how often each answer number came.
#[derive(Default)]
pub struct Tally {
    passed: usize,
    reached: BTreeMap<(&'static str, usize), usize>,
}

impl Tally {
    pub fn new() -> Tally {
        Tally::default()
    }

    /// Counts two equal outcomes and their answer.
    pub fn compare(&mut self, what: &'static str, found: &Outcome, wanted: &Outcome, inputs: &[(&str, &[u8])]) {
        self.compare_numbers(what, found, wanted, inputs);
        *self.reached.entry((what, wanted.numbers[0])).or_insert(0) += 1;
    }

    /// Counts two equal outcomes whose numbers are not an answer. The first difference ends the program with the inputs in
    /// hexadecimal.
    pub fn compare_numbers(&mut self, what: &str, found: &Outcome, wanted: &Outcome, inputs: &[(&str, &[u8])]) {
        if found != wanted {
            self.fail(what, found, wanted, inputs);
        }
        self.passed += 1;
    }

    /// How often a number came, from any call.
    fn reached(&self, number: usize) -> usize {
        self.reached.iter().filter(|((_, answer), _)| *answer == number).map(|(_, count)| count).sum()
    }

    /// Ends the program if one of two answers of a call is less than a tenth of both.
    pub fn both_frequent(&self, what: &'static str, one: usize, other: usize) {
        let [one, other] = [one, other].map(|number| self.reached.get(&(what, number)).copied().unwrap_or(0));
        assert!(10 * one > one + other && 10 * other > one + other, "{what}: {one} and {other} are both frequent");
    }

    /// Ends the program if a call never gave one of these answers.
    pub fn all_reached(&self, what: &'static str, numbers: &[usize]) {
        for number in numbers {
            assert!(self.reached.contains_key(&(what, *number)), "{what}: {number} never came");
        }
    }

    fn fail(&self, what: &str, found: &Outcome, wanted: &Outcome, inputs: &[(&str, &[u8])]) -> ! {
        println!("{what} differs");
        println!("library:   {:?}", found.numbers);
        println!("reference: {:?}", wanted.numbers);
        for (which, (ours, theirs)) in found.buffers.iter().zip(&wanted.buffers).enumerate() {
            if let Some(at) = ours.iter().zip(theirs).position(|(a, b)| a != b) {
                let place = at as isize - GUARD as isize;
                println!("buffer {which}, byte {place}: library {:02X}, reference {:02X}", ours[at], theirs[at]);
            }
        }
        for (name, bytes) in inputs {
            println!("{name}, {} bytes:", bytes.len());
            dump(bytes);
        }
        println!("{} passed, 1 failed", self.passed);
        std::process::exit(1);
    }

    /// Prints how often each number came, fails if a wanted one never did, and ends with the count.
    pub fn finish(self, wanted: &[usize]) {
        for ((what, number), count) in &self.reached {
            println!("{what} {number:02}: {count}");
        }
        let missing: Vec<usize> = wanted.iter().copied().filter(|number| self.reached(*number) == 0).collect();
        if !missing.is_empty() {
            println!("answers never reached: {missing:?}");
            println!("{} passed, {} failed", self.passed, missing.len());
            std::process::exit(1);
        }
        println!("{} passed, 0 failed", self.passed);
    }
}

/// Hexadecimal, 32 bytes a line; a line of zeros is left out.
fn dump(bytes: &[u8]) {
    for (line, part) in bytes.chunks(32).enumerate() {
        if part.iter().any(|byte| *byte != 0) || bytes.len() <= 32 {
            let text: Vec<String> = part.iter().map(|byte| format!("{byte:02X}")).collect();
            println!("{:5}: {}", line * 32, text.join(" "));
        }
    }
}
