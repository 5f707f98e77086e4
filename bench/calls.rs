//! The calls that are measured, made by the library and by plain Rust, and their inputs.

use crate::library::{zamiathen_apply, zamiathen_carry_back, zamiathen_check, zamiathen_enter, zamiathen_judge};
use crate::{sheets, words};

/// The buffers of a call, and the sheet that is copied in before it. Only the row of the region has one, and only rows of
/// words have names and a text.
pub struct Buffers {
    opening: Vec<u8>,
    pub sheet: Vec<u8>,
    book: Vec<u8>,
    edit: Vec<u8>,
    pub scratch: Vec<u8>,
    region: Vec<Vec<u8>>,
    pub names: Vec<u8>,
    pub text: Vec<u8>,
}

impl Buffers {
    fn new(opening: Vec<u8>, book: Vec<u8>, edit: Vec<u8>) -> Buffers {
        let (sheet, scratch) = (opening.clone(), vec![0; 16384]);
        Buffers { sheet, opening, book, edit, scratch, region: vec![], names: vec![], text: vec![] }
    }

    pub fn of_words(names: Vec<u8>, text: Vec<u8>) -> Buffers {
        Buffers { names, text, ..Buffers::new(vec![], vec![], vec![]) }
    }

    /// The input of the program `enter`.
    fn from_input(bytes: &[u8]) -> Buffers {
        let (sheet, rest) = bytes.split_at(8704);
        let (book, rest) = sized(rest);
        let (edit, _) = sized(rest);
        Buffers::new(sheet.to_vec(), book.to_vec(), edit.to_vec())
    }

    /// The scratch is filled with a byte that nothing else uses, which shows whether a call leaves what it should leave.
    pub fn set(&mut self) {
        self.sheet.copy_from_slice(&self.opening);
        self.scratch.fill(0xA5);
    }
}

/// A text with its two-byte length before it, and what follows.
fn sized(bytes: &[u8]) -> (&[u8], &[u8]) {
    bytes[2..].split_at(usize::from(u16::from_le_bytes([bytes[0], bytes[1]])))
}

/// Number, place and what else the call answers.
pub type Outcome = [usize; 4];
pub type Call = fn(&mut Buffers) -> Outcome;

/// A call by the library, and by plain Rust.
pub type Sides = [Call; 2];

const CHECK: Sides = [library_check, plain_check];
const REGION: Sides = [library_region, plain_region];
const JUDGE: Sides = [library_judge, plain_judge];
const CARRY_BACK: Sides = [library_carry_back, plain_carry_back];
const ENTER: Sides = [library_enter, plain_enter];
const APPLY: Sides = [library_apply, plain_apply];
pub const ALL_CALLS: [(&str, Sides); 5] =
    [("check", CHECK), ("judge", JUDGE), ("carry back", CARRY_BACK), ("enter", ENTER), ("apply", APPLY)];

/// A line of the table.
pub struct Row {
    pub name: String,
    pub buffers: Buffers,
    pub sides: Sides,
}

impl Row {
    pub fn new(name: &str, buffers: Buffers, sides: Sides) -> Row {
        Row { name: name.to_string(), buffers, sides }
    }

    /// How many sheets are loaded; 0 if it is one call.
    pub fn sheets(&self) -> usize {
        self.buffers.region.len()
    }
}

/// The questions of single sheets and of a region, the station of `examples/station`, words, then the slow inputs of
/// `bench/data`.
pub fn rows() -> Vec<Row> {
    let mut rows = vec![
        questions("sheet questions", station("sheet")),
        questions("sheet questions, full", sheets::full()),
        questions("sheet questions, empty", sheets::blank()),
        region(),
        Row::new("judge", on_station("sheet", "move"), JUDGE),
        Row::new("carry back", on_station("sheet", "move"), CARRY_BACK),
        Row::new("enter, done", on_station("sheet", "move"), ENTER),
        Row::new("enter, 41", on_station("sheet", "crowd"), ENTER),
        Row::new("apply", on_station("sheet", "move"), APPLY),
    ];
    rows.extend(words::rows());
    for number in 0..32 {
        let file = format!("bench/data/{number:02}.in");
        rows.push(Row::new(&format!("enter, {file}"), Buffers::from_input(&load(&file)), ENTER));
    }
    rows
}

fn questions(name: &str, sheet: Vec<u8>) -> Row {
    Row::new(name, Buffers::new(sheet, vec![], vec![]), CHECK)
}

fn region() -> Row {
    let mut buffers = Buffers::new(vec![], vec![], vec![]);
    buffers.region = sheets::region();
    Row::new(&format!("region of {} sheets", buffers.region.len()), buffers, REGION)
}

/// Inputs that are not measured: each edit of the station on each of its sheets, of which `clash` breaks a rule, and its
/// sheet with a byte of each block changed.
pub fn compared_only() -> Vec<Row> {
    let mut rows = vec![];
    for block in 0..17 {
        let mut row = Row::new(&format!("damaged block {block}"), on_station("sheet", "move"), ENTER);
        row.buffers.opening[512 * block + 29 * block] ^= 255;
        rows.push(row);
    }
    for sheet in ["sheet", "sheet_after", "clash"] {
        for edit in ["move", "move_back", "crowd", "swap", "repair"] {
            rows.push(Row::new(&format!("{sheet} and {edit}"), on_station(sheet, edit), ENTER));
        }
    }
    rows
}

fn on_station(sheet: &str, edit: &str) -> Buffers {
    Buffers::new(station(sheet), station("book"), station(edit))
}

pub fn load(path: &str) -> Vec<u8> {
    std::fs::read(path).unwrap_or_else(|error| panic!("{path}: {error}"))
}

pub fn station(file: &str) -> Vec<u8> {
    load(&format!("examples/station/{file}.bin"))
}

fn library_check(b: &mut Buffers) -> Outcome {
    let [number, place] = library_answer(&b.sheet);
    [number, place, 0, 0]
}

fn library_answer(sheet: &[u8]) -> [usize; 2] {
    let found = unsafe { zamiathen_check(sheet.as_ptr(), sheet.len()) };
    [found.number, found.place]
}

fn plain_check(b: &mut Buffers) -> Outcome {
    outcome(fast::check(&b.sheet), 0, 0)
}

fn plain_answer(sheet: &[u8]) -> [usize; 2] {
    let answer = fast::check(sheet);
    [usize::from(answer.number), answer.place as usize]
}

fn library_region(b: &mut Buffers) -> Outcome {
    load_region(b, library_answer)
}

fn plain_region(b: &mut Buffers) -> Outcome {
    load_region(b, plain_answer)
}

/// Asks each sheet of the region. Numbers and places go into the scratch, where all are compared; answered is how many
/// sheets are sound.
#[inline(always)]
fn load_region(b: &mut Buffers, check: impl Fn(&[u8]) -> [usize; 2]) -> Outcome {
    let mut sound = 0;
    for (sheet, left) in b.region.iter().zip(b.scratch.chunks_mut(2)) {
        let answer = check(sheet);
        left.copy_from_slice(&answer.map(|number| number as u8));
        sound += usize::from(answer[0] == 0);
    }
    [sound, 0, 0, 0]
}

fn library_judge(b: &mut Buffers) -> Outcome {
    let found = unsafe { zamiathen_judge(b.sheet.as_ptr(), b.sheet.len(), b.book.as_ptr(), b.book.len()) };
    [found.number, found.place, found.start, found.length]
}

fn plain_judge(b: &mut Buffers) -> Outcome {
    let (answer, start, length) = fast::judge(&b.sheet, &b.book);
    outcome(answer, start, length)
}

fn library_carry_back(b: &mut Buffers) -> Outcome {
    let (out, room) = (b.scratch.as_mut_ptr(), b.scratch.len());
    let found =
        unsafe { zamiathen_carry_back(b.book.as_ptr(), b.book.len(), b.edit.as_ptr(), b.edit.len(), out, room) };
    [found.number, found.place, found.length, 0]
}

fn plain_carry_back(b: &mut Buffers) -> Outcome {
    let (answer, length) = fast::carry_back(&b.book, &b.edit, &mut b.scratch);
    outcome(answer, length, 0)
}

fn library_enter(b: &mut Buffers) -> Outcome {
    let found = unsafe {
        zamiathen_enter(
            b.sheet.as_mut_ptr(),
            b.sheet.len(),
            b.book.as_ptr(),
            b.book.len(),
            b.edit.as_ptr(),
            b.edit.len(),
            b.scratch.as_mut_ptr(),
            b.scratch.len(),
        )
    };
    [found.number, found.place, 0, 0]
}

fn plain_enter(b: &mut Buffers) -> Outcome {
    outcome(fast::enter(&mut b.sheet, &b.book, &b.edit, &mut b.scratch), 0, 0)
}

fn library_apply(b: &mut Buffers) -> Outcome {
    let found = unsafe { zamiathen_apply(b.sheet.as_mut_ptr(), b.sheet.len(), b.edit.as_ptr(), b.edit.len()) };
    [found.number, found.place, 0, 0]
}

fn plain_apply(b: &mut Buffers) -> Outcome {
    outcome(fast::apply(&mut b.sheet, &b.edit), 0, 0)
}

fn outcome(answer: fast::Answer, first: usize, second: usize) -> Outcome {
    [usize::from(answer.number), answer.place as usize, first, second]
}
