//! The calls that turn codes into words and words into codes, on both sides.

use crate::compare::{Lent, Outcome, Tally};
use crate::library::{
    zamiathen_book_from_words, zamiathen_book_to_words, zamiathen_edit_from_words, zamiathen_edit_to_words,
    zamiathen_rule_to_words, CLength,
};
use reference::calls::Lengthy;
use reference::words;

type Library = unsafe extern "C" fn(*const u8, usize, *const u8, usize, *mut u8, usize) -> CLength;

/// A call by its name, by the library and by the reference.
#[derive(Clone, Copy)]
pub struct Call {
    pub what: &'static str,
    library: Library,
    reference: fn(&[u8], &[u8], &mut [u8]) -> Lengthy,
}

pub const BOOK_TO_WORDS: Call =
    Call { what: "book to words", library: zamiathen_book_to_words, reference: words::book_to_words };
pub const EDIT_TO_WORDS: Call =
    Call { what: "edit to words", library: zamiathen_edit_to_words, reference: words::edit_to_words };
pub const RULE_TO_WORDS: Call =
    Call { what: "rule to words", library: zamiathen_rule_to_words, reference: words::rule_to_words };
pub const BOOK_FROM_WORDS: Call =
    Call { what: "book from words", library: zamiathen_book_from_words, reference: words::book_from_words };
pub const EDIT_FROM_WORDS: Call =
    Call { what: "edit from words", library: zamiathen_edit_from_words, reference: words::edit_from_words };

const FILL: u8 = 0x5A;

impl Call {
    /// What the reference writes, and its answer's number and place.
    pub fn wanted(&self, names: &[u8], text: &[u8], room: usize) -> (Vec<u8>, [usize; 2]) {
        let mut output = vec![0; room];
        let found = (self.reference)(names, text, &mut output);
        output.truncate(found.length);
        (output, [found.answer.number, found.answer.place])
    }

    /// The same with as much room as is needed.
    pub fn with_room(&self, names: &[u8], text: &[u8]) -> (Vec<u8>, [usize; 2]) {
        match self.wanted(names, text, 8192) {
            (_, [33, needed]) => self.wanted(names, text, needed),
            enough => enough,
        }
    }

    /// Both sides with an output of this many bytes. Gives back what was written.
    pub fn compare(&self, tally: &mut Tally, names: &[u8], text: &[u8], room: usize) -> Vec<u8> {
        let (written, [number, place]) = self.wanted(names, text, room);
        self.answers(tally, names, text, room, [number, place], &written);
        written
    }

    /// The library's call against an answer and what it writes; the rest of the output is left as it was.
    pub fn answers(
        &self,
        tally: &mut Tally,
        names: &[u8],
        text: &[u8],
        room: usize,
        answer: [usize; 2],
        written: &[u8],
    ) {
        let (lent_names, lent_text, mut output) = (Lent::of(names), Lent::of(text), Lent::of(&vec![FILL; room]));
        let found = unsafe {
            (self.library)(
                lent_names.ptr(),
                lent_names.len(),
                lent_text.ptr(),
                lent_text.len(),
                output.mut_ptr(),
                output.len(),
            )
        };
        let found = Outcome::new(&[found.number, found.place, found.length], vec![lent_names, lent_text, output]);
        let left = [written, &vec![FILL; room - written.len()]].concat();
        let lent = vec![Lent::of(names), Lent::of(text), Lent::of(&left)];
        let wanted = Outcome::new(&[answer[0], answer[1], written.len()], lent);
        tally.compare(self.what, &found, &wanted, &[("names", names), ("text", text), ("room", &room.to_le_bytes())]);
    }
}
