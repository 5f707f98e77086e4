//! The answer numbers and their sentences.

/// A number that a call answers. The names are those of the header.
#[derive(Clone, Copy, PartialEq, Eq, Hash, Debug)]
#[non_exhaustive]
#[repr(u8)]
#[allow(missing_docs)] // their sentences stand below
pub enum Number {
    Done = 0,
    SheetLength = 1,
    SheetSums = 2,
    SheetHead = 3,
    SheetZeros = 4,
    NodeCount = 5,
    OutOfRange = 7,
    BookLength = 11,
    BookEnds = 12,
    BookCode = 13,
    BookLevel = 14,
    BookNumber = 15,
    BookRules = 16,
    EditLength = 21,
    EditEnds = 22,
    EditCode = 23,
    EditLevel = 24,
    EditNumber = 25,
    EditMore = 26,
    CarriedLength = 31,
    CarriedLevels = 32,
    Room = 33,
    RuleBroken = 41,
    Page = 51,
    LogSums = 52,
    LogBlock = 53,
    NodeTaken = 54,
    Store = 55,
    PlanName = 56,
    PlanUnfilled = 57,
    NodesTotal = 58,
    Step = 59,
    Sent = 60,
    SmallSheets = 61,
    GameRange = 62,
    Names = 63,
    WordsEnd = 64,
    WordsStart = 65,
    WordsMark = 66,
    WordsNumber = 67,
    WordsLevel = 68,
    WordsRules = 69,
    WordsLength = 70,
    /// A number that this version does not have.
    Unknown = 255,
}

/// Each number with its sentence.
const TEXTS: [(Number, &str); 43] = [
    (Number::Done, "Done."),
    (Number::SheetLength, "The sheet is not 8,704 bytes long."),
    (Number::SheetSums, "The check bytes of a block of the sheet are wrong."),
    (Number::SheetHead, "The head of a block of the sheet is wrong, or no node is in use."),
    (Number::SheetZeros, "A byte or bit of the sheet that must be zero is not."),
    (Number::NodeCount, "A blank sheet has 1 to 60 nodes."),
    (Number::OutOfRange, "The sheet has no label, arrow or node of this number."),
    (Number::BookLength, "The book is too long."),
    (Number::BookEnds, "The book ends where a byte is wanted."),
    (Number::BookCode, "A byte of the book is not a code of the sort wanted."),
    (Number::BookLevel, "The book is too deep."),
    (Number::BookNumber, "A label, arrow or node number or a count in the book is out of range."),
    (Number::BookRules, "The book has more than 32 rules, or more follows the one rule wanted."),
    (Number::EditLength, "The edit has more than 4,096 bytes."),
    (Number::EditEnds, "The edit ends where a byte is wanted."),
    (Number::EditCode, "A byte of the edit is not a code of the sort wanted."),
    (Number::EditLevel, "The edit is too deep."),
    (Number::EditNumber, "A label, arrow or node number or a count in the edit is out of range."),
    (Number::EditMore, "Bytes follow the end of the edit."),
    (Number::CarriedLength, "The book, carried back, would have more than 16,384 bytes."),
    (Number::CarriedLevels, "The book, carried back, would have more than 255 levels."),
    (Number::Room, "The scratch or output is too short."),
    (Number::RuleBroken, "A rule is broken."),
    (Number::Page, "The page is not one that such a sheet prints."),
    (Number::LogSums, "The check bytes of a block of the log are wrong."),
    (Number::LogBlock, "A block of the log is wrong or cut short, or the log ends inside an edit."),
    (Number::NodeTaken, "The node has a label or an arrow, or is the only one in use."),
    (Number::Store, "The store, or a sheet kept in it, is not sound."),
    (Number::PlanName, "A plan's name is a number from 1 to 7."),
    (Number::PlanUnfilled, "Nothing is kept under this name."),
    (Number::NodesTotal, "The two sheets have more than 60 nodes together."),
    (Number::Step, "A step is cut, its law is unknown, or it does not fit."),
    (Number::Sent, "The text that the steps make is not the one sent."),
    (Number::SmallSheets, "Small sheets have 1 to 3 nodes; book and edit may name only label 0 and arrow 0."),
    (Number::GameRange, "The lists of edits, their lengths or the number of moves are out of range."),
    (Number::Names, "The table of names is wrong here."),
    (Number::WordsEnd, "The words end where more is wanted."),
    (Number::WordsStart, "This does not begin a rule, expression or step of the sort wanted here."),
    (Number::WordsMark, "Another mark, one of ( ) and the comma, is wanted here."),
    (Number::WordsNumber, "This is not a name or count of the sort wanted here."),
    (Number::WordsLevel, "The words are nested too deep here."),
    (Number::WordsRules, "The book has more than 32 rules."),
    (Number::WordsLength, "The words stand for more than 4,096 bytes."),
];

impl Number {
    /// The number of this value; `Number::Unknown` if there is none.
    pub fn of(value: usize) -> Number {
        TEXTS.iter().map(|(number, _)| *number).find(|number| *number as usize == value).unwrap_or(Number::Unknown)
    }

    /// A sentence for the number, to show to people.
    pub fn text(self) -> &'static str {
        TEXTS.iter().find(|(number, _)| *number == self).map_or("This version has no such number.", |(_, text)| text)
    }
}
