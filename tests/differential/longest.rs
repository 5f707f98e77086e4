//! The longest words of a book, of an edit and of a carried rule: by dynamic programming over the length of the codes and
//! the levels, with names of 64 bytes; each with codes that reach it, printed by both sides, and against the header.

use common::compare::Tally;
use common::words::{Call, BOOK_FROM_WORDS, BOOK_TO_WORDS, EDIT_FROM_WORDS, EDIT_TO_WORDS, RULE_TO_WORDS};
use reference::words::read_carried;

/// The longest words of codes of each length; of lengths that no codes have, far below zero.
type Longest = Vec<i32>;
const NO_CODES: i32 = i32::MIN / 4;

const NODE: usize = 0;
const ARROW: usize = 1;
const RULE: usize = 2;
const STEP: usize = 3;

/// A number byte, and how long it is written.
type Number = (u8, i32);
const NAME: Number = (0, 64);

/// A code: its sort, its word, its numbers, and the sorts of its operands.
struct Form {
    sort: usize,
    code: u8,
    word: &'static str,
    numbers: &'static [Number],
    operands: &'static [usize],
}

const fn form(
    sort: usize,
    code: u8,
    word: &'static str,
    numbers: &'static [Number],
    operands: &'static [usize],
) -> Form {
    Form { sort, code, word, numbers, operands }
}

const FORMS: [Form; 29] = [
    form(NODE, 0x01, "all", &[], &[]),
    form(NODE, 0x02, "none", &[], &[]),
    form(NODE, 0x03, "", &[NAME], &[]),
    form(NODE, 0x04, "", &[NAME], &[]),
    form(NODE, 0x05, "not", &[], &[NODE]),
    form(NODE, 0x06, "and", &[], &[NODE, NODE]),
    form(NODE, 0x07, "or", &[], &[NODE, NODE]),
    form(NODE, 0x08, "some", &[], &[ARROW, NODE]),
    form(NODE, 0x09, "every", &[], &[ARROW, NODE]),
    form(NODE, 0x0A, "at-least", &[(60, 2)], &[ARROW, NODE]),
    form(NODE, 0x0B, "at-most", &[(59, 2)], &[ARROW, NODE]),
    form(ARROW, 0x11, "", &[NAME], &[]),
    form(ARROW, 0x12, "reversed", &[], &[ARROW]),
    form(ARROW, 0x13, "or", &[], &[ARROW, ARROW]),
    form(ARROW, 0x14, "and", &[], &[ARROW, ARROW]),
    form(ARROW, 0x15, "without", &[], &[ARROW, ARROW]),
    form(ARROW, 0x16, "to", &[], &[ARROW, NODE]),
    form(ARROW, 0x17, "pair", &[NAME, NAME], &[]),
    form(RULE, 0x21, "each", &[], &[NODE, NODE]),
    form(RULE, 0x22, "each-arrow", &[], &[ARROW, ARROW]),
    form(RULE, 0x23, "is", &[NAME], &[NODE]),
    form(RULE, 0x24, "joined", &[NAME, NAME], &[ARROW]),
    form(RULE, 0x25, "and", &[], &[RULE, RULE]),
    form(RULE, 0x26, "or", &[], &[RULE, RULE]),
    form(RULE, 0x27, "not", &[], &[RULE]),
    form(STEP, 0x31, "mark", &[NAME], &[NODE]),
    form(STEP, 0x32, "unmark", &[NAME], &[NODE]),
    form(STEP, 0x33, "add", &[NAME], &[ARROW]),
    form(STEP, 0x34, "take", &[NAME], &[ARROW]),
];

impl Form {
    /// The bytes and the words that it has without its operands: a word, brackets, commas and numbers.
    fn own(&self) -> (usize, i32) {
        let items = (self.numbers.len() + self.operands.len()) as i32;
        let marks = if self.word.is_empty() || items == 0 { 0 } else { 2 * items };
        let numbers: i32 = self.numbers.iter().map(|(_, width)| width).sum();
        (1 + self.numbers.len(), self.word.len() as i32 + marks + numbers)
    }

    fn head(&self) -> Vec<u8> {
        [self.code].into_iter().chain(self.numbers.iter().map(|(byte, _)| *byte)).collect()
    }
}

/// One after the other: the best of all ways to divide each length.
fn together(first: &Longest, second: &Longest) -> Longest {
    let mut best = vec![NO_CODES; first.len()];
    for (length, words) in first.iter().enumerate().filter(|(_, words)| **words > 0) {
        for (best, other) in best[length..].iter_mut().zip(second) {
            *best = (*best).max(words + other);
        }
    }
    best
}

/// Takes over what is longer, with this many more bytes and words.
fn raise(best: &mut Longest, (bytes, words): (usize, i32), by: &Longest) {
    for (best, other) in best.iter_mut().skip(bytes).zip(by) {
        *best = (*best).max(words + other);
    }
}

/// What has no bytes and no words, and nothing else.
fn nothing(lengths: usize) -> Longest {
    let mut only = vec![NO_CODES; lengths];
    only[0] = 0;
    only
}

/// Expressions of each sort, of at most 0, 1, 2 and more levels, up to the level from which on nothing gets longer.
struct Levels(Vec<[Longest; 3]>);

impl Levels {
    fn new(longest: usize, most: usize) -> Levels {
        let mut levels = vec![[(); 3].map(|()| vec![NO_CODES; longest + 1])];
        while levels.len() <= most {
            let next = one_more(&levels[levels.len() - 1]);
            if next == levels[levels.len() - 1] {
                break;
            }
            levels.push(next);
        }
        Levels(levels)
    }

    fn at(&self, level: usize) -> &[Longest; 3] {
        &self.0[level.min(self.0.len() - 1)]
    }

    /// Codes of this sort, length and number of levels whose words are the longest. Operands are about equally long.
    fn codes(&self, sort: usize, level: usize, length: usize) -> Vec<u8> {
        let wanted = self.at(level)[sort][length];
        FORMS
            .iter()
            .filter(|form| form.sort == sort)
            .find_map(|form| self.codes_of(form, level, length, wanted))
            .expect("some form")
    }

    /// Codes of a form whose words have just this length, if there are any.
    fn codes_of(&self, form: &Form, level: usize, length: usize, wanted: i32) -> Option<Vec<u8>> {
        let (bytes, words) = form.own();
        let (rest, below) = (length.checked_sub(bytes)?, self.at(level - 1));
        let operands = match form.operands {
            [] => (rest == 0 && words == wanted).then(Vec::new)?,
            [one] => (words + below[*one][rest] == wanted).then(|| self.codes(*one, level - 1, rest))?,
            [one, other] => {
                let reaches = |first: &usize| words + below[*one][*first] + below[*other][rest - first] == wanted;
                let first = (0..=rest).filter(reaches).min_by_key(|first| first.abs_diff(rest / 2))?;
                [self.codes(*one, level - 1, first), self.codes(*other, level - 1, rest - first)].concat()
            }
            _ => unreachable!("no form has more operands"),
        };
        Some([form.head(), operands].concat())
    }
}

/// From the expressions below a level those of the level.
fn one_more(below: &[Longest; 3]) -> [Longest; 3] {
    let lengths = below[NODE].len();
    let pairs = [[NODE, NODE], [ARROW, NODE], [ARROW, ARROW], [RULE, RULE]];
    let divided = pairs.map(|[first, second]| together(&below[first], &below[second]));
    let none = nothing(lengths);
    let mut next = [(); 3].map(|()| vec![NO_CODES; lengths]);
    for form in FORMS.iter().filter(|form| form.sort != STEP) {
        let operands = match form.operands {
            [] => &none,
            [one] => &below[*one],
            two => &divided[pairs.iter().position(|pair| pair == two).expect("a pair of sorts")],
        };
        raise(&mut next[form.sort], form.own(), operands);
    }
    next.map(|longest| longest.into_iter().map(|words| if words < 0 { NO_CODES } else { words }).collect())
}

const LAST_LEVEL: usize = 32;

/// The steps of an edit on a level, and lists of them. The words of a list end with a line feed.
#[derive(Clone)]
struct Steps {
    one: Longest,
    list: Longest,
}

/// What the lines of an `if` have in addition to its rule and its branches: `if()`, `else`, `end`, three margins and line feeds.
fn branch_words(level: usize) -> i32 {
    4 + 4 + 3 + 3 * line_words(level)
}

/// A margin and a line feed.
fn line_words(level: usize) -> i32 {
    2 * (level as i32 - 1) + 1
}

/// The steps on each level; there is no level 0, and on level 33 nothing begins.
fn steps(levels: &Levels, longest: usize) -> Vec<Steps> {
    let none = Steps { one: vec![NO_CODES; longest + 1], list: nothing(longest + 1) };
    let mut all = vec![none; LAST_LEVEL + 2];
    for level in (1..=LAST_LEVEL).rev() {
        let below = levels.at(LAST_LEVEL - level);
        let mut one = vec![NO_CODES; longest + 1];
        for form in FORMS.iter().filter(|form| form.sort == STEP) {
            let (bytes, words) = form.own();
            raise(&mut one, (bytes, words + line_words(level)), &below[form.operands[0]]);
        }
        // Two lists are no longer than one with the steps of both, so the second branch may be empty.
        raise(&mut one, (3, branch_words(level)), &together(&below[RULE], &all[level + 1].list));
        all[level] = Steps { list: list(&one), one };
    }
    all
}

/// Lists of steps: a first one, and a list.
fn list(one: &Longest) -> Longest {
    let mut list = nothing(one.len());
    for length in 1..one.len() {
        list[length] =
            (1..=length).map(|first| one[first] + list[length - first]).max().expect("a length").max(NO_CODES);
    }
    list
}

/// Codes of a list of steps whose words are the longest.
fn list_codes(levels: &Levels, all: &[Steps], level: usize, length: usize) -> Vec<u8> {
    let (mut codes, mut rest) = (vec![], length);
    let Steps { one, list } = &all[level];
    while rest > 0 {
        let first = (1..=rest).find(|first| one[*first] + list[rest - first] == list[rest]).expect("a first step");
        codes.extend(step_codes(levels, all, level, first));
        rest -= first;
    }
    codes
}

fn step_codes(levels: &Levels, all: &[Steps], level: usize, length: usize) -> Vec<u8> {
    let wanted = all[level].one[length];
    let simple = |form: &Form| levels.codes_of(form, LAST_LEVEL + 1 - level, length, wanted - line_words(level));
    if let Some(codes) = FORMS.iter().filter(|form| form.sort == STEP).find_map(simple) {
        return codes;
    }
    let (rules, inner) = (&levels.at(LAST_LEVEL - level)[RULE], &all[level + 1].list);
    let reaches = |rule: &usize| branch_words(level) + rules[*rule] + inner[length - 3 - rule] == wanted;
    let rule = (1..=length - 3).find(reaches).expect("a rule and a branch");
    let condition = levels.codes(RULE, LAST_LEVEL - level, rule);
    [vec![0x35], condition, list_codes(levels, all, level + 1, length - 3 - rule), vec![0x30, 0x30]].concat()
}

/// The length at which words are the longest.
fn at_most(longest: &Longest) -> usize {
    (0..longest.len()).max_by_key(|length| longest[*length]).expect("a length")
}

const TEXT: usize = 4096;
const CARRIED: usize = 16384;
const RULES: usize = 32;

fn longest_edit(levels: &Levels) -> (usize, Vec<u8>) {
    let all = steps(levels, TEXT);
    let list = all[1].list[..TEXT].to_vec();
    let length = at_most(&list);
    (list[length] as usize, [list_codes(levels, &all, 1, length), vec![0x30]].concat())
}

/// Up to 32 rules, each with a line feed.
fn longest_book(levels: &Levels) -> (usize, Vec<u8>) {
    let rule: Longest = levels.at(LAST_LEVEL)[RULE].iter().map(|words| words + 1).collect();
    let mut books = vec![nothing(TEXT + 1)];
    for rules in 0..RULES {
        let mut more = books[rules].clone();
        raise(&mut more, (0, 0), &together(&rule, &books[rules]));
        books.push(more);
    }
    let length = at_most(&books[RULES]);
    let (mut codes, mut rest) = (vec![], length);
    for rules in (0..RULES).rev() {
        let reaches = |first: &usize| rule[*first] + books[rules][rest - first] == books[rules + 1][rest];
        if let Some(first) = (1..=rest).find(reaches) {
            codes.extend(levels.codes(RULE, LAST_LEVEL, first));
            rest -= first;
        }
    }
    (books[RULES][length] as usize, codes)
}

fn longest_rule() -> (usize, Vec<u8>) {
    let levels = Levels::new(CARRIED, 255);
    let rules = &levels.at(255)[RULE];
    let length = at_most(rules);
    (rules[length] as usize + 1, levels.codes(RULE, 255, length))
}

/// The size that the header gives.
fn defined(name: &str) -> usize {
    let header = std::fs::read_to_string("include/zamiathen.h").expect("the header");
    let line = header.lines().find_map(|line| line.strip_prefix(&format!("#define {name} "))).expect("a definition");
    line.split_whitespace().next().and_then(|number| number.parse().ok()).expect("a number")
}

/// Both sides print the codes to just this many bytes, from which they are read back.
fn check(tally: &mut Tally, call: Call, back: Option<Call>, name: &str, (size, codes): (usize, Vec<u8>)) {
    println!("{}: {size} bytes of words for {} bytes", call.what, codes.len());
    let sorts = [(b"label", b'l'), (b"arrow", b'a'), (b"node ", b'n')];
    let names = sorts.map(|(sort, letter)| [&sort[..], b" 0 ", &[letter; 64], b"\n"].concat()).concat();
    let words = call.compare(tally, &names, &codes, size);
    assert_eq!(words.len(), size, "the words of {}", call.what);
    call.compare(tally, &names, &codes, size - 1);
    match back {
        Some(back) => back.answers(tally, &names, &words, codes.len(), [0, 0], &codes),
        None => assert_eq!(read_carried(&names, &words), Ok(codes), "the rule read back"),
    }
    assert_eq!(defined(name), size, "{name}");
}

fn main() {
    let mut tally = Tally::new();
    let levels = Levels::new(TEXT, LAST_LEVEL);
    check(&mut tally, BOOK_TO_WORDS, Some(BOOK_FROM_WORDS), "ZAMIATHEN_BOOK_WORDS_BYTES", longest_book(&levels));
    check(&mut tally, EDIT_TO_WORDS, Some(EDIT_FROM_WORDS), "ZAMIATHEN_EDIT_WORDS_BYTES", longest_edit(&levels));
    check(&mut tally, RULE_TO_WORDS, None, "ZAMIATHEN_RULE_WORDS_BYTES", longest_rule());
    tally.finish(&[0, 33]);
}
