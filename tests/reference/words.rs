//! Books, edits and rules in words: tables of names, reading and printing.

use crate::answer::{answer_of, refuse, Answer, Asked};
use crate::calls::Lengthy;
use crate::graph::{ARROWS, LABELS, MOST_NODES};
use crate::reader::{self, LAST_LEVEL, LAST_LEVEL_CARRIED, LONGEST, LONGEST_CARRIED, MOST_RULES};
use crate::syntax::{Arrow, Coded, Edit, Node, Rule, Step};
use std::collections::HashMap;
use std::ops::Range;

const LONGEST_NAME: usize = 64;

/// The words that begin something, by what they begin.
const OF_NODES: [&[u8]; 9] = [b"all", b"none", b"not", b"and", b"or", b"some", b"every", b"at-least", b"at-most"];
const OF_ARROWS: [&[u8]; 6] = [b"reversed", b"or", b"and", b"without", b"to", b"pair"];
const OF_RULES: [&[u8]; 7] = [b"each", b"each-arrow", b"is", b"joined", b"and", b"or", b"not"];
const OF_STEPS: [&[u8]; 5] = [b"mark", b"unmark", b"add", b"take", b"if"];

/// What names are given to.
#[derive(Clone, Copy, PartialEq, Eq, Hash, Debug)]
pub enum Sort {
    Label,
    Arrow,
    Node,
}

/// The word of a sort in a table, and how many numbers it has.
const SORTS: [(Sort, &str, usize); 3] =
    [(Sort::Label, "label", LABELS), (Sort::Arrow, "arrow", ARROWS), (Sort::Node, "node", MOST_NODES)];

/// A word or a mark, and where it stands.
#[derive(Clone, Copy)]
struct Token<'t> {
    place: usize,
    word: &'t [u8],
}

/// The tokens of a text. A comment, from # on, ends at a line feed alone.
fn tokens(text: &[u8]) -> Vec<Token<'_>> {
    let mut found = Vec::new();
    let mut at = 0;
    while at < text.len() {
        let rest = &text[at..];
        let length = match rest[0] {
            b' ' | b'\t' | b'\n' | b'\r' => {
                at += 1;
                continue;
            }
            b'#' => {
                at += rest.iter().position(|byte| *byte == b'\n').unwrap_or(rest.len());
                continue;
            }
            b'(' | b')' | b',' => 1,
            _ => rest.iter().position(|byte| b" \t\n\r#(),".contains(byte)).unwrap_or(rest.len()),
        };
        found.push(Token { place: at, word: &rest[..length] });
        at += length;
    }
    found
}

/// A number in decimal without leading zeros, in a range.
fn decimal(word: &[u8], range: Range<usize>) -> Option<u8> {
    let number: u8 = std::str::from_utf8(word).ok()?.parse().ok()?;
    (range.contains(&usize::from(number)) && number.to_string().as_bytes() == word).then_some(number)
}

/// The names of a table, and what they name.
#[derive(Default)]
pub struct Table {
    by_name: HashMap<Vec<u8>, (Sort, u8)>,
    by_number: HashMap<(Sort, u8), Vec<u8>>,
}

impl Table {
    /// The number of this sort that is written so. What has a name has no other.
    fn number(&self, sort: Sort, word: &[u8]) -> Option<u8> {
        let (_, prefix, count) = SORTS[sort as usize];
        match self.by_name.get(word) {
            Some((of, number)) => (*of == sort).then_some(*number),
            None => {
                let rest = word.strip_prefix(prefix.as_bytes())?.strip_prefix(b":")?;
                decimal(rest, 0..count).filter(|number| !self.by_number.contains_key(&(sort, *number)))
            }
        }
    }

    /// How a number is written.
    fn written(&self, sort: Sort, number: u8) -> Vec<u8> {
        let plain = || format!("{}:{number}", SORTS[sort as usize].1).into_bytes();
        self.by_number.get(&(sort, number)).cloned().unwrap_or_else(plain)
    }

    fn give(&mut self, sort: Sort, number: u8, name: &[u8]) {
        self.by_name.insert(name.to_vec(), (sort, number));
        self.by_number.insert((sort, number), name.to_vec());
    }

    /// May this token become a name?
    fn is_free(&self, name: &[u8]) -> bool {
        let barred = [&OF_NODES[..], &OF_ARROWS, &OF_RULES, &OF_STEPS, &[b"else", b"end", b"(", b")", b","]];
        let plain: [&[u8]; 3] = [b"label:", b"arrow:", b"node:"];
        name.iter().all(|byte| *byte > b' ' && *byte != 0x7F)
            && name.len() <= LONGEST_NAME
            && !barred.iter().any(|words| words.contains(&name))
            && !plain.iter().any(|prefix| name.starts_with(prefix))
            && !self.by_name.contains_key(name)
    }
}

/// A table of names: 63.
pub fn table(text: &[u8]) -> Asked<Table> {
    let mut table = Table::default();
    let mut left = tokens(text).into_iter();
    while let Some(first) = left.next() {
        let Some((sort, _, count)) = SORTS.iter().find(|(_, word, _)| word.as_bytes() == first.word) else {
            return refuse(63, first.place);
        };
        let second = left.next().ok_or(Answer { number: 63, place: text.len() })?;
        let free = |number: &u8| !table.by_number.contains_key(&(*sort, *number));
        let Some(number) = decimal(second.word, 0..*count).filter(free) else {
            return refuse(63, second.place);
        };
        let third = left.next().ok_or(Answer { number: 63, place: text.len() })?;
        if !table.is_free(third.word) {
            return refuse(63, third.place);
        }
        table.give(*sort, number, third.word);
    }
    Ok(table)
}

pub fn check_names(names: &[u8]) -> Answer {
    answer_of(&table(names))
}

/// Words being read from left to right.
struct Reader<'t> {
    names: &'t Table,
    tokens: Vec<Token<'t>>,
    at: usize,
    end: usize,
    last_level: usize,
}

impl<'t> Reader<'t> {
    fn new(names: &'t Table, words: &'t [u8], last_level: usize) -> Reader<'t> {
        Reader { names, tokens: tokens(words), at: 0, end: words.len(), last_level }
    }

    /// The token that is wanted now, not yet passed: 64.
    fn wanted(&self) -> Asked<Token<'t>> {
        self.tokens.get(self.at).copied().ok_or(Answer { number: 64, place: self.end })
    }

    /// The token with which something begins at this level: 64, 65, 68.
    fn begin(&mut self, level: usize, begins: impl Fn(&Table, &[u8]) -> bool) -> Asked<&'t [u8]> {
        let token = self.wanted()?;
        if !begins(self.names, token.word) {
            return refuse(65, token.place);
        }
        if level > self.last_level {
            return refuse(68, token.place);
        }
        self.at += 1;
        Ok(token.word)
    }

    /// 64, 66.
    fn mark(&mut self, mark: &[u8]) -> Asked<()> {
        let token = self.wanted()?;
        if token.word != mark {
            return refuse(66, token.place);
        }
        self.at += 1;
        Ok(())
    }

    /// A name or a count, as a function finds it: 64, 67.
    fn number(&mut self, find: impl Fn(&Table, &[u8]) -> Option<u8>) -> Asked<u8> {
        let token = self.wanted()?;
        match find(self.names, token.word) {
            Some(number) => {
                self.at += 1;
                Ok(number)
            }
            None => refuse(67, token.place),
        }
    }

    fn named(&mut self, sort: Sort) -> Asked<u8> {
        self.number(|names, word| names.number(sort, word))
    }

    fn count(&mut self, range: Range<usize>) -> Asked<u8> {
        self.number(|_, word| decimal(word, range.clone()))
    }

    /// Something in brackets.
    fn within<T>(&mut self, read: impl FnOnce(&mut Self) -> Asked<T>) -> Asked<T> {
        self.mark(b"(")?;
        let found = read(self)?;
        self.mark(b")")?;
        Ok(found)
    }

    /// Something after a comma.
    fn then<T>(&mut self, read: impl FnOnce(&mut Self) -> Asked<T>) -> Asked<T> {
        self.mark(b",")?;
        read(self)
    }

    fn node(&mut self, level: usize) -> Asked<Node> {
        let below = level + 1;
        let a_name = |names: &Table, word: &[u8]| {
            [Sort::Label, Sort::Node].iter().any(|sort| names.number(*sort, word).is_some())
        };
        let word = self.begin(level, |names, word| OF_NODES.contains(&word) || a_name(names, word))?;
        match word {
            b"all" => Ok(Node::All),
            b"none" => Ok(Node::Nothing),
            b"not" => self.within(|r| Ok(Node::Not(r.boxed_node(below)?))),
            b"and" => self.within(|r| Ok(Node::And(r.boxed_node(below)?, r.then_node(below)?))),
            b"or" => self.within(|r| Ok(Node::Or(r.boxed_node(below)?, r.then_node(below)?))),
            b"some" => self.within(|r| Ok(Node::Some(r.boxed_arrow(below)?, r.then_node(below)?))),
            b"every" => self.within(|r| Ok(Node::Every(r.boxed_arrow(below)?, r.then_node(below)?))),
            b"at-least" => {
                self.within(|r| Ok(Node::AtLeast(r.count(1..61)?, r.then_arrow(below)?, r.then_node(below)?)))
            }
            b"at-most" => self.within(|r| Ok(Node::AtMost(r.count(0..60)?, r.then_arrow(below)?, r.then_node(below)?))),
            name => Ok(match self.names.number(Sort::Label, name) {
                Some(label) => Node::Label(label),
                None => Node::Only(self.names.number(Sort::Node, name).expect("a name of either sort")),
            }),
        }
    }

    fn boxed_node(&mut self, level: usize) -> Asked<Box<Node>> {
        self.node(level).map(Box::new)
    }

    fn then_node(&mut self, level: usize) -> Asked<Box<Node>> {
        self.then(|r| r.boxed_node(level))
    }

    fn arrow(&mut self, level: usize) -> Asked<Arrow> {
        let below = level + 1;
        let a_name = |names: &Table, word: &[u8]| names.number(Sort::Arrow, word).is_some();
        let word = self.begin(level, |names, word| OF_ARROWS.contains(&word) || a_name(names, word))?;
        match word {
            b"reversed" => self.within(|r| Ok(Arrow::Reversed(r.boxed_arrow(below)?))),
            b"or" => self.within(|r| Ok(Arrow::Union(r.boxed_arrow(below)?, r.then_arrow(below)?))),
            b"and" => self.within(|r| Ok(Arrow::Common(r.boxed_arrow(below)?, r.then_arrow(below)?))),
            b"without" => self.within(|r| Ok(Arrow::Without(r.boxed_arrow(below)?, r.then_arrow(below)?))),
            b"to" => self.within(|r| Ok(Arrow::EndingIn(r.boxed_arrow(below)?, r.then_node(below)?))),
            b"pair" => self.within(|r| Ok(Arrow::Pair(r.named(Sort::Node)?, r.then(|r| r.named(Sort::Node))?))),
            name => Ok(Arrow::Kind(self.names.number(Sort::Arrow, name).expect("an arrow's name"))),
        }
    }

    fn boxed_arrow(&mut self, level: usize) -> Asked<Box<Arrow>> {
        self.arrow(level).map(Box::new)
    }

    fn then_arrow(&mut self, level: usize) -> Asked<Box<Arrow>> {
        self.then(|r| r.boxed_arrow(level))
    }

    fn rule(&mut self, level: usize) -> Asked<Rule> {
        let below = level + 1;
        let word = self.begin(level, |_, word| OF_RULES.contains(&word))?;
        match word {
            b"each" => self.within(|r| Ok(Rule::Nodes(r.node(below)?, *r.then_node(below)?))),
            b"each-arrow" => self.within(|r| Ok(Rule::Pairs(r.arrow(below)?, *r.then_arrow(below)?))),
            b"is" => self.within(|r| Ok(Rule::Member(r.named(Sort::Node)?, *r.then_node(below)?))),
            b"joined" => self.within(|r| {
                let (from, to) = (r.named(Sort::Node)?, r.then(|r| r.named(Sort::Node))?);
                Ok(Rule::Linked(from, to, *r.then_arrow(below)?))
            }),
            b"and" => self.within(|r| Ok(Rule::And(r.boxed_rule(below)?, r.then(|r| r.boxed_rule(below))?))),
            b"or" => self.within(|r| Ok(Rule::Or(r.boxed_rule(below)?, r.then(|r| r.boxed_rule(below))?))),
            _ => self.within(|r| Ok(Rule::Not(r.boxed_rule(below)?))),
        }
    }

    fn boxed_rule(&mut self, level: usize) -> Asked<Box<Rule>> {
        self.rule(level).map(Box::new)
    }

    /// The steps up to the word that ends them, or up to the end of the text, all at one level.
    fn steps(&mut self, level: usize, last: Option<&[u8]>) -> Asked<Edit> {
        let mut steps = Vec::new();
        loop {
            if last.is_none() && self.at == self.tokens.len() {
                return Ok(steps);
            }
            let word = self.begin(level, |_, word| OF_STEPS.contains(&word) || Some(word) == last)?;
            if !OF_STEPS.contains(&word) {
                return Ok(steps);
            }
            steps.push(self.step(word, level + 1)?);
        }
    }

    /// What follows a step's word; its operands stand at this level.
    fn step(&mut self, word: &[u8], below: usize) -> Asked<Step> {
        match word {
            b"mark" => self.within(|r| Ok(Step::AddLabel(r.named(Sort::Label)?, *r.then_node(below)?))),
            b"unmark" => self.within(|r| Ok(Step::TakeLabel(r.named(Sort::Label)?, *r.then_node(below)?))),
            b"add" => self.within(|r| Ok(Step::AddArrow(r.named(Sort::Arrow)?, *r.then_arrow(below)?))),
            b"take" => self.within(|r| Ok(Step::TakeArrow(r.named(Sort::Arrow)?, *r.then_arrow(below)?))),
            _ => {
                let condition = self.within(|r| r.rule(below))?;
                let yes = self.steps(below, Some(b"else"))?;
                Ok(Step::If(condition, yes, self.steps(below, Some(b"end"))?))
            }
        }
    }

    /// 64 to 68 of each rule, and 69 before one too many.
    fn book(&mut self) -> Asked<Vec<Rule>> {
        let mut rules = Vec::new();
        while let Some(token) = self.tokens.get(self.at) {
            if rules.len() == MOST_RULES {
                return refuse(69, token.place);
            }
            rules.push(self.rule(1)?);
        }
        Ok(rules)
    }
}

/// 70, where the codes are too long.
fn not_longer(codes: Vec<u8>, longest: usize) -> Asked<Vec<u8>> {
    if codes.len() > longest {
        return refuse(70, codes.len());
    }
    Ok(codes)
}

fn read_book(names: &[u8], words: &[u8]) -> Asked<Vec<u8>> {
    let table = table(names)?;
    let rules = Reader::new(&table, words, LAST_LEVEL).book()?;
    not_longer(rules.iter().flat_map(Coded::code).collect(), LONGEST)
}

fn read_edit(names: &[u8], words: &[u8]) -> Asked<Vec<u8>> {
    let table = table(names)?;
    let edit = Reader::new(&table, words, LAST_LEVEL).steps(1, None)?;
    not_longer(edit.code(), LONGEST)
}

/// The words of one carried rule, read back. No call does this.
pub fn read_carried(names: &[u8], words: &[u8]) -> Asked<Vec<u8>> {
    let table = table(names)?;
    let mut reader = Reader::new(&table, words, LAST_LEVEL_CARRIED);
    let rule = reader.rule(1)?;
    match reader.tokens.get(reader.at) {
        Some(more) => refuse(69, more.place),
        None => not_longer(rule.code(), LONGEST_CARRIED),
    }
}

/// A word and its operands.
fn term(word: &str, operands: &[Vec<u8>]) -> Vec<u8> {
    [word.as_bytes(), b"(", &operands.join(&b", "[..]), b")"].concat()
}

/// Printing by a table.
impl Table {
    fn label(&self, number: u8) -> Vec<u8> {
        self.written(Sort::Label, number)
    }

    fn kind(&self, number: u8) -> Vec<u8> {
        self.written(Sort::Arrow, number)
    }

    fn only(&self, number: u8) -> Vec<u8> {
        self.written(Sort::Node, number)
    }

    fn node(&self, expression: &Node) -> Vec<u8> {
        let count = |m: &u8| m.to_string().into_bytes();
        match expression {
            Node::All => b"all".to_vec(),
            Node::Nothing => b"none".to_vec(),
            Node::Label(k) => self.label(*k),
            Node::Only(i) => self.only(*i),
            Node::Not(e) => term("not", &[self.node(e)]),
            Node::And(e, f) => term("and", &[self.node(e), self.node(f)]),
            Node::Or(e, f) => term("or", &[self.node(e), self.node(f)]),
            Node::Some(r, e) => term("some", &[self.arrow(r), self.node(e)]),
            Node::Every(r, e) => term("every", &[self.arrow(r), self.node(e)]),
            Node::AtLeast(m, r, e) => term("at-least", &[count(m), self.arrow(r), self.node(e)]),
            Node::AtMost(m, r, e) => term("at-most", &[count(m), self.arrow(r), self.node(e)]),
        }
    }

    fn arrow(&self, expression: &Arrow) -> Vec<u8> {
        match expression {
            Arrow::Kind(a) => self.kind(*a),
            Arrow::Reversed(r) => term("reversed", &[self.arrow(r)]),
            Arrow::Union(r, s) => term("or", &[self.arrow(r), self.arrow(s)]),
            Arrow::Common(r, s) => term("and", &[self.arrow(r), self.arrow(s)]),
            Arrow::Without(r, s) => term("without", &[self.arrow(r), self.arrow(s)]),
            Arrow::EndingIn(r, e) => term("to", &[self.arrow(r), self.node(e)]),
            Arrow::Pair(i, j) => term("pair", &[self.only(*i), self.only(*j)]),
        }
    }

    fn rule(&self, of: &Rule) -> Vec<u8> {
        match of {
            Rule::Nodes(e, f) => term("each", &[self.node(e), self.node(f)]),
            Rule::Pairs(r, s) => term("each-arrow", &[self.arrow(r), self.arrow(s)]),
            Rule::Member(i, e) => term("is", &[self.only(*i), self.node(e)]),
            Rule::Linked(i, j, r) => term("joined", &[self.only(*i), self.only(*j), self.arrow(r)]),
            Rule::And(k, l) => term("and", &[self.rule(k), self.rule(l)]),
            Rule::Or(k, l) => term("or", &[self.rule(k), self.rule(l)]),
            Rule::Not(k) => term("not", &[self.rule(k)]),
        }
    }

    /// The lines of steps, each after a margin.
    fn steps(&self, edit: &Edit, margin: &str, out: &mut Vec<u8>) {
        for step in edit {
            let line = match step {
                Step::AddLabel(k, e) => term("mark", &[self.label(*k), self.node(e)]),
                Step::TakeLabel(k, e) => term("unmark", &[self.label(*k), self.node(e)]),
                Step::AddArrow(a, r) => term("add", &[self.kind(*a), self.arrow(r)]),
                Step::TakeArrow(a, r) => term("take", &[self.kind(*a), self.arrow(r)]),
                Step::If(k, _, _) => term("if", &[self.rule(k)]),
            };
            out.extend([margin.as_bytes(), &line, b"\n"].concat());
            if let Step::If(_, yes, no) = step {
                let further = format!("{margin}  ");
                self.steps(yes, &further, out);
                out.extend(format!("{margin}else\n").bytes());
                self.steps(no, &further, out);
                out.extend(format!("{margin}end\n").bytes());
            }
        }
    }
}

fn line(table: &Table, rule: &Rule) -> Vec<u8> {
    [table.rule(rule), b"\n".to_vec()].concat()
}

fn print_book(names: &[u8], book: &[u8]) -> Asked<Vec<u8>> {
    let table = table(names)?;
    let rules = reader::book(book, MOST_NODES)?;
    Ok(rules.iter().flat_map(|placed| line(&table, &placed.rule)).collect())
}

fn print_edit(names: &[u8], edit: &[u8]) -> Asked<Vec<u8>> {
    let table = table(names)?;
    let edit = reader::edit(edit, MOST_NODES)?;
    let mut lines = Vec::new();
    table.steps(&edit, "", &mut lines);
    Ok(lines)
}

fn print_rule(names: &[u8], text: &[u8]) -> Asked<Vec<u8>> {
    let table = table(names)?;
    Ok(line(&table, &reader::first_carried(text, MOST_NODES)?))
}

/// Writes the result at the start of the output, if there is room: 33.
fn put(asked: Asked<Vec<u8>>, out: &mut [u8]) -> Lengthy {
    let fitting = asked.and_then(|text| if out.len() < text.len() { refuse(33, text.len()) } else { Ok(text) });
    let length = fitting.as_ref().map_or(0, Vec::len);
    if let Ok(text) = &fitting {
        out[..length].copy_from_slice(text);
    }
    Lengthy { answer: answer_of(&fitting), length }
}

pub fn book_to_words(names: &[u8], book: &[u8], out: &mut [u8]) -> Lengthy {
    put(print_book(names, book), out)
}

pub fn edit_to_words(names: &[u8], edit: &[u8], out: &mut [u8]) -> Lengthy {
    put(print_edit(names, edit), out)
}

/// Of the first rule of a text, by the limits of a carried rule.
pub fn rule_to_words(names: &[u8], text: &[u8], out: &mut [u8]) -> Lengthy {
    put(print_rule(names, text), out)
}

pub fn book_from_words(names: &[u8], words: &[u8], out: &mut [u8]) -> Lengthy {
    put(read_book(names, words), out)
}

pub fn edit_from_words(names: &[u8], words: &[u8], out: &mut [u8]) -> Lengthy {
    put(read_edit(names, words), out)
}

/// Where a rule of a book stands in its words: after the rules before it. The words' length where there is none.
pub fn rule_in_words(names: &[u8], words: &[u8], rule: usize) -> usize {
    let Ok(table) = table(names) else { return words.len() };
    let mut reader = Reader::new(&table, words, LAST_LEVEL);
    let can_be = rule < MOST_RULES && (0..rule).all(|_| reader.rule(1).is_ok());
    reader.tokens.get(reader.at).filter(|_| can_be).map_or(words.len(), |token| token.place)
}
