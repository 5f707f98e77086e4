//! "Carrying back": Definition 4.1 of document 004 on trees, with the questions 31 and 32.
//!
//! A carried rule only grows from step to step, so the work ends with 31 as soon as the rules carried so far are
//! known to pass 16,384 bytes; the length after a step is known before its tree is built. So no tree is ever longer
//! than that, and each step of the edit is met once for each rule.

use crate::answer::{refuse, Asked};
use crate::syntax::{Arrow, Coded, Node, Rule, Step};

pub const CARRIED_BYTES: usize = 16384;
const CARRIED_LEVELS: usize = 255;

/// A carried book: each rule, and the text of all.
pub struct Carried {
    pub rules: Vec<Rule>,
    pub text: Vec<u8>,
}

impl Carried {
    /// The length of the longest single rule; an empty book needs nothing.
    pub fn longest(&self) -> usize {
        self.rules.iter().map(|rule| rule.code().len()).max().unwrap_or(0)
    }
}

/// A rule on its way back, with the length of its text.
#[derive(Clone)]
struct Way {
    rule: Rule,
    length: usize,
}

/// The book carried back through an edit; 31, then 32.
pub fn carry<'r>(book: impl Iterator<Item = &'r Rule>, edit: &[Step]) -> Asked<Carried> {
    let mut carried = Carried { rules: Vec::new(), text: Vec::new() };
    for rule in book {
        let start = Way { rule: rule.clone(), length: rule.code().len() };
        let Some(way) = back(start, edit, CARRIED_BYTES - carried.text.len()) else { return refuse(31, 0) };
        let text = way.rule.code();
        assert_eq!(text.len(), way.length, "the length known beforehand is that of the text");
        carried.text.extend_from_slice(&text);
        carried.rules.push(way.rule);
    }
    if carried.rules.iter().any(|rule| rule.levels() > CARRIED_LEVELS) {
        return refuse(32, 0);
    }
    Ok(carried)
}

/// A rule carried through steps, the last step first; nothing when it would pass the room.
fn back(mut way: Way, steps: &[Step], room: usize) -> Option<Way> {
    for step in steps.iter().rev() {
        way = match step {
            Step::If(k, p, q) => both_ways(way, k, p, q, room)?,
            _ => through(way, step, room)?,
        };
    }
    (way.length <= room).then_some(way)
}

/// 25 26 27 K T 26 K U. To carry a rule through P with its end replaced by Z is to carry it through Z, then through P.
fn both_ways(way: Way, k: &Rule, p: &[Step], q: &[Step], room: usize) -> Option<Way> {
    let t = back(way.clone(), p, room)?;
    let u = back(way, q, room)?;
    let length = 4 + 2 * k.code().len() + t.length + u.length;
    if length > room {
        return None;
    }
    let if_so = Rule::Or(Box::new(Rule::Not(Box::new(k.clone()))), Box::new(t.rule));
    let if_not = Rule::Or(Box::new(k.clone()), Box::new(u.rule));
    Some(Way { rule: Rule::And(Box::new(if_so), Box::new(if_not)), length })
}

/// One label or arrow step.
fn through(mut way: Way, step: &Step, room: usize) -> Option<Way> {
    let places = way.rule.places(step);
    let length = way.length + places * added(step);
    if length > room {
        return None;
    }
    if places == 0 {
        return Some(way);
    }
    way.rule.replace(step);
    Some(Way { length, ..way })
}

/// The bytes that a step adds for each place where its name stands.
fn added(step: &Step) -> usize {
    match step {
        Step::AddLabel(_, e) => e.code().len() + 1,
        Step::TakeLabel(_, e) => e.code().len() + 2,
        Step::AddArrow(_, r) | Step::TakeArrow(_, r) => r.code().len() + 1,
        Step::If(..) => unreachable!("both ways are carried apart"),
    }
}

/// At how many places the name of a step stands in a tree, and the replacement of each.
trait Replace {
    fn places(&self, step: &Step) -> usize;
    fn replace(&mut self, step: &Step);
}

fn replace_both(first: &mut impl Replace, second: &mut impl Replace, step: &Step) {
    first.replace(step);
    second.replace(step);
}

impl Replace for Node {
    fn places(&self, step: &Step) -> usize {
        match self {
            Node::Label(k) => usize::from(matches!(step, Step::AddLabel(l, _) | Step::TakeLabel(l, _) if l == k)),
            Node::All | Node::Nothing | Node::Only(_) => 0,
            Node::Not(e) => e.places(step),
            Node::And(e, f) | Node::Or(e, f) => e.places(step) + f.places(step),
            Node::Some(r, e) | Node::Every(r, e) => r.places(step) + e.places(step),
            Node::AtLeast(_, r, e) | Node::AtMost(_, r, e) => r.places(step) + e.places(step),
        }
    }

    fn replace(&mut self, step: &Step) {
        match self {
            Node::Label(k) => *self = label_replaced(*k, step),
            Node::All | Node::Nothing | Node::Only(_) => {}
            Node::Not(e) => e.replace(step),
            Node::And(e, f) | Node::Or(e, f) => replace_both(&mut **e, &mut **f, step),
            Node::Some(r, e) | Node::Every(r, e) => replace_both(&mut **r, &mut **e, step),
            Node::AtLeast(_, r, e) | Node::AtMost(_, r, e) => replace_both(&mut **r, &mut **e, step),
        }
    }
}

/// 07 03 k E for 31, 06 03 k 05 E for 32, of the same label.
fn label_replaced(k: u8, step: &Step) -> Node {
    let name = Node::Label(k);
    match step {
        Step::AddLabel(l, e) if *l == k => Node::Or(Box::new(name), Box::new(e.clone())),
        Step::TakeLabel(l, e) if *l == k => Node::And(Box::new(name), Box::new(Node::Not(Box::new(e.clone())))),
        _ => name,
    }
}

impl Replace for Arrow {
    fn places(&self, step: &Step) -> usize {
        match self {
            Arrow::Kind(a) => usize::from(matches!(step, Step::AddArrow(b, _) | Step::TakeArrow(b, _) if b == a)),
            Arrow::Pair(_, _) => 0,
            Arrow::Reversed(r) => r.places(step),
            Arrow::Union(r, s) | Arrow::Common(r, s) | Arrow::Without(r, s) => r.places(step) + s.places(step),
            Arrow::EndingIn(r, e) => r.places(step) + e.places(step),
        }
    }

    fn replace(&mut self, step: &Step) {
        match self {
            Arrow::Kind(a) => *self = arrow_replaced(*a, step),
            Arrow::Pair(_, _) => {}
            Arrow::Reversed(r) => r.replace(step),
            Arrow::Union(r, s) | Arrow::Common(r, s) | Arrow::Without(r, s) => replace_both(&mut **r, &mut **s, step),
            Arrow::EndingIn(r, e) => replace_both(&mut **r, &mut **e, step),
        }
    }
}

/// 13 11 a R for 33, 15 11 a R for 34, of the same arrow.
fn arrow_replaced(a: u8, step: &Step) -> Arrow {
    let name = Arrow::Kind(a);
    match step {
        Step::AddArrow(b, r) if *b == a => Arrow::Union(Box::new(name), Box::new(r.clone())),
        Step::TakeArrow(b, r) if *b == a => Arrow::Without(Box::new(name), Box::new(r.clone())),
        _ => name,
    }
}

impl Replace for Rule {
    fn places(&self, step: &Step) -> usize {
        match self {
            Rule::Nodes(e, f) => e.places(step) + f.places(step),
            Rule::Pairs(r, s) => r.places(step) + s.places(step),
            Rule::Member(_, e) => e.places(step),
            Rule::Linked(_, _, r) => r.places(step),
            Rule::And(k, l) | Rule::Or(k, l) => k.places(step) + l.places(step),
            Rule::Not(k) => k.places(step),
        }
    }

    fn replace(&mut self, step: &Step) {
        match self {
            Rule::Nodes(e, f) => replace_both(e, f, step),
            Rule::Pairs(r, s) => replace_both(r, s, step),
            Rule::Member(_, e) => e.replace(step),
            Rule::Linked(_, _, r) => r.replace(step),
            Rule::And(k, l) | Rule::Or(k, l) => replace_both(&mut **k, &mut **l, step),
            Rule::Not(k) => k.replace(step),
        }
    }
}
