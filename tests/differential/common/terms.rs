//! Random expressions, rules and edits of at most a given number of levels.

use crate::random::Random;
use reference::syntax::{Arrow, Coded, Edit, Node, Rule, Step};

/// The numbers that a term may use: each sort from 0 to just below its limit.
#[derive(Clone, Copy)]
pub struct Names {
    pub n: usize,
    pub labels: usize,
    pub arrows: usize,
}

impl Names {
    /// Few names, so that rules and edits often speak of the same ones; now and then all.
    pub fn some(random: &mut Random, n: usize) -> Names {
        if random.one_in(8) {
            return Names { n, labels: 48, arrows: 16 };
        }
        Names { n, labels: 1 + random.below(3), arrows: 1 + random.below(3) }
    }

    fn label(self, random: &mut Random) -> u8 {
        random.below(self.labels) as u8
    }

    fn arrow(self, random: &mut Random) -> u8 {
        random.below(self.arrows) as u8
    }

    fn node(self, random: &mut Random) -> u8 {
        random.below(self.n) as u8
    }
}

/// A number from 0 to 59, mostly one that a node has fewer end nodes than or just as many: the count of an 0B, and of an 0A less 1.
fn count(random: &mut Random, n: usize) -> u8 {
    match random.below(12) {
        0..=6 => random.below(4) as u8,
        7..=9 => random.below((n + 2).min(60)) as u8,
        10 => random.pick(&[2, 3, 10, 11, 16, 17, 58, 59]),
        _ => random.below(60) as u8,
    }
}

pub fn node(random: &mut Random, names: Names, levels: usize) -> Node {
    if levels <= 1 || random.one_in(4) {
        return leaf(random, names);
    }
    let below = levels - 1;
    match random.below(9) {
        0..=1 => Node::Not(Box::new(node(random, names, below))),
        2 => Node::And(Box::new(node(random, names, below)), Box::new(node(random, names, below))),
        3 => Node::Or(Box::new(node(random, names, below)), Box::new(node(random, names, below))),
        4..=5 => Node::Some(Box::new(arrow(random, names, below)), Box::new(node(random, names, below))),
        6 => Node::Every(Box::new(arrow(random, names, below)), Box::new(node(random, names, below))),
        kind => {
            let m = count(random, names.n);
            let (r, e) = (Box::new(arrow(random, names, below)), Box::new(node(random, names, below)));
            if kind == 7 {
                Node::AtLeast(m + 1, r, e)
            } else {
                Node::AtMost(m, r, e)
            }
        }
    }
}

fn leaf(random: &mut Random, names: Names) -> Node {
    match random.below(8) {
        0 => Node::All,
        1 => Node::Nothing,
        2 => Node::Only(names.node(random)),
        _ => Node::Label(names.label(random)),
    }
}

pub fn arrow(random: &mut Random, names: Names, levels: usize) -> Arrow {
    if levels <= 1 || random.one_in(3) {
        return arrow_leaf(random, names);
    }
    let below = levels - 1;
    match random.below(7) {
        0..=1 => Arrow::Reversed(Box::new(arrow(random, names, below))),
        2 => Arrow::Union(Box::new(arrow(random, names, below)), Box::new(arrow(random, names, below))),
        3 => Arrow::Common(Box::new(arrow(random, names, below)), Box::new(arrow(random, names, below))),
        4 => Arrow::Without(Box::new(arrow(random, names, below)), Box::new(arrow(random, names, below))),
        _ => Arrow::EndingIn(Box::new(arrow(random, names, below)), Box::new(node(random, names, below))),
    }
}

fn arrow_leaf(random: &mut Random, names: Names) -> Arrow {
    match random.below(5) {
        0 => Arrow::Pair(names.node(random), names.node(random)),
        _ => Arrow::Kind(names.arrow(random)),
    }
}

/// A rule; at least two levels.
pub fn rule(random: &mut Random, names: Names, levels: usize) -> Rule {
    let below = levels - 1;
    match random.below(if levels > 2 { 12 } else { 8 }) {
        0..=3 => Rule::Nodes(node(random, names, below), node(random, names, below)),
        4..=5 => Rule::Pairs(arrow(random, names, below), arrow(random, names, below)),
        6 => Rule::Member(names.node(random), node(random, names, below)),
        7 => Rule::Linked(names.node(random), names.node(random), arrow(random, names, below)),
        8 => Rule::And(Box::new(rule(random, names, below)), Box::new(rule(random, names, below))),
        9 => Rule::Or(Box::new(rule(random, names, below)), Box::new(rule(random, names, below))),
        _ => Rule::Not(Box::new(rule(random, names, below))),
    }
}

/// How deep the next term may go: mostly a little.
pub fn some_levels(random: &mut Random) -> usize {
    match random.below(16) {
        0 => 2 + random.below(9),
        _ => 2 + random.below(4),
    }
}

/// Up to `most` rules; a book of 4,096 bytes at most.
pub fn book(random: &mut Random, names: Names, most: usize) -> Vec<Rule> {
    let mut rules = Vec::new();
    let mut length = 0;
    for _ in 0..random.below(most + 1) {
        let levels = some_levels(random);
        let next = rule(random, names, levels);
        length += next.code().len();
        if length > 4096 {
            break;
        }
        rules.push(next);
    }
    rules
}

/// How many rules a book may have: mostly few.
pub fn some_rules(random: &mut Random) -> usize {
    match random.below(32) {
        0 => 32,
        1..=4 => 10,
        _ => 4,
    }
}

/// An edit of this many steps, each of at most this many levels.
pub fn edit(random: &mut Random, names: Names, steps: usize, levels: usize) -> Edit {
    (0..steps).map(|_| step(random, names, levels)).collect()
}

fn step(random: &mut Random, names: Names, levels: usize) -> Step {
    let below = levels - 1;
    match random.below(if levels > 2 { 10 } else { 8 }) {
        0..=1 => Step::AddLabel(names.label(random), node(random, names, below)),
        2..=3 => Step::TakeLabel(names.label(random), node(random, names, below)),
        4..=5 => Step::AddArrow(names.arrow(random), arrow(random, names, below)),
        6..=7 => Step::TakeArrow(names.arrow(random), arrow(random, names, below)),
        _ => {
            let condition = rule(random, names, below);
            let (p, q) = (random.below(3), random.below(3));
            Step::If(condition, edit(random, names, p, below), edit(random, names, q, below))
        }
    }
}

/// The text of a book.
pub fn book_code(rules: &[Rule]) -> Vec<u8> {
    let mut out = Vec::new();
    rules.iter().for_each(|rule| rule.write(&mut out));
    out
}
