//! Document 02, item 11: shorter conditions from a partner's tool, and the laws by which they are checked.

use crate::answer::{answer_of, refuse, Answer, Asked};
use crate::reader;
use crate::syntax::{Arrow, Coded, Node, Rule};

/// A node expression, an arrow expression or a rule: its code with its numbers, and its operands.
#[derive(Clone, PartialEq, Eq, Debug)]
pub struct Term {
    pub head: Vec<u8>,
    pub operands: Vec<Term>,
}

impl Term {
    pub fn code(&self) -> Vec<u8> {
        let operands = self.operands.iter().flat_map(Term::code);
        self.head.iter().copied().chain(operands).collect()
    }

    fn length(&self) -> usize {
        self.head.len() + self.operands.iter().map(Term::length).sum::<usize>()
    }

    /// The part whose code stands at this offset.
    pub fn at(&mut self, offset: usize) -> Option<&mut Term> {
        if offset == 0 {
            return Some(self);
        }
        let mut start = self.head.len();
        for operand in &mut self.operands {
            let length = operand.length();
            if (start..start + length).contains(&offset) {
                return operand.at(offset - start);
            }
            start += length;
        }
        None
    }

    fn is(&self, code: u8) -> bool {
        self.head[0] == code
    }
}

fn term(head: &[u8], operands: Vec<Term>) -> Term {
    Term { head: head.to_vec(), operands }
}

pub fn of_node(e: &Node) -> Term {
    match e {
        Node::All | Node::Nothing | Node::Label(_) | Node::Only(_) => term(&e.code(), vec![]),
        Node::Not(e) => term(&[0x05], vec![of_node(e)]),
        Node::And(e, f) => term(&[0x06], vec![of_node(e), of_node(f)]),
        Node::Or(e, f) => term(&[0x07], vec![of_node(e), of_node(f)]),
        Node::Some(r, e) => term(&[0x08], vec![of_arrow(r), of_node(e)]),
        Node::Every(r, e) => term(&[0x09], vec![of_arrow(r), of_node(e)]),
        Node::AtLeast(m, r, e) => term(&[0x0A, *m], vec![of_arrow(r), of_node(e)]),
        Node::AtMost(m, r, e) => term(&[0x0B, *m], vec![of_arrow(r), of_node(e)]),
    }
}

fn of_arrow(r: &Arrow) -> Term {
    match r {
        Arrow::Kind(_) | Arrow::Pair(_, _) => term(&r.code(), vec![]),
        Arrow::Reversed(r) => term(&[0x12], vec![of_arrow(r)]),
        Arrow::Union(r, s) => term(&[0x13], vec![of_arrow(r), of_arrow(s)]),
        Arrow::Common(r, s) => term(&[0x14], vec![of_arrow(r), of_arrow(s)]),
        Arrow::Without(r, s) => term(&[0x15], vec![of_arrow(r), of_arrow(s)]),
        Arrow::EndingIn(r, e) => term(&[0x16], vec![of_arrow(r), of_node(e)]),
    }
}

pub fn of_rule(k: &Rule) -> Term {
    match k {
        Rule::Nodes(e, f) => term(&[0x21], vec![of_node(e), of_node(f)]),
        Rule::Pairs(r, s) => term(&[0x22], vec![of_arrow(r), of_arrow(s)]),
        Rule::Member(i, e) => term(&[0x23, *i], vec![of_node(e)]),
        Rule::Linked(i, j, r) => term(&[0x24, *i, *j], vec![of_arrow(r)]),
        Rule::And(k, l) => term(&[0x25], vec![of_rule(k), of_rule(l)]),
        Rule::Or(k, l) => term(&[0x26], vec![of_rule(k), of_rule(l)]),
        Rule::Not(k) => term(&[0x27], vec![of_rule(k)]),
    }
}

/// The right side of a law whose left side the term is.
pub fn by_law(law: u8, t: &Term) -> Option<Term> {
    let twice = |code: u8| t.is(code) && t.operands[0] == t.operands[1];
    match law {
        1 if t.is(0x05) && t.operands[0].is(0x05) => Some(t.operands[0].operands[0].clone()),
        2 if twice(0x06) => Some(t.operands[0].clone()),
        3 if twice(0x07) => Some(t.operands[0].clone()),
        4 if t.is(0x06) && t.operands[1].is(0x05) && t.operands[1].operands[0] == t.operands[0] => {
            Some(term(&[0x02], vec![]))
        }
        5 if t.is(0x07) && t.operands[0].is(0x01) => Some(term(&[0x01], vec![])),
        6 if t.is(0x06) && t.operands[0].is(0x01) => Some(t.operands[1].clone()),
        7 if t.is(0x27) && t.operands[0].is(0x27) => Some(t.operands[0].operands[0].clone()),
        8 if twice(0x26) => Some(t.operands[0].clone()),
        _ => None,
    }
}

/// A step made on the text, if it is whole, known and fits: a two-byte little-endian offset and a law's number in one byte.
pub fn made(text: &mut Term, step: &[u8]) -> Option<()> {
    let [low, high, law] = step else { return None };
    let place = text.at(usize::from(*low) + 256 * usize::from(*high))?;
    *place = by_law(*law, place)?;
    Some(())
}

/// Check a partner's steps from a carried rule to the text sent.
pub fn check_steps(rule: &[u8], steps: &[u8], sent: &[u8]) -> Answer {
    answer_of(&checked(rule, steps, sent))
}

fn checked(rule: &[u8], steps: &[u8], sent: &[u8]) -> Asked<()> {
    let mut text = of_rule(&reader::carried_rule(rule)?);
    for (number, step) in steps.chunks(3).enumerate() {
        if made(&mut text, step).is_none() {
            return refuse(59, number);
        }
    }
    let last = text.code();
    if last == sent {
        return Ok(());
    }
    let alike = last.iter().zip(sent).take_while(|(one, other)| one == other).count();
    refuse(60, alike)
}
