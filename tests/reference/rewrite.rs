//! Document 02, item 3: a stored book rewritten without the counts that say nothing.

use crate::answer::{answer_of, refuse, Asked};
use crate::calls::Lengthy;
use crate::graph::MOST_NODES;
use crate::reader;
use crate::syntax::{Arrow, Coded, Node, Rule};

/// Rewrite a stored book into an output.
pub fn rewrite(book: &[u8], out: &mut [u8]) -> Lengthy {
    let text = rewritten_text(book, out.len());
    let length = text.as_ref().map_or(0, Vec::len);
    if let Ok(text) = &text {
        out[..length].copy_from_slice(text);
    }
    Lengthy { answer: answer_of(&text), length }
}

fn rewritten_text(book: &[u8], room: usize) -> Asked<Vec<u8>> {
    let rules = reader::former_book(book, MOST_NODES)?;
    let text: Vec<u8> = rules.iter().flat_map(|placed| rule(&placed.rule).code()).collect();
    if room < text.len() {
        return refuse(33, text.len());
    }
    Ok(text)
}

/// From the inside out: the operands first, and then a count that says nothing.
fn node(expression: &Node) -> Node {
    let inner = |e: &Node| Box::new(node(e));
    let inner_arrow = |r: &Arrow| Box::new(arrow(r));
    match expression {
        Node::All | Node::Nothing | Node::Label(_) | Node::Only(_) => expression.clone(),
        Node::Not(e) => Node::Not(inner(e)),
        Node::And(e, f) => Node::And(inner(e), inner(f)),
        Node::Or(e, f) => Node::Or(inner(e), inner(f)),
        Node::Some(r, e) => Node::Some(inner_arrow(r), inner(e)),
        Node::Every(r, e) => Node::Every(inner_arrow(r), inner(e)),
        Node::AtLeast(m, r, e) => told(Node::AtLeast(*m, inner_arrow(r), inner(e))),
        Node::AtMost(m, r, e) => told(Node::AtMost(*m, inner_arrow(r), inner(e))),
    }
}

/// At least 0 is all nodes, at least 61 or more none; at most 60 or more all.
fn told(expression: Node) -> Node {
    match expression {
        Node::AtLeast(0, _, _) => Node::All,
        Node::AtLeast(m, _, _) if usize::from(m) > MOST_NODES => Node::Nothing,
        Node::AtMost(m, _, _) if usize::from(m) >= MOST_NODES => Node::All,
        other => other,
    }
}

fn arrow(expression: &Arrow) -> Arrow {
    let inner = |r: &Arrow| Box::new(arrow(r));
    match expression {
        Arrow::Kind(_) | Arrow::Pair(_, _) => expression.clone(),
        Arrow::Reversed(r) => Arrow::Reversed(inner(r)),
        Arrow::Union(r, s) => Arrow::Union(inner(r), inner(s)),
        Arrow::Common(r, s) => Arrow::Common(inner(r), inner(s)),
        Arrow::Without(r, s) => Arrow::Without(inner(r), inner(s)),
        Arrow::EndingIn(r, e) => Arrow::EndingIn(inner(r), Box::new(node(e))),
    }
}

fn rule(of: &Rule) -> Rule {
    let inner = |k: &Rule| Box::new(rule(k));
    match of {
        Rule::Nodes(e, f) => Rule::Nodes(node(e), node(f)),
        Rule::Pairs(r, s) => Rule::Pairs(arrow(r), arrow(s)),
        Rule::Member(i, e) => Rule::Member(*i, node(e)),
        Rule::Linked(i, j, r) => Rule::Linked(*i, *j, arrow(r)),
        Rule::And(k, l) => Rule::And(inner(k), inner(l)),
        Rule::Or(k, l) => Rule::Or(inner(k), inner(l)),
        Rule::Not(k) => Rule::Not(inner(k)),
    }
}
