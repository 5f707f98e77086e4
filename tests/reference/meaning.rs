//! Table II of document 004 by membership, over the nodes in use (document 02, item 6), and when a rule holds.

use crate::graph::{Graph, Nodes, Pairs};
use crate::syntax::{Arrow, Node, Rule};

/// The nodes of an expression: only nodes in use.
pub fn nodes(graph: &Graph, expression: &Node) -> Nodes {
    let found = by_table(graph, expression);
    found.into_iter().zip(&graph.in_use).map(|(member, used)| member && *used).collect()
}

/// The nodes of an expression by the table, in use or not.
fn by_table(graph: &Graph, expression: &Node) -> Nodes {
    match expression {
        Node::All => vec![true; graph.n],
        Node::Nothing => vec![false; graph.n],
        Node::Label(k) => graph.labels[usize::from(*k)].clone(),
        Node::Only(i) => (0..graph.n).map(|x| x == usize::from(*i)).collect(),
        Node::Not(e) => nodes(graph, e).iter().map(|member| !member).collect(),
        Node::And(e, f) => members(graph, e, f, |in_e, in_f| in_e && in_f),
        Node::Or(e, f) => members(graph, e, f, |in_e, in_f| in_e || in_f),
        Node::Some(r, e) => by_ends(graph, r, e, |row, ends| row.iter().zip(ends).any(|(linked, end)| *linked && *end)),
        Node::Every(r, e) => {
            by_ends(graph, r, e, |row, ends| row.iter().zip(ends).all(|(linked, end)| !*linked || *end))
        }
        Node::AtLeast(m, r, e) => by_ends(graph, r, e, |row, ends| count(row, ends) >= usize::from(*m)),
        Node::AtMost(m, r, e) => by_ends(graph, r, e, |row, ends| count(row, ends) <= usize::from(*m)),
    }
}

fn members(graph: &Graph, e: &Node, f: &Node, both: fn(bool, bool) -> bool) -> Nodes {
    let (in_e, in_f) = (nodes(graph, e), nodes(graph, f));
    (0..graph.n).map(|x| both(in_e[x], in_f[x])).collect()
}

/// The nodes whose row of R and the ends in E pass a test.
fn by_ends(graph: &Graph, r: &Arrow, e: &Node, test: impl Fn(&[bool], &[bool]) -> bool) -> Nodes {
    let (rows, ends) = (pairs(graph, r), nodes(graph, e));
    (0..graph.n).map(|x| test(rows.row(x), &ends)).collect()
}

/// How many different end nodes of a row are in E.
fn count(row: &[bool], ends: &[bool]) -> usize {
    row.iter().zip(ends).filter(|(linked, end)| **linked && **end).count()
}

/// The pairs of an expression: only pairs of nodes in use, as the arrows of a graph are.
pub fn pairs(graph: &Graph, expression: &Arrow) -> Pairs {
    match expression {
        Arrow::Kind(a) => graph.arrows[usize::from(*a)].clone(),
        Arrow::Reversed(r) => {
            let before = pairs(graph, r);
            Pairs::new(graph.n, |x, y| before.has(y, x))
        }
        Arrow::Union(r, s) => linked(graph, r, s, |in_r, in_s| in_r || in_s),
        Arrow::Common(r, s) => linked(graph, r, s, |in_r, in_s| in_r && in_s),
        Arrow::Without(r, s) => linked(graph, r, s, |in_r, in_s| in_r && !in_s),
        Arrow::EndingIn(r, e) => {
            let (before, ends) = (pairs(graph, r), nodes(graph, e));
            Pairs::new(graph.n, |x, y| before.has(x, y) && ends[y])
        }
        Arrow::Pair(i, j) => {
            let (from, to) = (nodes(graph, &Node::Only(*i)), nodes(graph, &Node::Only(*j)));
            Pairs::new(graph.n, |x, y| from[x] && to[y])
        }
    }
}

fn linked(graph: &Graph, r: &Arrow, s: &Arrow, both: fn(bool, bool) -> bool) -> Pairs {
    let (in_r, in_s) = (pairs(graph, r), pairs(graph, s));
    Pairs::new(graph.n, |x, y| both(in_r.has(x, y), in_s.has(x, y)))
}

/// Whether a rule holds on a graph.
pub fn holds(graph: &Graph, rule: &Rule) -> bool {
    match rule {
        Rule::Nodes(e, f) => part_of(&nodes(graph, e), &nodes(graph, f)),
        Rule::Pairs(r, s) => part_of(pairs(graph, r).all(), pairs(graph, s).all()),
        Rule::Member(i, e) => nodes(graph, e)[usize::from(*i)],
        Rule::Linked(i, j, r) => pairs(graph, r).has(usize::from(*i), usize::from(*j)),
        Rule::And(k, l) => holds(graph, k) && holds(graph, l),
        Rule::Or(k, l) => holds(graph, k) || holds(graph, l),
        Rule::Not(k) => !holds(graph, k),
    }
}

fn part_of(first: &[bool], second: &[bool]) -> bool {
    first.iter().zip(second).all(|(member, other)| !*member || *other)
}

/// The first rule that doesn't hold, from 0.
pub fn first_broken<'r>(graph: &Graph, mut rules: impl Iterator<Item = &'r Rule>) -> Option<usize> {
    rules.position(|rule| !holds(graph, rule))
}
