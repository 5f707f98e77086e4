//! Document 02, item 12: how many small sheets survive an edit.

use crate::answer::{refuse, Asked};
use crate::graph::{Graph, Pairs};
use crate::meaning::first_broken;
use crate::reader;
use crate::steps::carried_out;
use crate::syntax::{Arrow, Edit, Node, Rule, Step};

/// Book kept before and after, kept then broken, broken then kept, broken twice.
pub type Counts = [usize; 4];

pub fn count(n: usize, book: &[u8], edit: &[u8]) -> Asked<Counts> {
    if !(1..=3).contains(&n) {
        return refuse(61, 0);
    }
    let rules: Vec<Rule> = reader::book(book, n)?.into_iter().map(|placed| placed.rule).collect();
    let steps = reader::edit(edit, n)?;
    if rules.iter().any(names_another) || edit_names_another(&steps) {
        return refuse(61, 0);
    }
    let mut counts = [0; 4];
    for graph in small_graphs(n) {
        let kept = |graph: &Graph| first_broken(graph, rules.iter()).is_none();
        let which = match (kept(&graph), kept(&carried_out(&graph, &steps))) {
            (true, true) => 0,
            (true, false) => 1,
            (false, true) => 2,
            (false, false) => 3,
        };
        counts[which] += 1;
    }
    Ok(counts)
}

/// Every sheet of n nodes, all in use, with only label 0 and arrow 0.
pub fn small_graphs(n: usize) -> impl Iterator<Item = Graph> {
    (0..1usize << (n + n * n)).map(move |bits| {
        let mut graph = Graph::blank(n);
        graph.labels[0] = (0..n).map(|i| bits >> i & 1 == 1).collect();
        graph.arrows[0] = Pairs::new(n, |i, j| bits >> (n + i * n + j) & 1 == 1);
        graph
    })
}

/// Whether a label or an arrow other than 0 stands anywhere in a text.
fn names_another(rule: &Rule) -> bool {
    match rule {
        Rule::Nodes(e, f) => node_names(e) || node_names(f),
        Rule::Pairs(r, s) => arrow_names(r) || arrow_names(s),
        Rule::Member(_, e) => node_names(e),
        Rule::Linked(_, _, r) => arrow_names(r),
        Rule::And(k, l) | Rule::Or(k, l) => names_another(k) || names_another(l),
        Rule::Not(k) => names_another(k),
    }
}

fn node_names(e: &Node) -> bool {
    match e {
        Node::All | Node::Nothing | Node::Only(_) => false,
        Node::Label(k) => *k != 0,
        Node::Not(e) => node_names(e),
        Node::And(e, f) | Node::Or(e, f) => node_names(e) || node_names(f),
        Node::Some(r, e) | Node::Every(r, e) | Node::AtLeast(_, r, e) | Node::AtMost(_, r, e) => {
            arrow_names(r) || node_names(e)
        }
    }
}

fn arrow_names(r: &Arrow) -> bool {
    match r {
        Arrow::Kind(a) => *a != 0,
        Arrow::Pair(_, _) => false,
        Arrow::Reversed(r) => arrow_names(r),
        Arrow::Union(r, s) | Arrow::Common(r, s) | Arrow::Without(r, s) => arrow_names(r) || arrow_names(s),
        Arrow::EndingIn(r, e) => arrow_names(r) || node_names(e),
    }
}

fn edit_names_another(edit: &Edit) -> bool {
    edit.iter().any(|step| match step {
        Step::AddLabel(k, e) | Step::TakeLabel(k, e) => *k != 0 || node_names(e),
        Step::AddArrow(a, r) | Step::TakeArrow(a, r) => *a != 0 || arrow_names(r),
        Step::If(k, p, q) => names_another(k) || edit_names_another(p) || edit_names_another(q),
    })
}
