//! Who breaks a rule: the lowest node or pair that is where it must not be.

use crate::answer::{answer_of, Answer, Asked};
use crate::graph::Graph;
use crate::meaning::{holds, nodes, pairs};
use crate::syntax::Rule;
use crate::{reader, sheet};

/// The kind, a node or a pair, and all nodes of kind 1.
#[derive(Clone, Copy, PartialEq, Eq, Debug, Default)]
pub struct Witness {
    pub kind: usize,
    pub first: usize,
    pub second: usize,
    pub nodes: u64,
}

/// The witness of a rule on a graph; kind 0 where it holds.
pub fn witness(graph: &Graph, rule: &Rule) -> Witness {
    if holds(graph, rule) {
        return Witness::default();
    }
    match rule {
        Rule::Nodes(e, f) => {
            let (in_e, in_f) = (nodes(graph, e), nodes(graph, f));
            of_nodes((0..graph.n).filter(|i| in_e[*i] && !in_f[*i]).collect())
        }
        Rule::Pairs(r, s) => {
            let (in_r, in_s) = (pairs(graph, r), pairs(graph, s));
            let outside = |i: &(usize, usize)| in_r.has(i.0, i.1) && !in_s.has(i.0, i.1);
            of_pair((0..graph.n * graph.n).map(|p| (p / graph.n, p % graph.n)).find(outside).expect("a pair breaks it"))
        }
        Rule::Member(i, _) => of_nodes(vec![usize::from(*i)]),
        Rule::Linked(i, j, _) => of_pair((usize::from(*i), usize::from(*j))),
        Rule::And(k, l) => witness(graph, if holds(graph, k) { l } else { k }),
        Rule::Or(_, l) => witness(graph, l),
        Rule::Not(_) => Witness { kind: 3, ..Witness::default() },
    }
}

/// The nodes from the lowest up.
fn of_nodes(nodes: Vec<usize>) -> Witness {
    let set = nodes.iter().fold(0, |set, i| set | 1 << i);
    Witness { kind: 1, first: nodes[0], second: 0, nodes: set }
}

fn of_pair((first, second): (usize, usize)) -> Witness {
    Witness { kind: 2, first, second, nodes: 0 }
}

/// Of the first rule of a text, as the call answers it.
pub fn call(bytes: &[u8], text: &[u8]) -> (Answer, Witness) {
    let found = asked(bytes, text);
    (answer_of(&found), found.unwrap_or_default())
}

fn asked(bytes: &[u8], text: &[u8]) -> Asked<Witness> {
    let n = sheet::ask(bytes)?;
    let rule = reader::first_carried(text, n)?;
    Ok(witness(&sheet::read(bytes), &rule))
}
