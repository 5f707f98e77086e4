//! Definition 3.2 of document 004: what the steps of an edit leave.

use crate::graph::Graph;
use crate::meaning::{holds, nodes, pairs};
use crate::syntax::Step;

/// The graph after all steps, each taking its expression on the graph just before it.
pub fn carried_out(graph: &Graph, edit: &[Step]) -> Graph {
    let mut after = graph.clone();
    edit.iter().for_each(|step| make(&mut after, step));
    after
}

fn make(graph: &mut Graph, step: &Step) {
    match step {
        Step::AddLabel(k, e) => {
            let found = nodes(graph, e);
            set(&mut graph.labels[usize::from(*k)], &found, true);
        }
        Step::TakeLabel(k, e) => {
            let found = nodes(graph, e);
            set(&mut graph.labels[usize::from(*k)], &found, false);
        }
        Step::AddArrow(a, r) => {
            let found = pairs(graph, r);
            set(graph.arrows[usize::from(*a)].all_mut(), found.all(), true);
        }
        Step::TakeArrow(a, r) => {
            let found = pairs(graph, r);
            set(graph.arrows[usize::from(*a)].all_mut(), found.all(), false);
        }
        Step::If(k, p, q) => {
            let way = if holds(graph, k) { p } else { q };
            way.iter().for_each(|inner| make(graph, inner));
        }
    }
}

/// Members of `found` are put in or taken out.
fn set(target: &mut [bool], found: &[bool], value: bool) {
    for (member, _) in target.iter_mut().zip(found).filter(|(_, hit)| **hit) {
        *member = value;
    }
}
