//! Random graphs, with random sets of nodes in use.

use crate::random::Random;
use crate::terms::Names;
use reference::graph::{Graph, Nodes, Pairs, ARROWS, LABELS};

/// How many nodes: each number from 1 to 60 comes, small ones and 60 more often.
pub fn node_count(random: &mut Random) -> usize {
    match random.below(16) {
        0..=11 => 1 + random.below(10),
        12..=14 => 1 + random.below(60),
        _ => 60 - random.below(3),
    }
}

/// Some of n nodes, at least one: often all, all except one, or one alone.
pub fn in_use(random: &mut Random, n: usize) -> Nodes {
    let some = random.below(n);
    let mut nodes = vec![false; n];
    match random.below(8) {
        0..=2 => nodes.fill(true),
        3 => nodes.iter_mut().enumerate().for_each(|(i, used)| *used = i != some),
        4 => {}
        _ => fill(random, &mut nodes),
    }
    nodes[some] |= !nodes.contains(&true);
    nodes
}

/// A graph with these nodes in use: what it has at others is taken from it.
pub fn with_use(mut graph: Graph, in_use: Nodes) -> Graph {
    let kept = |label: Nodes| label.iter().zip(&in_use).map(|(member, used)| *member && *used).collect();
    graph.labels = graph.labels.into_iter().map(kept).collect();
    let linked = |pairs: Pairs| Pairs::new(graph.n, |i, j| pairs.has(i, j) && in_use[i] && in_use[j]);
    graph.arrows = graph.arrows.into_iter().map(linked).collect();
    Graph { in_use, ..graph }
}

/// A graph with some nodes in use, of labels and arrows as `all_used` makes them.
pub fn graph(random: &mut Random, names: Names) -> Graph {
    let graph = all_used(random, names);
    let used = in_use(random, names.n);
    with_use(graph, used)
}

/// A graph whose labels and arrows are thin, even or thick; those beyond the named ones are mostly empty. All nodes are in use.
pub fn all_used(random: &mut Random, names: Names) -> Graph {
    let mut graph = Graph::blank(names.n);
    let all = random.one_in(8);
    for k in 0..LABELS {
        if all || k < names.labels || random.one_in(16) {
            fill(random, &mut graph.labels[k]);
        }
    }
    for a in 0..ARROWS {
        if all || a < names.arrows || random.one_in(16) {
            fill_rows(random, &mut graph.arrows[a], names.n);
        }
    }
    graph
}

/// Each label on each node, and all arrows.
pub fn full(n: usize) -> Graph {
    let labels = vec![vec![true; n]; LABELS];
    Graph { n, in_use: vec![true; n], labels, arrows: vec![Pairs::new(n, |_, _| true); ARROWS] }
}

/// A word with about one bit in eight, in two, or seven in eight.
fn mask(random: &mut Random, kind: usize) -> u64 {
    match kind {
        0 => random.word() & random.word() & random.word(),
        1 => random.word(),
        _ => random.word() | random.word() | random.word(),
    }
}

fn fill(random: &mut Random, set: &mut [bool]) {
    let kind = random.below(3);
    let word = mask(random, kind);
    set.iter_mut().enumerate().for_each(|(i, member)| *member = word >> i & 1 == 1);
}

fn fill_rows(random: &mut Random, pairs: &mut Pairs, n: usize) {
    let kind = random.below(3);
    for i in 0..n {
        let word = if random.one_in(6) { 0 } else { mask(random, kind) };
        pairs.row_mut(i).iter_mut().enumerate().for_each(|(j, linked)| *linked = word >> j & 1 == 1);
    }
}
