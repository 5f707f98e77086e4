//! Document 02, item 8: two stations under one roof.

use crate::answer::{answer_of, refuse, Answer, Asked};
use crate::graph::{Graph, Nodes, Pairs, MOST_NODES};
use crate::sheet;

/// Two sheets become one in the first's buffer.
pub fn join_sheets(first: &mut [u8], second: &[u8]) -> Answer {
    let asked = ask_joined(first, second);
    if let Ok(graph) = &asked {
        first.copy_from_slice(&sheet::store(graph));
    }
    answer_of(&asked)
}

fn ask_joined(first: &[u8], second: &[u8]) -> Asked<Graph> {
    let total = sheet::ask(first)? + sheet::ask(second)?;
    if total > MOST_NODES {
        return refuse(58, total);
    }
    Ok(joined(&sheet::read(first), &sheet::read(second)))
}

/// The second's nodes follow the first's, its numbers raised by the first's n; labels, arrows and nodes in use in the same way.
pub fn joined(first: &Graph, second: &Graph) -> Graph {
    let behind = |one: &Nodes, other: &Nodes| [&one[..], other].concat();
    let linked = |one: &Pairs, other: &Pairs| {
        Pairs::new(first.n + second.n, |i, j| match (i.checked_sub(first.n), j.checked_sub(first.n)) {
            (None, None) => one.has(i, j),
            (Some(x), Some(y)) => other.has(x, y),
            _ => false,
        })
    };
    Graph {
        n: first.n + second.n,
        in_use: behind(&first.in_use, &second.in_use),
        labels: first.labels.iter().zip(&second.labels).map(|(one, other)| behind(one, other)).collect(),
        arrows: first.arrows.iter().zip(&second.arrows).map(|(one, other)| linked(one, other)).collect(),
    }
}
