//! The graph that a sheet stores.

pub const LABELS: usize = 48;
pub const ARROWS: usize = 16;
pub const MOST_NODES: usize = 60;

/// A set of nodes: entry i says whether node i is in it.
pub type Nodes = Vec<bool>;

/// A set of pairs of the nodes below n: member i, j says whether there is an arrow from i to j.
#[derive(Clone, PartialEq, Eq, Debug)]
pub struct Pairs {
    n: usize,
    members: Vec<bool>,
}

impl Pairs {
    pub fn new(n: usize, member: impl Fn(usize, usize) -> bool) -> Pairs {
        let mut members = Vec::with_capacity(n * n);
        for x in 0..n {
            members.extend((0..n).map(|y| member(x, y)));
        }
        Pairs { n, members }
    }

    pub fn has(&self, x: usize, y: usize) -> bool {
        self.row(x)[y]
    }

    /// The arrows from x.
    pub fn row(&self, x: usize) -> &[bool] {
        &self.members[x * self.n..(x + 1) * self.n]
    }

    pub fn row_mut(&mut self, x: usize) -> &mut [bool] {
        &mut self.members[x * self.n..(x + 1) * self.n]
    }

    /// All members, row by row.
    pub fn all(&self) -> &[bool] {
        &self.members
    }

    pub fn all_mut(&mut self) -> &mut [bool] {
        &mut self.members
    }
}

/// Document 02, item 6: a node below n is in use or closed, and no closed node has a label or an arrow.
#[derive(Clone, PartialEq, Eq, Debug)]
pub struct Graph {
    pub n: usize,
    pub in_use: Nodes,
    pub labels: Vec<Nodes>,
    pub arrows: Vec<Pairs>,
}

impl Graph {
    /// n nodes, all in use, without a label and without an arrow.
    pub fn blank(n: usize) -> Graph {
        Graph {
            n,
            in_use: vec![true; n],
            labels: vec![vec![false; n]; LABELS],
            arrows: vec![Pairs::new(n, |_, _| false); ARROWS],
        }
    }

    /// Whether a node has a label, or an arrow from it or to it.
    pub fn has_any(&self, node: usize) -> bool {
        let arrow = |pairs: &Pairs| (0..self.n).any(|other| pairs.has(node, other) || pairs.has(other, node));
        self.labels.iter().any(|label| label[node]) || self.arrows.iter().any(arrow)
    }

    /// Whether a node is in use, and no other is.
    pub fn is_only(&self, node: usize) -> bool {
        self.in_use.iter().enumerate().all(|(i, used)| *used == (i == node))
    }
}
