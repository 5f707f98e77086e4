//! "The code": expressions, rules and edits as trees, and the bytes that they are written in.

/// Node expressions, 01 to 0B.
#[derive(Clone, PartialEq, Eq, Debug)]
pub enum Node {
    All,
    Nothing,
    Label(u8),
    Only(u8),
    Not(Box<Node>),
    And(Box<Node>, Box<Node>),
    Or(Box<Node>, Box<Node>),
    Some(Box<Arrow>, Box<Node>),
    Every(Box<Arrow>, Box<Node>),
    AtLeast(u8, Box<Arrow>, Box<Node>),
    AtMost(u8, Box<Arrow>, Box<Node>),
}

/// Arrow expressions, 11 to 17.
#[derive(Clone, PartialEq, Eq, Debug)]
pub enum Arrow {
    Kind(u8),
    Reversed(Box<Arrow>),
    Union(Box<Arrow>, Box<Arrow>),
    Common(Box<Arrow>, Box<Arrow>),
    Without(Box<Arrow>, Box<Arrow>),
    EndingIn(Box<Arrow>, Box<Node>),
    Pair(u8, u8),
}

/// Rules, 21 to 27.
#[derive(Clone, PartialEq, Eq, Debug)]
pub enum Rule {
    Nodes(Node, Node),
    Pairs(Arrow, Arrow),
    Member(u8, Node),
    Linked(u8, u8, Arrow),
    And(Box<Rule>, Box<Rule>),
    Or(Box<Rule>, Box<Rule>),
    Not(Box<Rule>),
}

/// One step of an edit, 31 to 35.
#[derive(Clone, PartialEq, Eq, Debug)]
pub enum Step {
    AddLabel(u8, Node),
    TakeLabel(u8, Node),
    AddArrow(u8, Arrow),
    TakeArrow(u8, Arrow),
    If(Rule, Edit, Edit),
}

/// An edit is its steps in their order; the end, 30, is the end of the list.
pub type Edit = Vec<Step>;

/// What has a text in prefix order and levels.
pub trait Coded {
    fn write(&self, out: &mut Vec<u8>);

    /// Levels from the first code, which is level 1, to the deepest.
    fn levels(&self) -> usize;

    fn code(&self) -> Vec<u8> {
        let mut out = Vec::new();
        self.write(&mut out);
        out
    }
}

fn put(out: &mut Vec<u8>, head: &[u8], operands: &[&dyn Coded]) {
    out.extend_from_slice(head);
    for operand in operands {
        operand.write(out);
    }
}

fn deeper(operands: &[&dyn Coded]) -> usize {
    1 + operands.iter().map(|operand| operand.levels()).max().unwrap_or(0)
}

impl Coded for Node {
    fn write(&self, out: &mut Vec<u8>) {
        match self {
            Node::All => put(out, &[0x01], &[]),
            Node::Nothing => put(out, &[0x02], &[]),
            Node::Label(k) => put(out, &[0x03, *k], &[]),
            Node::Only(i) => put(out, &[0x04, *i], &[]),
            Node::Not(e) => put(out, &[0x05], &[&**e]),
            Node::And(e, f) => put(out, &[0x06], &[&**e, &**f]),
            Node::Or(e, f) => put(out, &[0x07], &[&**e, &**f]),
            Node::Some(r, e) => put(out, &[0x08], &[&**r, &**e]),
            Node::Every(r, e) => put(out, &[0x09], &[&**r, &**e]),
            Node::AtLeast(m, r, e) => put(out, &[0x0A, *m], &[&**r, &**e]),
            Node::AtMost(m, r, e) => put(out, &[0x0B, *m], &[&**r, &**e]),
        }
    }

    fn levels(&self) -> usize {
        match self {
            Node::All | Node::Nothing | Node::Label(_) | Node::Only(_) => 1,
            Node::Not(e) => deeper(&[&**e]),
            Node::And(e, f) | Node::Or(e, f) => deeper(&[&**e, &**f]),
            Node::Some(r, e) | Node::Every(r, e) => deeper(&[&**r, &**e]),
            Node::AtLeast(_, r, e) | Node::AtMost(_, r, e) => deeper(&[&**r, &**e]),
        }
    }
}

impl Coded for Arrow {
    fn write(&self, out: &mut Vec<u8>) {
        match self {
            Arrow::Kind(a) => put(out, &[0x11, *a], &[]),
            Arrow::Reversed(r) => put(out, &[0x12], &[&**r]),
            Arrow::Union(r, s) => put(out, &[0x13], &[&**r, &**s]),
            Arrow::Common(r, s) => put(out, &[0x14], &[&**r, &**s]),
            Arrow::Without(r, s) => put(out, &[0x15], &[&**r, &**s]),
            Arrow::EndingIn(r, e) => put(out, &[0x16], &[&**r, &**e]),
            Arrow::Pair(i, j) => put(out, &[0x17, *i, *j], &[]),
        }
    }

    fn levels(&self) -> usize {
        match self {
            Arrow::Kind(_) | Arrow::Pair(_, _) => 1,
            Arrow::Reversed(r) => deeper(&[&**r]),
            Arrow::Union(r, s) | Arrow::Common(r, s) | Arrow::Without(r, s) => deeper(&[&**r, &**s]),
            Arrow::EndingIn(r, e) => deeper(&[&**r, &**e]),
        }
    }
}

impl Coded for Rule {
    fn write(&self, out: &mut Vec<u8>) {
        match self {
            Rule::Nodes(e, f) => put(out, &[0x21], &[e, f]),
            Rule::Pairs(r, s) => put(out, &[0x22], &[r, s]),
            Rule::Member(i, e) => put(out, &[0x23, *i], &[e]),
            Rule::Linked(i, j, r) => put(out, &[0x24, *i, *j], &[r]),
            Rule::And(k, l) => put(out, &[0x25], &[&**k, &**l]),
            Rule::Or(k, l) => put(out, &[0x26], &[&**k, &**l]),
            Rule::Not(k) => put(out, &[0x27], &[&**k]),
        }
    }

    fn levels(&self) -> usize {
        match self {
            Rule::Nodes(e, f) => deeper(&[e, f]),
            Rule::Pairs(r, s) => deeper(&[r, s]),
            Rule::Member(_, e) => deeper(&[e]),
            Rule::Linked(_, _, r) => deeper(&[r]),
            Rule::And(k, l) | Rule::Or(k, l) => deeper(&[&**k, &**l]),
            Rule::Not(k) => deeper(&[&**k]),
        }
    }
}

impl Coded for Step {
    fn write(&self, out: &mut Vec<u8>) {
        match self {
            Step::AddLabel(k, e) => put(out, &[0x31, *k], &[e]),
            Step::TakeLabel(k, e) => put(out, &[0x32, *k], &[e]),
            Step::AddArrow(a, r) => put(out, &[0x33, *a], &[r]),
            Step::TakeArrow(a, r) => put(out, &[0x34, *a], &[r]),
            Step::If(k, p, q) => put(out, &[0x35], &[k, p, q]),
        }
    }

    fn levels(&self) -> usize {
        match self {
            Step::AddLabel(_, e) | Step::TakeLabel(_, e) => deeper(&[e]),
            Step::AddArrow(_, r) | Step::TakeArrow(_, r) => deeper(&[r]),
            Step::If(k, p, q) => deeper(&[k, p, q]),
        }
    }
}

/// Z is at the level of its step, so an edit is as deep as its deepest step.
impl Coded for Edit {
    fn write(&self, out: &mut Vec<u8>) {
        self.iter().for_each(|step| step.write(out));
        out.push(0x30);
    }

    fn levels(&self) -> usize {
        self.iter().map(|step| step.levels()).max().unwrap_or(1)
    }
}
