//! Document 02, item 13: dispatcher against disruption.

use crate::answer::{refuse, Answer, Asked, DONE};
use crate::carry::carry;
use crate::graph::Graph;
use crate::meaning::{first_broken, holds};
use crate::reader;
use crate::sheet;
use crate::steps::carried_out;
use crate::syntax::{Edit, Rule};

/// Whether a win can be forced, and how it begins.
#[derive(Clone, Copy, PartialEq, Eq, Debug)]
pub enum Outcome {
    Cannot,
    First(usize),
    Pass,
}

/// A refusal, and the edit that it is about, by its place in the list: 0 where it is about none.
#[derive(Clone, Copy, PartialEq, Eq, Debug)]
pub struct Refused {
    pub answer: Answer,
    pub edit: usize,
}

fn about<T>(edit: usize, asked: Asked<T>) -> Result<T, Refused> {
    asked.map_err(|answer| Refused { answer, edit })
}

/// The texts of the edits one after the other, the dispatcher's first, and the length of each.
pub struct Edits<'e> {
    pub bytes: &'e [u8],
    pub lengths: &'e [usize],
    pub dispatchers: usize,
}

impl Edits<'_> {
    /// Each text. The lengths fill the bytes.
    fn texts(&self) -> Vec<&[u8]> {
        let mut rest = self.bytes;
        let mut texts = vec![];
        for length in self.lengths {
            let (text, behind) = rest.split_at(*length);
            texts.push(text);
            rest = behind;
        }
        texts
    }

    /// 1 to 4 dispatcher edits and 0 to 4 disruption edits, whose lengths together are that of the bytes.
    fn in_range(&self) -> bool {
        let disruptions = self.lengths.len().checked_sub(self.dispatchers);
        let sum: u128 = self.lengths.iter().map(|length| *length as u128).sum();
        (1..=4).contains(&self.dispatchers)
            && disruptions.is_some_and(|count| count <= 4)
            && sum == self.bytes.len() as u128
    }
}

pub fn play(bytes: &[u8], book: &[u8], goal: &[u8], edits: &Edits, moves: usize) -> Result<Outcome, Refused> {
    if !edits.in_range() || !(1..=6).contains(&moves) {
        return about(0, refuse(62, 0));
    }
    let n = about(0, sheet::ask(bytes))?;
    let rules: Vec<Rule> = about(0, reader::book(book, n))?.into_iter().map(|placed| placed.rule).collect();
    let goal = about(0, ask_goal(goal, n))?;
    let mut read = vec![];
    for (number, text) in edits.texts().into_iter().enumerate() {
        read.push(about(number, reader::edit(text, n))?);
    }
    let disruptions = read.split_off(edits.dispatchers);
    for (number, edit) in read.iter().enumerate() {
        about(number, carry(rules.iter(), edit))?;
    }
    let game = Game { rules, goal, dispatchers: read, disruptions };
    Ok(game.outcome(&sheet::read(bytes), moves))
}

/// The goal is read like a book of one rule: empty it is 12, and bytes after its rule are 16.
fn ask_goal(text: &[u8], n: usize) -> Asked<Rule> {
    let first = reader::first_of(text, n)?;
    if first.part.end < text.len() {
        return refuse(16, first.part.end);
    }
    Ok(first.rule)
}

pub struct Game {
    rules: Vec<Rule>,
    goal: Rule,
    dispatchers: Vec<Edit>,
    disruptions: Vec<Edit>,
}

impl Game {
    /// The graphs that the edits of the dispatcher leave which can be made: enter would answer done.
    fn made(&self, graph: &Graph) -> Vec<(usize, Graph)> {
        let after = self.dispatchers.iter().map(|edit| carried_out(graph, edit)).enumerate();
        after.filter(|(_, after)| first_broken(after, self.rules.iter()).is_none()).collect()
    }

    /// The lowest-numbered first edit that forces a win, or a pass.
    fn outcome(&self, graph: &Graph, moves: usize) -> Outcome {
        let made = self.made(graph);
        if made.is_empty() && self.against(graph, moves - 1) {
            return Outcome::Pass;
        }
        let forcing = made.iter().find(|(_, after)| self.against(after, moves - 1));
        forcing.map_or(Outcome::Cannot, |(number, _)| Outcome::First(*number))
    }

    /// Whether the dispatcher, whose move it is, can force a win with this many moves left.
    fn forced(&self, graph: &Graph, left: usize) -> bool {
        if left == 0 {
            return holds(graph, &self.goal);
        }
        let made = self.made(graph);
        if made.is_empty() {
            return self.against(graph, left - 1);
        }
        made.iter().any(|(_, after)| self.against(after, left - 1))
    }

    /// The same where it is the disruption's move: against each of its moves. Its edits are carried out without the book.
    fn against(&self, graph: &Graph, left: usize) -> bool {
        if left == 0 {
            return holds(graph, &self.goal);
        }
        if self.disruptions.is_empty() {
            return self.forced(graph, left - 1);
        }
        self.disruptions.iter().all(|edit| self.forced(&carried_out(graph, edit), left - 1))
    }
}

/// Number, place, outcome (0 can't, 1 an edit, 2 a pass, 3 after a refusal) and an edit's number: of the first move, or the one
/// that was refused.
pub fn numbers(played: Result<Outcome, Refused>) -> [usize; 4] {
    let (answer, outcome, edit) = match played {
        Err(refused) => (refused.answer, 3, refused.edit),
        Ok(Outcome::Cannot) => (DONE, 0, 0),
        Ok(Outcome::First(edit)) => (DONE, 1, edit),
        Ok(Outcome::Pass) => (DONE, 2, 0),
    };
    [answer.number, answer.place, outcome, edit]
}
