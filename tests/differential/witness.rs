//! Who breaks a rule, compared with the reference: plain rules and carried ones, through branches too, and damaged inputs.

use common::compare::{self, Tally};
use common::random::Random;
use common::terms::{self, Names};
use common::{damage, graphs, limits, texts};
use reference::carry::carry;
use reference::graph::Graph;
use reference::syntax::{Coded, Rule};
use reference::witness::{call, witness};
use reference::{answer::DONE, calls, reader, sheet};

fn ask(tally: &mut Tally, bytes: &[u8], text: &[u8]) {
    compare::witness(tally, "witness", bytes, text, call(bytes, text));
}

/// How often each kind came, so that a test in which a kind is rare fails.
#[derive(Default)]
struct Kinds([usize; 4]);

impl Kinds {
    fn count(&mut self, graph: &Graph, rule: &Rule) {
        self.0[witness(graph, rule).kind] += 1;
    }

    fn all_frequent(&self) {
        let least = self.0.iter().sum::<usize>() / 50;
        assert!(self.0.iter().all(|count| *count > least), "each kind is frequent: {:?}", self.0);
    }
}

/// Rules as they are, turned round by a 27, and joined by 25 and 26, with bytes after them.
fn plain(tally: &mut Tally, rounds: usize) {
    let (mut random, mut kinds) = (Random::new(71), Kinds::default());
    for _ in 0..rounds {
        let n = graphs::node_count(&mut random);
        let names = Names::some(&mut random, n);
        let graph = graphs::graph(&mut random, names);
        let bytes = sheet::store(&graph);
        for _ in 0..8 {
            let levels = terms::some_levels(&mut random);
            let rule = terms::rule(&mut random, names, levels);
            let other = terms::rule(&mut random, names, levels);
            let (first, second) = (Box::new(rule.clone()), Box::new(other));
            for rule in [rule, Rule::Not(first.clone()), Rule::And(first.clone(), second.clone()), Rule::Or(first, second)] {
                kinds.count(&graph, &rule);
                let more = random.below(9);
                ask(tally, &bytes, &[rule.code(), random.bytes(more)].concat());
            }
        }
        damaged(tally, &mut random, &bytes, n);
    }
    kinds.all_frequent();
}

/// A fault in the sheet, in the text, or in both.
fn damaged(tally: &mut Tally, random: &mut Random, bytes: &[u8], n: usize) {
    let text = texts::any(random, n);
    ask(tally, bytes, &text);
    if random.one_in(3) {
        ask(tally, &damage::damaged(random, bytes.to_vec()), &text);
    }
}

/// The witness of a carried rule before is that of the rule after the edit.
fn carried(tally: &mut Tally, rounds: usize) {
    let (mut random, mut kinds) = (Random::new(72), Kinds::default());
    for _ in 0..rounds {
        let n = graphs::node_count(&mut random);
        let names = Names::some(&mut random, n);
        let graph = graphs::graph(&mut random, names);
        let bytes = sheet::store(&graph);
        let steps = random.pick(&[1, 1, 2, 3, 4]);
        let levels = terms::some_levels(&mut random);
        let edit = terms::edit(&mut random, names, steps, levels).code();
        let after = calls::apply_on(&graph, &edit).expect("the edit is one");
        let rules = terms::book(&mut random, names, 4);
        let Ok(back) = carry(rules.iter(), &reader::edit(&edit, n).expect("the edit is one")) else { continue };
        for (rule, before) in rules.iter().zip(&back.rules) {
            kinds.count(&after, rule);
            compare::witness(tally, "witness of a carried rule", &bytes, &before.code(), (DONE, witness(&after, rule)));
        }
    }
    kinds.all_frequent();
}

/// Texts at the limits, and rules of many levels: 255 are read and 256 are not, and 16,384 bytes are looked at and no more.
fn at_limits(tally: &mut Tally) {
    let mut random = Random::new(73);
    let names = Names { n: 60, labels: 3, arrows: 3 };
    let bytes = sheet::store(&graphs::graph(&mut random, names));
    for text in [limits::lengths(), limits::levels(), limits::rule_counts()].concat() {
        ask(tally, &bytes, &text);
    }
    let broken = [0x21, 0x01, 0x02];
    for levels in 250..=258 {
        for code in [0x25, 0x26, 0x27] {
            let operand: &[u8] = if code == 0x27 { &[] } else { &[0x21, 0x01, 0x02] };
            ask(tally, &bytes, &[vec![code; levels - 2], broken.to_vec(), operand.repeat(levels)].concat());
            ask(tally, &bytes, &[[&[code], operand].concat().repeat(levels - 2), broken.to_vec()].concat());
        }
    }
    for length in [16_380, 16_384, 16_385, 20_000] {
        let wide = [vec![0x21], limits::wide_node(length - 2), vec![0x02]].concat();
        ask(tally, &bytes, &wide);
        ask(tally, &bytes, &[wide, vec![0x21, 0x01, 0x02]].concat());
        ask(tally, &bytes, &[broken.to_vec(), vec![0; length]].concat());
    }
    ask(tally, &bytes, &[]);
}

fn main() {
    let mut tally = Tally::new();
    at_limits(&mut tally);
    plain(&mut tally, 6_000);
    carried(&mut tally, 20_000);
    tally.finish(&[0, 1, 2, 3, 4, 12, 13, 14, 15]);
}
