//! Steps of a partner's tool checked by the library, compared with the reference and with chains known without it.

use common::compare::{Lent, Outcome, Tally};
use common::library::zamiathen_check_steps;
use common::random::Random;
use common::terms::{self, Names};
use common::{carried, texts};
use reference::answer::{Answer, DONE};
use reference::calls::carry_back;
use reference::carry::CARRIED_BYTES;
use reference::laws::{self, Term};
use reference::reader;
use reference::syntax::Coded;

/// The library's call against this answer; its buffers stay unchanged.
fn known(tally: &mut Tally, what: &'static str, rule: &[u8], steps: &[u8], sent: &[u8], answer: Answer) {
    let [lent_rule, lent_steps, lent_sent] = [rule, steps, sent].map(Lent::of);
    let found = unsafe {
        zamiathen_check_steps(
            lent_rule.ptr(),
            lent_rule.len(),
            lent_steps.ptr(),
            lent_steps.len(),
            lent_sent.ptr(),
            lent_sent.len(),
        )
    };
    let found = Outcome::new(&[found.number, found.place], vec![lent_rule, lent_steps, lent_sent]);
    let wanted = Outcome::of_answer(answer, [rule, steps, sent].map(Lent::of).into());
    tally.compare(what, &found, &wanted, &[("rule", rule), ("steps", steps), ("sent", sent)]);
}

fn compare(tally: &mut Tally, rule: &[u8], steps: &[u8], sent: &[u8]) {
    known(tally, "steps", rule, steps, sent, laws::check_steps(rule, steps, sent));
}

fn refused(number: usize, place: usize) -> Answer {
    Answer { number, place }
}

fn step(offset: usize, law: u8) -> [u8; 3] {
    [offset as u8, (offset >> 8) as u8, law]
}

/// A chain: the rule, the steps, and the text that they lead to.
struct Chain {
    rule: Vec<u8>,
    steps: Vec<u8>,
    sent: Vec<u8>,
}

/// A rule lengthened by laws from right to left, at random places: the steps lead back. Known without the reference's steps.
fn lengthened(random: &mut Random, mut rule: Term, times: usize, names: Names) -> Chain {
    let sent = rule.code();
    let mut steps = vec![];
    for _ in 0..times {
        let length = rule.code().len();
        let offset = random.below(length);
        let law = 1 + random.below(8) as u8;
        let Some(part) = rule.at(offset) else { continue };
        let Some(longer) = backwards(random, law, part, names) else { continue };
        *part = longer;
        if rule.code().len() > CARRIED_BYTES || reader::carried_rule(&rule.code()).is_err() {
            break;
        }
        steps = [&step(offset, law)[..], &steps].concat();
    }
    // A lengthening that passed a limit is taken back by leaving the chain as it was before it.
    match reader::carried_rule(&rule.code()) {
        Ok(_) => Chain { rule: rule.code(), steps, sent },
        Err(_) => Chain { rule: sent.clone(), steps: vec![], sent },
    }
}

/// The left side of a law whose right side the term is.
fn backwards(random: &mut Random, law: u8, part: &Term, names: Names) -> Option<Term> {
    let node = (0x01..=0x0B).contains(&part.head[0]);
    let rule = (0x21..=0x27).contains(&part.head[0]);
    let some = laws::of_node(&terms::node(random, names, 2));
    let of = |code: u8, operands: &[&Term]| Term {
        head: vec![code],
        operands: operands.iter().map(|operand| (*operand).clone()).collect(),
    };
    match law {
        1 if node => Some(of(0x05, &[&of(0x05, &[part])])),
        2 if node => Some(of(0x06, &[part, part])),
        3 if node => Some(of(0x07, &[part, part])),
        4 if part.head == [0x02] => Some(of(0x06, &[&some, &of(0x05, &[&some])])),
        5 if part.head == [0x01] => Some(of(0x07, &[part, &some])),
        6 if node => Some(of(0x06, &[&of(0x01, &[]), part])),
        7 if rule => Some(of(0x27, &[&of(0x27, &[part])])),
        8 if rule => Some(of(0x26, &[part, part])),
        _ => None,
    }
}

fn some_names(random: &mut Random) -> Names {
    let n = 1 + random.below(60);
    Names::some(random, n)
}

/// A rule of a book, or one carried back through an edit.
fn some_rule(random: &mut Random) -> Term {
    let names = some_names(random);
    let levels = terms::some_levels(random);
    let rule = terms::rule(random, names, levels);
    if random.one_in(2) {
        let edit = terms::edit(random, names, 2, 3).code();
        let mut out = vec![0; 600];
        let carried = carry_back(&rule.code(), &edit, &mut out);
        if let (DONE, Ok(rule)) = (carried.answer, reader::carried_rule(&out[..carried.length])) {
            return laws::of_rule(&rule);
        }
    }
    laws::of_rule(&rule)
}

/// Chains that are right; then with an offset one off, another law, a cut step, a step more, fewer or exchanged, a byte of the
/// text sent.
fn chains(tally: &mut Tally, rounds: usize) {
    let mut random = Random::new(111);
    for _ in 0..rounds {
        let names = some_names(&mut random);
        let rule = some_rule(&mut random);
        let times = random.pick(&[0, 1, 2, 3, 5, 8, 20]);
        let chain = lengthened(&mut random, rule, times, names);
        known(tally, "chain", &chain.rule, &chain.steps, &chain.sent, DONE);
        compare(tally, &chain.rule, &chain.steps, &chain.sent);
        (0..6).for_each(|_| damaged(tally, &mut random, &chain));
        forwards(tally, &mut random, &chain);
    }
}

fn damaged(tally: &mut Tally, random: &mut Random, chain: &Chain) {
    let (mut rule, mut steps, mut sent) = (chain.rule.clone(), chain.steps.clone(), chain.sent.clone());
    let at = 3 * random.below(steps.len() / 3 + 1);
    match random.below(10) {
        0 if at < steps.len() => steps[at] = steps[at].wrapping_add(random.pick(&[1, 255, 2])),
        1 if at < steps.len() => steps[at + 1] = random.pick(&[0, 1, 64, 255]),
        2 if at < steps.len() => steps[at + 2] = random.below(10) as u8,
        3 => steps.truncate(random.below(steps.len() + 1)),
        4 => {
            let extra = step(random.below(rule.len() + 2), random.below(10) as u8);
            steps.splice(at..at, extra);
        }
        5 if at + 6 <= steps.len() => steps.swap(at + 2, at + 5),
        6 => {
            let place = random.below(sent.len());
            sent[place] ^= 1 << random.below(8);
        }
        7 => sent.truncate(random.below(sent.len() + 1)),
        8 => sent.push(random.byte()),
        _ => rule = texts::damaged(random, rule),
    }
    compare(tally, &rule, &steps, &sent);
}

/// Laws that fit applied at random places until none does or enough were, each found by the reference.
fn forwards(tally: &mut Tally, random: &mut Random, chain: &Chain) {
    let Ok(rule) = reader::carried_rule(&chain.rule) else { return };
    let mut text = laws::of_rule(&rule);
    let mut steps = vec![];
    for _ in 0..12 {
        let length = text.code().len();
        let next = step(random.below(length), 1 + random.below(8) as u8);
        if laws::made(&mut text, &next).is_some() {
            steps.extend(next);
        }
    }
    known(tally, "forwards", &chain.rule, &steps, &text.code(), DONE);
}

/// Every offset and every law on some rules: what fits, and nothing else. 59 where it doesn't, else 60 or done.
fn every_step(tally: &mut Tally) {
    let rules: [&[u8]; 7] = [
        &[0x23, 0x05, 0x0B, 0x05, 0x11, 0x05, 0x05, 0x05, 0x03, 0x05],
        &[0x21, 0x06, 0x03, 0x06, 0x03, 0x06, 0x0A, 0x06, 0x16, 0x11, 0x06, 0x06, 0x01, 0x01, 0x06, 0x01, 0x02],
        &[
            0x27, 0x27, 0x26, 0x27, 0x27, 0x24, 0x27, 0x26, 0x17, 0x27, 0x27, 0x27, 0x27, 0x24, 0x27, 0x26, 0x17, 0x27,
            0x27,
        ],
        &[0x22, 0x13, 0x11, 0x07, 0x11, 0x07, 0x16, 0x17, 0x07, 0x07, 0x07, 0x01, 0x07, 0x03, 0x07, 0x03, 0x07],
        &[0x25, 0x23, 0x06, 0x06, 0x03, 0x05, 0x05, 0x03, 0x05, 0x21, 0x06, 0x01, 0x05, 0x01, 0x07, 0x02, 0x05, 0x02],
        &[0x26, 0x23, 0x00, 0x03, 0x00, 0x23, 0x00, 0x03, 0x01],
        &[0x26, 0x21, 0x03, 0x00, 0x05, 0x05, 0x01, 0x21, 0x03, 0x00, 0x05, 0x05, 0x01],
    ];
    for rule in rules {
        reader::carried_rule(rule).expect("a sound rule");
        for offset in 0..rule.len() + 3 {
            for law in 0..=10 {
                compare(tally, rule, &step(offset, law), rule);
            }
        }
        for offset in [256, 257, 258, 4096, 32768, 65535] {
            (1..=8).for_each(|law| known(tally, "far", rule, &step(offset, law), rule, refused(59, 0)));
        }
    }
}

/// Equal lengths are not equal parts.
fn unequal_parts(tally: &mut Tally) {
    let steps: [(&[u8], u8); 8] = [
        (&[0x23, 0x00, 0x06, 0x03, 0x01, 0x03, 0x02], 2),
        (&[0x23, 0x00, 0x06, 0x03, 0x01, 0x04, 0x01], 2),
        (&[0x23, 0x00, 0x07, 0x01, 0x02], 3),
        (&[0x23, 0x00, 0x07, 0x05, 0x01, 0x05, 0x02], 3),
        (&[0x23, 0x00, 0x06, 0x03, 0x01, 0x05, 0x03, 0x02], 4),
        (&[0x23, 0x00, 0x06, 0x03, 0x01, 0x03, 0x01], 4),
        (&[0x23, 0x00, 0x06, 0x05, 0x03, 0x01, 0x03, 0x01], 4),
        (&[0x23, 0x00, 0x07, 0x02, 0x03, 0x01], 5),
    ];
    for (rule, law) in steps {
        known(tally, "unequal parts", rule, &step(2, law), rule, refused(59, 0));
    }
    let rule = [0x26, 0x23, 0x00, 0x01, 0x23, 0x01, 0x01];
    known(tally, "unequal parts", &rule, &step(0, 8), &rule, refused(59, 0));
}

/// Every question in its place: each fault of the rule before each of the steps before the text sent. Known without the reference.
fn orders(tally: &mut Tally) {
    let sound = [0x23, 0x00, 0x05, 0x05, 0x06, 0x03, 0x01, 0x03, 0x01];
    let rules: [(Vec<u8>, Answer); 9] = [
        (sound.to_vec(), DONE),
        (vec![0x21; 16385], refused(11, 0)),
        (vec![], refused(12, 0)),
        (sound[..8].to_vec(), refused(12, 8)),
        ([&[0x23, 0x00, 0x11][..], &sound].concat(), refused(13, 2)),
        ([vec![0x23, 0x00], vec![0x05; 255]].concat(), refused(14, 256)),
        (vec![0x23, 0x3C, 0x01], refused(15, 1)),
        (vec![0x23, 0x00, 0x0B, 0x3C, 0x11, 0x00, 0x01], refused(15, 3)),
        ([&sound[..], &[0xFF]].concat(), refused(16, 9)),
    ];
    // After the two steps that lead to 23 00 03 01, or instead of the second.
    let right = [step(2, 1), step(2, 2)].concat();
    let steps: [(Vec<u8>, Answer); 8] = [
        (right.clone(), DONE),
        ([&right[..], &[0]].concat(), refused(59, 2)),
        ([&right[..], &[2, 0]].concat(), refused(59, 2)),
        ([&right[..3], &step(2, 0)].concat(), refused(59, 1)),
        ([&right[..3], &step(2, 9), &[1]].concat(), refused(59, 1)),
        ([&right[..3], &step(3, 2)].concat(), refused(59, 1)),
        (step(2, 2).to_vec(), refused(59, 0)),
        ([&right[..], &right].concat(), refused(59, 2)),
    ];
    let sents: [(&[u8], Answer); 7] = [
        (&[0x23, 0x00, 0x03, 0x01], DONE),
        (&[], refused(60, 0)),
        (&[0x23, 0x00, 0x03], refused(60, 3)),
        (&[0x23, 0x00, 0x03, 0x01, 0x00], refused(60, 4)),
        (&[0x23, 0x00, 0x03, 0x02], refused(60, 3)),
        (&[0x27, 0x00, 0x03, 0x01], refused(60, 0)),
        (&[0x23, 0x01, 0x04, 0x02, 0xFF], refused(60, 1)),
    ];
    for (rule, rule_answer) in &rules {
        for (steps, steps_answer) in &steps {
            for (sent, sent_answer) in &sents {
                let answers = [*rule_answer, *steps_answer, *sent_answer];
                let answer = answers.into_iter().find(|answer| *answer != DONE).unwrap_or(DONE);
                known(tally, "orders of steps", rule, steps, sent, answer);
            }
        }
    }
}

/// Limits: 255 levels, 16,384 bytes, chains that are as long as can be, and more steps than can fit.
fn limit_chains(tally: &mut Tally) {
    for levels in 253..=257 {
        let rule = [vec![0x23, 0x00], vec![0x05; levels - 2], vec![0x01]].concat();
        let pairs = (levels - 2) / 2;
        let sent = [vec![0x23, 0x00], vec![0x05; levels % 2], vec![0x01]].concat();
        let answer = if levels > 255 { refused(14, 256) } else { DONE };
        known(tally, "deep", &rule, &step(2, 1).repeat(pairs), &sent, answer);
        // The same from the inside out.
        let inner: Vec<u8> = (0..pairs).flat_map(|i| step(levels - 2 * i - 2, 1)).collect();
        known(tally, "deep", &rule, &inner, &sent, answer);
        let more = step(2, 1).repeat(pairs + 1);
        known(tally, "deep", &rule, &more, &sent, if levels > 255 { answer } else { refused(59, pairs) });
    }
    // A full tree of 07 over 03 k: 3 * 2^12 - 1 bytes with its head, and 2^12 - 1 steps.
    let mut tree = vec![0x03, 0x07];
    let mut steps = vec![];
    for _ in 0..12 {
        tree = [&[0x07], &tree[..], &tree].concat();
    }
    let rule = [&[0x21, 0x02], &tree[..]].concat();
    let mut length = tree.len();
    while length > 2 {
        steps.extend(step(2, 3));
        length = (length - 1) / 2;
    }
    known(tally, "wide", &rule, &steps, &[0x21, 0x02, 0x03, 0x07], DONE);
    known(tally, "wide", &rule, &steps.repeat(6000), &[], refused(59, steps.len() / 3));
    known(tally, "wide", &rule, &[0xFF; 200_000], &[], refused(59, 0));
    // 06 01 06 01 .. as levels go, and 26 K K side by side: the longest text.
    let ones = [vec![0x23, 0x00], [0x06, 0x01].repeat(253), vec![0x03, 0x00]].concat();
    known(tally, "ones", &ones, &step(2, 6).repeat(253), &[0x23, 0x00, 0x03, 0x00], DONE);
    let last_first: Vec<u8> = (0..253).rev().flat_map(|i| step(2 + 2 * i, 6)).collect();
    known(tally, "ones", &ones, &last_first, &[0x23, 0x00, 0x03, 0x00], DONE);
    for length in [CARRIED_BYTES - 1, CARRIED_BYTES, CARRIED_BYTES + 1] {
        let rule = [vec![0x21, 0x02], common::limits::wide_node(length - 2)].concat();
        compare(tally, &rule, &[], &rule);
        compare(tally, &rule, &step(length - 1, 1), &rule);
    }
}

/// Carried books at their limits, as one rule.
fn carried_rules(tally: &mut Tally) {
    for (book, edit) in carried::all() {
        let mut out = vec![0; CARRIED_BYTES];
        let length = carry_back(&book, &edit, &mut out).length;
        if length > 0 && length < 3000 {
            let rule = &out[..length];
            compare(tally, rule, &[], rule);
            compare(tally, rule, &step(2, 5), rule);
            compare(tally, rule, &step(0, 8), &[]);
        }
    }
}

/// Any bytes.
fn random_bytes(tally: &mut Tally, rounds: usize) {
    let mut random = Random::new(112);
    for _ in 0..rounds {
        let rule = texts::any(&mut random, 60);
        let steps: Vec<u8> = (0..random.below(7)).map(|_| random.below(8) as u8).collect();
        let sent = if random.one_in(2) { rule.clone() } else { texts::any(&mut random, 60) };
        compare(tally, &rule, &steps, &sent);
    }
}

fn main() {
    let mut tally = Tally::new();
    every_step(&mut tally);
    unequal_parts(&mut tally);
    orders(&mut tally);
    limit_chains(&mut tally);
    carried_rules(&mut tally);
    chains(&mut tally, 9_000);
    random_bytes(&mut tally, 12_000);
    tally.all_reached("orders of steps", &[0, 11, 12, 13, 14, 15, 16, 59, 60]);
    tally.all_reached("steps", &[0, 11, 12, 13, 15, 16, 59, 60]);
    tally.finish(&[0, 11, 12, 13, 14, 15, 16, 59, 60]);
}
