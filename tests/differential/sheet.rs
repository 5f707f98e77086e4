//! Sheet questions, blank sheets, bit reads and converted old cards of the library, compared with the reference.

use common::compare::{Lent, Outcome, Tally};
use common::library::{
    zamiathen_arrow_bit, zamiathen_blank, zamiathen_check, zamiathen_convert_255, zamiathen_convert_257,
    zamiathen_judge, zamiathen_label_bit, zamiathen_label_set, zamiathen_nodes, zamiathen_row_set, CNodeSet,
};
use common::random::Random;
use common::terms::Names;
use common::{damage, graphs};
use reference::answer::{answer_of, Asked};
use reference::graph::{Graph, Pairs, MOST_NODES};
use reference::sheet::{self, Form, BLOCK, SHEET, SUMS_255, SUMS_257};

fn asked(bytes: *const u8, length: usize) -> [usize; 2] {
    let found = unsafe { zamiathen_check(bytes, length) };
    [found.number, found.place]
}

fn check(tally: &mut Tally, bytes: &[u8]) {
    let lent = Lent::of(bytes);
    let found = asked(lent.ptr(), lent.len());
    let wanted = Outcome::of_answer(sheet::check(bytes), vec![Lent::of(bytes)]);
    tally.compare("sheet check", &Outcome::new(&found, vec![lent]), &wanted, &[("sheet", bytes)]);
}

/// The same against an answer known without the reference.
fn check_known(tally: &mut Tally, bytes: &[u8], number: usize, place: usize) {
    let found = Outcome::new(&asked(bytes.as_ptr(), bytes.len()), vec![]);
    let wanted = Outcome::new(&[number, place], vec![]);
    tally.compare("sheet check, known answer", &found, &wanted, &[("sheet", bytes)]);
}

/// The sheet's questions are all that judge asks when the book is empty.
fn judge_nothing(tally: &mut Tally, bytes: &[u8]) {
    let lent = Lent::of(bytes);
    let found = unsafe { zamiathen_judge(lent.ptr(), lent.len(), std::ptr::null(), 0) };
    let found = Outcome::new(&[found.number, found.place, found.start, found.length], vec![lent]);
    let answer = sheet::check(bytes);
    let wanted = Outcome::new(&[answer.number, answer.place, 0, 0], vec![Lent::of(bytes)]);
    tally.compare("judge, empty book", &found, &wanted, &[("sheet", bytes)]);
}

fn blank(tally: &mut Tally, bytes: &[u8], n: usize) {
    let mut lent = Lent::of(bytes);
    let found = unsafe { zamiathen_blank(lent.mut_ptr(), lent.len(), n) };
    let found = Outcome::new(&[found.number, found.place], vec![lent]);
    let mut buffer = bytes.to_vec();
    let answer = sheet::blank(&mut buffer, n);
    let wanted = Outcome::of_answer(answer, vec![Lent::of(&buffer)]);
    tally.compare("blank", &found, &wanted, &[("buffer", bytes), ("n", &n.to_le_bytes())]);
    check(tally, &buffer);
}

fn bit_outcome(asked: Asked<bool>, bytes: &[u8]) -> Outcome {
    let answer = answer_of(&asked);
    Outcome::new(&[answer.number, answer.place, usize::from(asked.unwrap_or(false))], vec![Lent::of(bytes)])
}

fn label_bit(tally: &mut Tally, bytes: &[u8], label: usize, node: usize) {
    let lent = Lent::of(bytes);
    let found = unsafe { zamiathen_label_bit(lent.ptr(), lent.len(), label, node) };
    let found = Outcome::new(&[found.number, found.place, found.bit], vec![lent]);
    let wanted = bit_outcome(sheet::label_bit(bytes, label, node), bytes);
    tally.compare("label bit", &found, &wanted, &[("sheet", bytes), ("label", &label.to_le_bytes()), ("node", &node.to_le_bytes())]);
}

fn arrow_bit(tally: &mut Tally, bytes: &[u8], arrow: usize, from: usize, to: usize) {
    let lent = Lent::of(bytes);
    let found = unsafe { zamiathen_arrow_bit(lent.ptr(), lent.len(), arrow, from, to) };
    let found = Outcome::new(&[found.number, found.place, found.bit], vec![lent]);
    let wanted = bit_outcome(sheet::arrow_bit(bytes, arrow, from, to), bytes);
    tally.compare("arrow bit", &found, &wanted, &[("sheet", bytes), ("arrow", &arrow.to_le_bytes()), ("from", &from.to_le_bytes()), ("to", &to.to_le_bytes())]);
}

/// A set of nodes that was read.
fn node_set(tally: &mut Tally, what: &'static str, found: CNodeSet, wanted: Asked<(usize, u64)>, inputs: &[(&str, &[u8])]) {
    let answer = answer_of(&wanted);
    let (count, set) = wanted.unwrap_or_default();
    let found = Outcome::new(&[found.number, found.place, found.count, found.set as usize], vec![]);
    let wanted = Outcome::new(&[answer.number, answer.place, count, set as usize], vec![]);
    tally.compare(what, &found, &wanted, inputs);
}

fn node_sets(tally: &mut Tally, bytes: &[u8], label: usize, arrow: usize, from: usize) {
    let lent = Lent::of(bytes);
    let sheet = || (lent.ptr(), lent.len());
    let found = unsafe { zamiathen_nodes(sheet().0, sheet().1) };
    node_set(tally, "nodes", found, sheet::nodes(bytes), &[("sheet", bytes)]);
    let found = unsafe { zamiathen_label_set(sheet().0, sheet().1, label) };
    node_set(tally, "label set", found, sheet::label_set(bytes, label), &[("sheet", bytes), ("label", &label.to_le_bytes())]);
    let found = unsafe { zamiathen_row_set(sheet().0, sheet().1, arrow, from) };
    node_set(tally, "row set", found, sheet::row_set(bytes, arrow, from), &[("sheet", bytes), ("arrow", &arrow.to_le_bytes()), ("from", &from.to_le_bytes())]);
    assert!(lent.all() == Lent::of(bytes).all(), "the sheet is only read");
}

fn fixed_sheet() -> Vec<u8> {
    let mut random = Random::new(1);
    sheet::store(&graphs::graph(&mut random, Names { n: 37, labels: 48, arrows: 16 }))
}

/// Each byte of one sheet changed to each other value: 8,704 places, 255 values. Any change of one byte is 2, with its
/// block (document 02, item 2).
fn changed_bytes(tally: &mut Tally) {
    let mut bytes = fixed_sheet();
    check_known(tally, &bytes, 0, 0);
    for at in 0..SHEET {
        let was = bytes[at];
        for value in (0..=255).filter(|value| *value != was) {
            bytes[at] = value;
            check_known(tally, &bytes, 2, at / BLOCK);
        }
        bytes[at] = was;
    }
}

/// All neighbours among the first 508 bytes of each block exchanged: 2 with their block, unless they are equal.
fn exchanged_neighbours(tally: &mut Tally, mut bytes: Vec<u8>) {
    for at in (0..SHEET).filter(|at| at % BLOCK < 507) {
        let unequal = bytes[at] != bytes[at + 1];
        bytes.swap(at, at + 1);
        let (number, place) = if unequal { (2, at / BLOCK) } else { (0, 0) };
        check_known(tally, &bytes, number, place);
        bytes.swap(at, at + 1);
    }
}

/// A worn card: a zero byte that has become 255, at each place.
fn worn(tally: &mut Tally, mut bytes: Vec<u8>) {
    for at in 0..SHEET {
        if bytes[at] == 0 {
            bytes[at] = 255;
            check_known(tally, &bytes, 2, at / BLOCK);
            bytes[at] = 0;
        }
    }
}

/// Each value of the two bytes of a sum: one is right, and none that is only the same modulo 257.
fn stored_sums(tally: &mut Tally, sound: &[u8]) {
    for at in [508, 510, BLOCK + 508, BLOCK + 510] {
        let mut bytes = sound.to_vec();
        for value in 0..=u16::MAX {
            bytes[at..at + 2].copy_from_slice(&value.to_le_bytes());
            let (number, place) = if bytes == sound { (0, 0) } else { (2, at / BLOCK) };
            check_known(tally, &bytes, number, place);
        }
    }
}

/// What every caller may rely on, on sheets with few and with many bytes that are zero or like their neighbours.
fn noticed_changes(tally: &mut Tally) {
    changed_bytes(tally);
    let mut random = Random::new(6);
    let mixed = sheet::store(&graphs::graph(&mut random, Names { n: 60, labels: 48, arrows: 16 }));
    let blank = sheet::store(&Graph::blank(1));
    let full = sheet::store(&graphs::full(60));
    for bytes in [fixed_sheet(), mixed, blank, full] {
        exchanged_neighbours(tally, bytes.clone());
        worn(tally, bytes);
    }
    stored_sums(tally, &fixed_sheet());
}

/// What 01 says about one byte of a block whose sums are right, except for the nodes in use and n.
fn fault_of_byte(bytes: &[u8], at: usize) -> (usize, usize) {
    let (block, place) = (at / BLOCK, at % BLOCK);
    let used = u64::from_le_bytes(bytes[400..408].try_into().expect("8 bytes"));
    let row = place.saturating_sub(16) / 8;
    let row_byte = place >= 16 && if block == 0 { row < 48 } else { row < 60 && used >> row & 1 == 1 };
    match place {
        0..=2 => (3, block),
        _ if row_byte && u64::from(bytes[at]) << ((place - 16) % 8 * 8) & !used == 0 => (0, 0),
        _ => (4, block),
    }
}

/// Each byte of some sheets changed to another value and the sums mended, so that 3 and 4 are reached at each place.
fn mended_bytes(tally: &mut Tally) {
    let mut random = Random::new(10);
    let names = Names { n: 37, labels: 48, arrows: 16 };
    let graph = graphs::all_used(&mut random, names);
    let thirds = (0..37).map(|i| i % 3 != 1).collect();
    for sound in [sheet::store(&graph), sheet::store(&graphs::with_use(graph, thirds))] {
        mended_bytes_of(tally, &sound);
    }
}

fn mended_bytes_of(tally: &mut Tally, sound: &[u8]) {
    for at in (0..SHEET).filter(|at| at % BLOCK < 508) {
        for change in [1, 128, 255] {
            let mut bytes = sound.to_vec();
            bytes[at] ^= change;
            sheet::seal(&mut bytes[at / BLOCK * BLOCK..(at / BLOCK + 1) * BLOCK]);
            if at != 2 && !(400..408).contains(&at) {
                let (number, place) = fault_of_byte(&bytes, at);
                check_known(tally, &bytes, number, place);
            }
            check(tally, &bytes);
        }
    }
}

/// A graph's sheet with another word for the nodes in use, and the sums right.
fn with_word(graph: &Graph, word: u64) -> Vec<u8> {
    let mut bytes = sheet::store(graph);
    bytes[400..408].copy_from_slice(&word.to_le_bytes());
    sheet::seal(&mut bytes[..BLOCK]);
    bytes
}

/// The nodes in use on a sheet without labels and arrows: 3 when none is below n, with any bits above; else 4 when one is at n
/// or above. Every n, each node alone and with one other.
fn use_words(tally: &mut Tally) {
    for n in 1..=MOST_NODES {
        let blank = Graph::blank(n);
        let below = (1u64 << n) - 1;
        let pairs = (0..64).flat_map(|i| [0, n - 1, n, 63].map(|j| 1u64 << i | 1 << j));
        for word in (0..64).map(|i| 1 << i).chain(pairs).chain([0, u64::MAX, below, !below, !1, below & !1]) {
            let number = match word {
                _ if word & below == 0 => 3,
                _ if word & !below != 0 => 4,
                _ => 0,
            };
            check_known(tally, &with_word(&blank, word), number, 0);
        }
    }
}

/// One label of one node, one arrow of two: 4 in its block when such a node is closed.
fn closed_with_something(tally: &mut Tally) {
    let mut random = Random::new(11);
    for n in (2..=MOST_NODES).flat_map(|n| [n; 40]) {
        let (i, j, k, a) = (random.below(n), random.below(n), random.below(48), random.below(16));
        let below = (1u64 << n) - 1;
        let word = below & random.word() & !(random.word() & random.word() & random.word());
        let word = if word == 0 { below } else { word };
        let used = |node: usize| word >> node & 1 == 1;
        let number = if used(i) { (0, 0) } else { (4, 0) };
        check_known(tally, &with_word(&labelled(n, k, &[i]), word), number.0, number.1);
        let mut graph = Graph::blank(n);
        graph.arrows[a] = Pairs::new(n, |x, y| x == i && y == j);
        let number = if used(i) && used(j) { (0, 0) } else { (4, a + 1) };
        check_known(tally, &with_word(&graph, word), number.0, number.1);
    }
}

fn blanks(tally: &mut Tally) {
    let mut random = Random::new(2);
    let numbers = (0..=61).chain([62, 64, 255, 256, 261, 1 << 16, (1 << 32) + 5, (1 << 63) + 7, usize::MAX]);
    for n in numbers {
        for length in [0, 1, 512, SHEET - 1, SHEET, SHEET, SHEET + 1, 2 * SHEET] {
            let buffer = random.bytes(length);
            blank(tally, &buffer, n);
        }
    }
}

/// A number below `count` or just outside; now and then any byte, a number whose low byte is in range, or the largest.
fn number(random: &mut Random, count: usize) -> usize {
    match random.below(24) {
        0 => usize::from(random.byte()),
        1 => random.below(count + 1) + (256 << random.below(56)),
        2 => usize::MAX - random.below(3),
        _ => random.below(count + 1),
    }
}

/// Reads in range and outside it.
fn bit_reads(tally: &mut Tally, random: &mut Random, bytes: &[u8], n: usize) {
    let (i, j) = (number(random, n), number(random, n));
    label_bit(tally, bytes, number(random, 48), i);
    arrow_bit(tally, bytes, number(random, 16), i, j);
    node_sets(tally, bytes, number(random, 48), number(random, 16), i);
}

/// All bits of one sheet.
fn all_bits(tally: &mut Tally) {
    let mut random = Random::new(3);
    let bytes = sheet::store(&graphs::graph(&mut random, Names { n: 9, labels: 48, arrows: 16 }));
    for i in 0..=10 {
        (0..=48).for_each(|label| label_bit(tally, &bytes, label, i));
        (0..=48).for_each(|label| node_sets(tally, &bytes, label, label % 17, i));
        for j in 0..=10 {
            (0..=16).for_each(|arrow| arrow_bit(tally, &bytes, arrow, i, j));
        }
    }
}

fn random_sheets(tally: &mut Tally, rounds: usize) {
    let mut random = Random::new(4);
    for _ in 0..rounds {
        let n = graphs::node_count(&mut random);
        let names = Names::some(&mut random, n);
        let sound = sheet::store(&graphs::graph(&mut random, names));
        check(tally, &sound);
        judge_nothing(tally, &sound);
        bit_reads(tally, &mut random, &sound, n);
        for _ in 0..9 {
            let bytes = damage::damaged(&mut random, sound.clone());
            check(tally, &bytes);
            if random.one_in(8) {
                judge_nothing(tally, &bytes);
                bit_reads(tally, &mut random, &bytes, n);
            }
        }
    }
}

/// Random bytes, with each block's sums mended, and some lengths.
fn random_bytes(tally: &mut Tally) {
    let mut random = Random::new(5);
    for length in [0, 1, 16, 511, 512, 8192, SHEET - 1, SHEET, SHEET + 1, 2 * SHEET] {
        for _ in 0..20 {
            let mut bytes = random.bytes(length);
            check(tally, &bytes);
            bytes.chunks_mut(BLOCK).filter(|block| block.len() == BLOCK).for_each(sheet::seal);
            check(tally, &bytes);
        }
    }
}

/// A sound sheet cut short, or with more after it.
fn other_lengths(tally: &mut Tally) {
    let twice = fixed_sheet().repeat(2);
    for length in [0, 1, 511, 512, 8192, SHEET - 1, SHEET + 1, SHEET + BLOCK, 2 * SHEET] {
        check_known(tally, &twice[..length], 1, 0);
    }
}

/// Sums of 0 and of 256, which has a second byte: s by label 0, t by a label of a sheet of two nodes.
fn sums_at_the_ends(tally: &mut Tally) {
    let labels: [(usize, usize, &[usize], [u8; 4]); 4] = [
        (60, 0, &[0, 1, 6, 7], [0, 0, 152, 0]),
        (60, 0, &[1, 6, 7], [0, 1, 174, 0]),
        (2, 35, &[0], [7, 0, 0, 0]),
        (2, 3, &[0], [7, 0, 0, 1]),
    ];
    for (n, k, nodes, sums) in labels {
        let mut bytes = sheet::store(&labelled(n, k, nodes));
        bytes[508..512].copy_from_slice(&sums);
        check_known(tally, &bytes, 0, 0);
    }
}

fn labelled(n: usize, k: usize, nodes: &[usize]) -> Graph {
    let mut graph = Graph::blank(n);
    nodes.iter().for_each(|i| graph.labels[k][*i] = true);
    graph
}

/// The two forms of old cards, whose nodes are all in use.
const OLD_FORMS: [Form; 2] = [SUMS_255, SUMS_257];

/// The calls for a form of cards: the library's, the reference's, and their arguments.
fn convert(tally: &mut Tally, form: Form, card: &[u8]) {
    let mut after = card.to_vec();
    let (what, answer) = match form.modulus {
        255 => ("convert 255", sheet::convert_255(&mut after)),
        _ => ("convert 257", sheet::convert_257(&mut after)),
    };
    convert_known(tally, what, form, card, (answer.number, answer.place), &after);
}

/// The same against what is known without the reference's converter.
fn convert_known(
    tally: &mut Tally,
    what: &'static str,
    form: Form,
    card: &[u8],
    (number, place): (usize, usize),
    after: &[u8],
) {
    let mut lent = Lent::of(card);
    let found = match form.modulus {
        255 => unsafe { zamiathen_convert_255(lent.mut_ptr(), lent.len()) },
        _ => unsafe { zamiathen_convert_257(lent.mut_ptr(), lent.len()) },
    };
    let found = Outcome::new(&[found.number, found.place], vec![lent]);
    let wanted = Outcome::new(&[number, place], vec![Lent::of(after)]);
    tally.compare(what, &found, &wanted, &[("card", card), ("modulus", &form.modulus.to_le_bytes())]);
    check(tally, after);
}

fn refuse_card(tally: &mut Tally, form: Form, card: &[u8], number: usize, place: usize) {
    convert_known(tally, "convert, known answer", form, card, (number, place), card);
}

/// Each old card of a graph becomes its sheet, with bits 0 to n minus 1; the sheet is not an old card, and neither is the card of
/// the other form.
fn convert_graph(tally: &mut Tally, graph: &Graph) {
    let sheet = sheet::store(graph);
    for form in OLD_FORMS {
        convert_known(tally, "convert, known answer", form, &form.store(graph), (0, 0), &sheet);
        convert(tally, form, &sheet);
        OLD_FORMS.iter().for_each(|other| convert(tally, form, &other.store(graph)));
    }
    refuse_card(tally, SUMS_257, &sheet, 4, 0);
}

/// Sound cards of each n: blank, full, and some in between.
fn sound_cards(tally: &mut Tally) {
    let mut random = Random::new(7);
    for n in 1..=60 {
        convert_graph(tally, &Graph::blank(n));
        convert_graph(tally, &graphs::full(n));
        for _ in 0..60 {
            let names = Names::some(&mut random, n);
            convert_graph(tally, &graphs::all_used(&mut random, names));
        }
    }
}

/// A card with one byte of a block changed and its sums mended.
fn mended_card(form: Form, sound: &[u8], at: usize, value: u8) -> Vec<u8> {
    let mut card = sound.to_vec();
    card[at] = value;
    form.seal(&mut card[at / BLOCK * BLOCK..(at / BLOCK + 1) * BLOCK]);
    card
}

/// Each question of old cards in each block: a byte that the sums see, each byte of the head, zeros up to the sums, in block 0
/// from byte 400 on.
fn damaged_cards(tally: &mut Tally, form: Form) {
    let mut random = Random::new(8);
    let sound = form.store(&graphs::all_used(&mut random, Names { n: 37, labels: 48, arrows: 16 }));
    for block in 0..17 {
        let start = block * BLOCK;
        for at in start..start + BLOCK {
            let mut card = sound.clone();
            card[at] ^= 1 << random.below(8);
            refuse_card(tally, form, &card, 2, block);
        }
        for (at, value) in [(0, 3), (1, 17), (2, 61)] {
            refuse_card(tally, form, &mended_card(form, &sound, start + at, value), 3, block);
        }
        // The last byte of a word has nodes 56 and above.
        let of_no_node = (23..400).step_by(8);
        let behind = if block == 0 { 400 } else { 496 };
        for at in (3..16).chain(of_no_node).chain(behind..form.summed) {
            refuse_card(tally, form, &mended_card(form, &sound, start + at, 1), 4, block);
        }
    }
    for length in [0, 1, 511, 512, 8192, SHEET - 1, SHEET + 1, 2 * SHEET] {
        refuse_card(tally, form, &[&sound[..], &sound[..]].concat()[..length], 1, 0);
    }
}

/// An old card whose s is 0, with 0 and with 255 stored.
fn old_sum_of_zero(tally: &mut Tally) {
    let graph = labelled(60, 0, &[1, 6, 7]);
    let mut card = SUMS_255.store(&graph);
    card[510] = 0;
    convert_known(tally, "convert, known answer", SUMS_255, &card, (0, 0), &sheet::store(&graph));
    card[510] = 255;
    refuse_card(tally, SUMS_255, &card, 2, 0);
}

/// A zero byte of an old card that has become 255, at each place: sums modulo 255 do not see it, and those modulo 257 do.
fn worn_cards(tally: &mut Tally) {
    for form in OLD_FORMS {
        let sound = form.store(&graphs::full(60));
        for at in (0..SHEET).filter(|at| sound[*at] == 0) {
            let mut card = sound.clone();
            card[at] = 255;
            convert(tally, form, &card);
            if form.modulus == 257 {
                refuse_card(tally, form, &card, 2, at / BLOCK);
            }
        }
    }
}

fn random_cards(tally: &mut Tally, rounds: usize) {
    let mut random = Random::new(9);
    for _ in 0..rounds {
        let n = graphs::node_count(&mut random);
        let names = Names::some(&mut random, n);
        let graph = graphs::all_used(&mut random, names);
        for form in OLD_FORMS {
            for _ in 0..3 {
                convert(tally, form, &damage::damaged_in(&mut random, form, form.store(&graph)));
            }
        }
    }
}

fn cards(tally: &mut Tally) {
    sound_cards(tally);
    OLD_FORMS.into_iter().for_each(|form| damaged_cards(tally, form));
    old_sum_of_zero(tally);
    worn_cards(tally);
    random_cards(tally, 6_000);
    tally.all_reached("convert 255", &[0, 1, 2, 3, 4]);
    tally.all_reached("convert 257", &[0, 1, 2, 3, 4]);
}

fn main() {
    let mut tally = Tally::new();
    cards(&mut tally);
    noticed_changes(&mut tally);
    mended_bytes(&mut tally);
    use_words(&mut tally);
    closed_with_something(&mut tally);
    other_lengths(&mut tally);
    sums_at_the_ends(&mut tally);
    blanks(&mut tally);
    all_bits(&mut tally);
    random_sheets(&mut tally, 11_000);
    random_bytes(&mut tally);
    for what in ["sheet check", "sheet check, known answer", "judge, empty book"] {
        tally.all_reached(what, &[0, 1, 2, 3, 4]);
    }
    tally.finish(&[0, 1, 2, 3, 4, 5, 7]);
}
