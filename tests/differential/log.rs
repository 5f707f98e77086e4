//! An edit's blocks of a log, compared with the reference's, which read back as that edit.

use common::compare::{Lent, Outcome, Tally};
use common::library::zamiathen_log_edit;
use common::random::Random;
use reference::answer::DONE;
use reference::log;

fn log_edit(tally: &mut Tally, edit: &[u8], out: &[u8]) {
    let (lent_edit, mut lent) = (Lent::of(edit), Lent::of(out));
    let found = unsafe { zamiathen_log_edit(lent_edit.ptr(), lent_edit.len(), lent.mut_ptr(), lent.len()) };
    let found = Outcome::new(&[found.number, found.place, found.length], vec![lent_edit, lent]);
    let mut buffer = out.to_vec();
    let (answer, length) = log::log_edit(edit, &mut buffer);
    let wanted = Outcome::new(&[answer.number, answer.place, length], vec![Lent::of(edit), Lent::of(&buffer)]);
    tally.compare("log edit", &found, &wanted, &[("edit", edit), ("output", out)]);
    if answer == DONE {
        assert!(log::edits(&buffer[..length]) == (vec![edit.to_vec()], DONE), "the blocks read back as the edit");
    }
}

/// Outputs that suffice, that are a byte short, and others.
fn outputs(tally: &mut Tally, random: &mut Random, edit: &[u8]) {
    let needed = edit.len().div_ceil(504) * 512;
    for length in [0, needed.saturating_sub(1), needed, needed + random.below(700), random.below(needed + 1)] {
        log_edit(tally, edit, &random.bytes(length));
    }
}

fn main() {
    let (mut tally, mut random) = (Tally::new(), Random::new(81));
    for length in [0, 1, 503, 504, 505, 1007, 1008, 1009, 4031, 4032, 4033, 4095, 4096, 4097, 5000] {
        for byte in [0, 255] {
            outputs(&mut tally, &mut random, &vec![byte; length]);
        }
    }
    for _ in 0..3_000 {
        let length = random.below(4_200);
        let edit = random.bytes(length);
        outputs(&mut tally, &mut random, &edit);
    }
    tally.finish(&[0, 21, 22, 33]);
}
