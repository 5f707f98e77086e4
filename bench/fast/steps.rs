//! Making the steps of an edit that was read before.

use crate::eval::Eval;
use crate::index::{EditIndex, NO_STEP};
use crate::rows::{Join, Reversed, Rows};
use crate::sheet::{all_rows, in_use, seal, set_word, word, Blocks, MOST_NODES};

/// Makes all steps, then the check bytes of the blocks that they wrote.
pub fn make_steps(sheet: &mut Blocks, edit: &[u8], index: &EditIndex) {
    let all = in_use(sheet);
    let mut reversed = Reversed::new();
    let mut written = 0u32;
    let mut s = index.first;
    while s != NO_STEP {
        let step = &index.steps[usize::from(s)];
        let mut at = usize::from(step.start);
        let mut eval = Eval::new(sheet, edit, &mut reversed);
        s = step.then;
        if step.op == 0x35 {
            s = if eval.rule(&mut at) { step.p } else { step.q };
        } else if step.name < 48 {
            let e = eval.node(&mut at, all);
            let k = usize::from(step.name);
            let label = word(&sheet[0], k);
            set_word(&mut sheet[0], k, if step.op == 0x31 { label | e } else { label & !e });
            written |= 1;
        } else {
            let a = step.name - 48;
            arrow_step(sheet, all, edit, at, a, step.op == 0x33, &mut reversed);
            reversed.forget(a);
            written |= 2 << a;
        }
    }
    seal_written(sheet, written);
}

#[inline(always)]
fn arrow_step(sheet: &mut Blocks, all: u64, edit: &[u8], mut at: usize, a: u8, adds: bool, reversed: &mut Reversed) {
    let block = usize::from(a) + 1;
    if edit[at] == 0x17 {
        let (i, bit) = (usize::from(edit[at + 1]), 1 << (edit[at + 2] & 63));
        // With a closed node there is no pair; the row of a closed node is empty, and taking from it changes nothing.
        let bit = if all >> i & 1 == 1 { bit & all } else { 0 };
        let row = word(&sheet[block], i);
        return set_word(&mut sheet[block], i, if adds { row | bit } else { row & !bit });
    }
    // R is joined to a copy: the sheet is written when all of R has been read from it.
    let mut rows: Rows = [0; MOST_NODES];
    rows.iter_mut().zip(all_rows(&sheet[block])).for_each(|(row, old)| *row = old);
    let how = if adds { Join::Or } else { Join::Minus };
    Eval::new(sheet, edit, reversed).arrow(&mut at, false, how, &mut rows);
    rows.iter().enumerate().for_each(|(i, row)| set_word(&mut sheet[block], i, *row));
}

fn seal_written(sheet: &mut Blocks, mut written: u32) {
    while written != 0 {
        seal(&mut sheet[written.trailing_zeros() as usize]);
        written &= written - 1;
    }
}
