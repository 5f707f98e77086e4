//! Document 02, item 4: logs of edits, and what the program `replay` writes for the whole of its input.

use crate::answer::{answer_of, refuse, Answer, Asked, DONE};
use crate::calls::enter;
use crate::reader::LONGEST;
use crate::sheet::{BLOCK, PRESENT, SHEET};

const CONTENT: usize = 504;
const MOST_BLOCKS: usize = 65535;
const SCRATCH: usize = 16384;

/// A block of an edit: is it the first, is it the last, and its edit bytes.
struct Block<'l> {
    first: bool,
    last: bool,
    part: &'l [u8],
}

/// The line that a program prints for an answer.
pub fn line(answer: Answer) -> String {
    format!("{:02} {:05}\n", answer.number, answer.place)
}

/// The fields of a whole block, if they are right by themselves.
fn fields(block: &[u8]) -> Option<Block<'_>> {
    let (first, last) = match block[..2] {
        [3, 0] => (false, false),
        [3, 1] => (true, false),
        [3, 2] => (false, true),
        [3, 3] => (true, true),
        _ => return None,
    };
    let count = usize::from(u16::from_le_bytes([block[2], block[3]]));
    let least = if last { 1 } else { CONTENT };
    if count < least || count > CONTENT {
        return None;
    }
    let (part, behind) = block[4..4 + CONTENT].split_at(count);
    behind.iter().all(|byte| *byte == 0).then_some(Block { first, last, part })
}

/// The questions of a block, which may be cut short.
fn ask(block: &[u8], number: usize, inside: bool) -> Asked<Block<'_>> {
    let whole = block.len() == BLOCK;
    if whole && block[PRESENT.summed..] != PRESENT.check_bytes(block) {
        return refuse(52, number);
    }
    if !whole || number >= MOST_BLOCKS {
        return refuse(53, number);
    }
    match fields(block) {
        Some(block) if block.first != inside => Ok(block),
        _ => refuse(53, number),
    }
}

/// The edits whose last block comes before the first bad one, and done or the answer to that one or to the log's end.
pub fn edits(log: &[u8]) -> (Vec<Vec<u8>>, Answer) {
    let mut finished = Vec::new();
    let mut begun: Option<Vec<u8>> = None;
    for (number, bytes) in log.chunks(BLOCK).enumerate() {
        let block = match ask(bytes, number, begun.is_some()) {
            Ok(block) => block,
            Err(refusal) => return (finished, refusal),
        };
        let mut edit = begun.take().unwrap_or_default();
        edit.extend_from_slice(block.part);
        if block.last {
            finished.push(edit);
        } else {
            begun = Some(edit);
        }
    }
    let end: Asked<()> = if begun.is_some() { refuse(53, log.len() / BLOCK) } else { Ok(()) };
    (finished, answer_of(&end))
}

/// The blocks that hold an edit's bytes, 1 to 4,096 of any value: 22, then 21.
pub fn made(edit: &[u8]) -> Asked<Vec<u8>> {
    if edit.is_empty() {
        return refuse(22, 0);
    }
    if edit.len() > LONGEST {
        return refuse(21, 0);
    }
    let parts: Vec<&[u8]> = edit.chunks(CONTENT).collect();
    let block = |(i, part): (usize, &&[u8])| {
        let mark = u8::from(i == 0) + 2 * u8::from(i + 1 == parts.len());
        let mut block = [&[3, mark][..], &(part.len() as u16).to_le_bytes(), part].concat();
        block.resize(BLOCK, 0);
        PRESENT.seal(&mut block);
        block
    };
    Ok(parts.iter().enumerate().flat_map(block).collect())
}

/// Written into an output: 33 where it is too short.
pub fn log_edit(edit: &[u8], out: &mut [u8]) -> (Answer, usize) {
    let blocks = made(edit).and_then(|blocks| if out.len() < blocks.len() { refuse(33, blocks.len()) } else { Ok(blocks) });
    if let Ok(blocks) = &blocks {
        out[..blocks.len()].copy_from_slice(blocks);
    }
    (answer_of(&blocks), blocks.map_or(0, |blocks| blocks.len()))
}

/// The sheet, the book and the log of an input that does not end before the log.
fn parts(input: &[u8]) -> Option<(&[u8], &[u8], &[u8])> {
    let length = usize::from(*input.get(SHEET)?) + 256 * usize::from(*input.get(SHEET + 1)?);
    let (sheet, rest) = (&input[..SHEET], &input[SHEET + 2..]);
    (rest.len() >= length).then(|| (sheet, &rest[..length], &rest[length..]))
}

/// All that the program writes.
pub fn replayed(input: &[u8]) -> Vec<u8> {
    let Some((sheet, book, log)) = parts(input) else {
        return line(Answer { number: 99, place: 0 }).into_bytes();
    };
    let mut held = sheet.to_vec();
    let (finished, end) = edits(log);
    let mut written = String::new();
    for edit in finished {
        written += &line(enter(&mut held, book, &edit, &mut [0; SCRATCH]));
    }
    if end != DONE {
        written += &line(end);
    }
    [written.into_bytes(), held].concat()
}
