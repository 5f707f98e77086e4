//! Document 02, item 1: a block of a sheet printed as a page, and a page typed back; item 6: the nodes in use on it.

use crate::answer::{answer_of, refuse, Answer, Asked};
use crate::calls::Lengthy;
use crate::graph::{Graph, ARROWS, LABELS, MOST_NODES};
use crate::sheet;

const LINE: usize = 64;

/// What a page shows: the arrows of a kind, or the labels.
#[derive(Clone, Copy, PartialEq, Eq, Debug)]
pub enum Shown {
    Arrow(usize),
    Labels,
}

/// The first line: A or L, two digits, 60 blanks.
fn head(shown: Shown, n: usize) -> String {
    let (letter, number) = match shown {
        Shown::Arrow(a) => ('A', a),
        Shown::Labels => ('L', n),
    };
    format!("{letter}{number:02}{:60}\n", "")
}

/// The lines after it: one for each node, or one for each label and a last one for the nodes in use.
fn rows(graph: &Graph, shown: Shown) -> Vec<&[bool]> {
    match shown {
        Shown::Arrow(a) => (0..graph.n).map(|i| graph.arrows[a].row(i)).collect(),
        Shown::Labels => graph.labels.iter().chain([&graph.in_use]).map(Vec::as_slice).collect(),
    }
}

fn square(marked: bool) -> char {
    if marked {
        '#'
    } else {
        '.'
    }
}

/// The page of a graph's block.
pub fn page(graph: &Graph, shown: Shown) -> Vec<u8> {
    let mut text = head(shown, graph.n);
    for (x, row) in rows(graph, shown).into_iter().enumerate() {
        let squares: String = row.iter().map(|marked| square(*marked)).collect();
        text += &format!("{x:02} {squares:60}\n");
    }
    text.into_bytes()
}

/// Print a block into an output.
pub fn print(bytes: &[u8], shown: Shown, out: &mut [u8]) -> Lengthy {
    let page = printed(bytes, shown, out.len());
    let length = page.as_ref().map_or(0, Vec::len);
    if let Ok(page) = &page {
        out[..length].copy_from_slice(page);
    }
    Lengthy { answer: answer_of(&page), length }
}

fn printed(bytes: &[u8], shown: Shown, room: usize) -> Asked<Vec<u8>> {
    sheet::ask(bytes)?;
    if matches!(shown, Shown::Arrow(a) if a >= ARROWS) {
        return refuse(7, 0);
    }
    let page = page(&sheet::read(bytes), shown);
    if room < page.len() {
        return refuse(33, page.len());
    }
    Ok(page)
}

/// Type a page back into a sheet.
pub fn type_page(bytes: &mut [u8], page: &[u8]) -> Answer {
    let after = typed(bytes, page);
    if let Ok(after) = &after {
        bytes.copy_from_slice(after);
    }
    answer_of(&after)
}

fn typed(bytes: &[u8], page: &[u8]) -> Asked<Vec<u8>> {
    let n = sheet::ask(bytes)?;
    let mut graph = sheet::read(bytes);
    let Some(shown) = (0..ARROWS).map(Shown::Arrow).chain([Shown::Labels]).find(|shown| begins(page, *shown, n)) else {
        return refuse(51, 0);
    };
    for (x, line) in page.chunks(LINE).skip(1).enumerate() {
        let squares = squares_of(&graph, shown, x);
        if !could_be(line, x, &squares) {
            return refuse(51, x + 1);
        }
        let row = match shown {
            Shown::Arrow(a) => graph.arrows[a].row_mut(x),
            Shown::Labels if x < LABELS => &mut graph.labels[x],
            Shown::Labels => &mut graph.in_use,
        };
        row.iter_mut().zip(&line[3..]).for_each(|(marked, square)| *marked = *square == b'#');
    }
    Ok(sheet::store(&graph))
}

/// Whether a page has the length and the head of this block of a sheet of n.
fn begins(page: &[u8], shown: Shown, n: usize) -> bool {
    let lines = if shown == Shown::Labels { LABELS + 1 } else { n };
    page.len() == LINE * (1 + lines) && page.starts_with(head(shown, n).as_bytes())
}

/// What the squares of line x may be on sheets with this graph's nodes in use: closed nodes have no labels and no arrows, and
/// the line of the nodes in use is this one.
fn squares_of(graph: &Graph, shown: Shown, x: usize) -> Vec<&'static str> {
    let either = |used: bool| if used { "#." } else { "." };
    let told = |used: bool| if used { "#" } else { "." };
    let square = |used: &bool| match shown {
        Shown::Arrow(_) => either(graph.in_use[x] && *used),
        Shown::Labels if x < LABELS => either(*used),
        Shown::Labels => told(*used),
    };
    graph.in_use.iter().map(square).collect()
}

/// Whether this is a line of number x with such squares, byte by byte.
fn could_be(line: &[u8], x: usize, squares: &[&str]) -> bool {
    line.iter().enumerate().all(|(at, byte)| match at {
        0 => *byte == b'0' + (x / 10) as u8,
        1 => *byte == b'0' + (x % 10) as u8,
        2 => *byte == b' ',
        63 => *byte == b'\n',
        _ if at - 3 < squares.len() => squares[at - 3].as_bytes().contains(byte),
        _ => at - 3 < MOST_NODES && *byte == b' ',
    })
}
