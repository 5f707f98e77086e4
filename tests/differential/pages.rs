//! Pages printed and typed back by the library, compared with the reference.

use common::compare::{Lent, Outcome, Tally};
use common::library::{zamiathen_print_arrow, zamiathen_print_labels, zamiathen_type_page};
use common::random::Random;
use common::terms::Names;
use common::{damage, graphs};
use reference::graph::Graph;
use reference::pages::{self, Shown};
use reference::sheet;

const LINE: usize = 64;
const MOST: usize = 61 * LINE;

fn print(tally: &mut Tally, bytes: &[u8], shown: Shown, room: usize) {
    let sheet = Lent::of(bytes);
    let blank = vec![0x5A; room];
    let mut output = Lent::of(&blank);
    let found = match shown {
        Shown::Arrow(a) => unsafe {
            zamiathen_print_arrow(sheet.ptr(), sheet.len(), a, output.mut_ptr(), output.len())
        },
        Shown::Labels => unsafe { zamiathen_print_labels(sheet.ptr(), sheet.len(), output.mut_ptr(), output.len()) },
    };
    let found = Outcome::new(&[found.number, found.place, found.length], vec![sheet, output]);
    let mut wanted_output = blank;
    let wanted = pages::print(bytes, shown, &mut wanted_output);
    let numbers = [wanted.answer.number, wanted.answer.place, wanted.length];
    let wanted = Outcome::new(&numbers, vec![Lent::of(bytes), Lent::of(&wanted_output)]);
    let kind = match shown {
        Shown::Arrow(a) => a.to_le_bytes().to_vec(),
        Shown::Labels => vec![],
    };
    tally.compare("print", &found, &wanted, &[("sheet", bytes), ("kind", &kind), ("room", &room.to_le_bytes())]);
}

fn type_page(tally: &mut Tally, bytes: &[u8], page: &[u8]) {
    let mut after = bytes.to_vec();
    let answer = pages::type_page(&mut after, page);
    type_known(tally, "type", bytes, page, (answer.number, answer.place), &after);
}

/// The same against what is known without the reference.
fn type_known(tally: &mut Tally, what: &'static str, bytes: &[u8], page: &[u8], answer: (usize, usize), after: &[u8]) {
    let (mut sheet, lent) = (Lent::of(bytes), Lent::of(page));
    let found = unsafe { zamiathen_type_page(sheet.mut_ptr(), sheet.len(), lent.ptr(), lent.len()) };
    let found = Outcome::new(&[found.number, found.place], vec![sheet, lent]);
    let wanted = Outcome::new(&[answer.0, answer.1], vec![Lent::of(after), Lent::of(page)]);
    tally.compare(what, &found, &wanted, &[("sheet", bytes), ("page", page)]);
}

fn random_graph(random: &mut Random, n: usize) -> Graph {
    graphs::graph(random, Names { n, labels: 48, arrows: 16 })
}

fn some_block(random: &mut Random) -> Shown {
    match random.below(17) {
        16 => Shown::Labels,
        a => Shown::Arrow(a),
    }
}

/// For each n: the rooms around each page's length, and kinds that no sheet has.
fn prints(tally: &mut Tally) {
    let mut random = Random::new(1);
    for n in 1..=60 {
        let bytes = sheet::store(&random_graph(&mut random, n));
        for a in (0..=20).chain([99, 100, 255, 256, 1 << 32, 1 << 63, usize::MAX]) {
            for room in [0, LINE, LINE * n, LINE * n + LINE - 1, LINE * n + LINE, MOST] {
                print(tally, &bytes, Shown::Arrow(a), room);
            }
        }
        for room in [0, LINE * 49, LINE * 50 - 1, LINE * 50, LINE * 50 + 1, MOST] {
            print(tally, &bytes, Shown::Labels, room);
        }
    }
}

/// Every page of a sheet typed back into it changes nothing; into the blank sheet with these nodes in use it puts that block
/// alone; into a sheet of another n it is refused. All known without the reference except the pages.
fn pages_back(tally: &mut Tally) {
    let mut random = Random::new(2);
    for n in 1..=60 {
        let graph = random_graph(&mut random, n);
        let bytes = sheet::store(&graph);
        let blank = graphs::with_use(Graph::blank(n), graph.in_use.clone());
        for shown in (0..16).map(Shown::Arrow).chain([Shown::Labels]) {
            let page = pages::page(&graph, shown);
            type_known(tally, "own page", &bytes, &page, (0, 0), &bytes);
            let mut alone = blank.clone();
            match shown {
                Shown::Arrow(a) => alone.arrows[a] = graph.arrows[a].clone(),
                Shown::Labels => alone.labels = graph.labels.clone(),
            }
            type_known(tally, "page on a blank", &sheet::store(&blank), &page, (0, 0), &sheet::store(&alone));
            let other = sheet::store(&random_graph(&mut random, if n == 60 { 1 } else { n + 1 }));
            type_known(tally, "page of another n", &other, &page, (51, 0), &other);
        }
    }
}

/// A page of a blank sheet with other nodes in use: an arrow page is typed, and of a label page line 48 is refused. A mark at a
/// closed node is refused in its line, before line 48. Known without the reference except the pages.
fn closed_nodes(tally: &mut Tally) {
    let mut random = Random::new(7);
    let blank = |n: usize, in_use: &[bool]| graphs::with_use(Graph::blank(n), in_use.to_vec());
    for n in (2..=60).flat_map(|n| [n; 8]) {
        let (used, mut other) = (graphs::in_use(&mut random, n), graphs::in_use(&mut random, n));
        if used == other {
            other[random.below(n)] ^= true;
        }
        let bytes = sheet::store(&blank(n, &used));
        let labels = pages::page(&blank(n, &other), Shown::Labels);
        type_known(tally, "other nodes in use", &bytes, &labels, (51, 49), &bytes);
        let arrows = pages::page(&blank(n, &other), Shown::Arrow(5));
        type_known(tally, "arrow page, other nodes in use", &bytes, &arrows, (0, 0), &bytes);
        for closed in (0..n).filter(|i| !used[*i]) {
            let other = random.below(n);
            for line in [0, 1, 20, 46, 47] {
                marked(tally, &bytes, labels.clone(), line, closed);
            }
            marked(tally, &bytes, arrows.clone(), closed, other);
            marked(tally, &bytes, arrows.clone(), other, closed);
        }
    }
}

/// A page with a mark in a square that no sheet with these nodes in use prints.
fn marked(tally: &mut Tally, bytes: &[u8], mut page: Vec<u8>, line: usize, square: usize) {
    page[LINE * (line + 1) + 3 + square] = b'#';
    type_known(tally, "mark at a closed node", bytes, &page, (51, line + 1), bytes);
}

/// Each byte of some pages changed to bytes that mean something elsewhere on a page, and to others.
fn changed_bytes(tally: &mut Tally) {
    let mut random = Random::new(3);
    let arrows = [(1, 0), (3, 15), (48, 9), (60, 10)].map(|(n, a)| (n, Shown::Arrow(a)));
    for (n, shown) in arrows.into_iter().chain([(5, Shown::Labels), (60, Shown::Labels)]) {
        let graph = random_graph(&mut random, n);
        let other = graphs::all_used(&mut random, Names { n, labels: 48, arrows: 16 });
        let bytes = sheet::store(&graphs::with_use(other, graph.in_use.clone()));
        let mut page = pages::page(&graph, shown);
        for at in 0..page.len() {
            let kept = page[at];
            for byte in *b"#. \n0159AL" {
                page[at] = byte;
                type_page(tally, &bytes, &page);
            }
            page[at] = kept ^ 1 << random.below(8);
            type_page(tally, &bytes, &page);
            page[at] = kept;
        }
    }
}

/// Heads that no page has, and heads that only another page has: all two digits after A and L.
fn heads(tally: &mut Tally) {
    let mut random = Random::new(4);
    for n in [1, 7, 15, 16, 47, 48, 49, 60] {
        let graph = random_graph(&mut random, n);
        let bytes = sheet::store(&graph);
        for shown in [Shown::Arrow(0), Shown::Labels] {
            let mut page = pages::page(&graph, shown);
            for letter in *b"ALa" {
                for number in 0..100u8 {
                    page[..3].copy_from_slice(&[letter, b'0' + number / 10, b'0' + number % 10]);
                    type_page(tally, &bytes, &page);
                }
            }
        }
    }
}

/// Lines exchanged, repeated and taken out, and pages cut short or drawn out.
fn lines(tally: &mut Tally) {
    let mut random = Random::new(5);
    for n in [1, 2, 9, 47, 48, 49, 60] {
        let graph = random_graph(&mut random, n);
        let bytes = sheet::store(&graph);
        for shown in [Shown::Arrow(3), Shown::Labels] {
            let page = pages::page(&graph, shown);
            let count = page.len() / LINE;
            for _ in 0..200 {
                let (i, j) = (random.below(count), random.below(count));
                let mut exchanged = page.clone();
                (0..LINE).for_each(|at| exchanged.swap(LINE * i + at, LINE * j + at));
                type_page(tally, &bytes, &exchanged);
                let mut without = page.clone();
                without.drain(LINE * i..LINE * (i + 1));
                type_page(tally, &bytes, &without);
                let mut twice = page.clone();
                twice.copy_within(LINE * i..LINE * (i + 1), LINE * j);
                type_page(tally, &bytes, &twice);
            }
            for cut in (0..=2 * LINE).chain([page.len() - LINE, page.len() - 1, page.len()]) {
                type_page(tally, &bytes, &page[..cut.min(page.len())]);
            }
            for more in [1, LINE - 1, LINE, 2 * LINE, MOST] {
                type_page(tally, &bytes, &[page.clone(), vec![b' '; more]].concat());
                type_page(tally, &bytes, &page.iter().copied().cycle().take(page.len() + more).collect::<Vec<_>>());
            }
        }
    }
}

/// Random pages with some faults, on sound and damaged sheets, of the same n and of others; printing from those sheets.
fn random_pages(tally: &mut Tally, rounds: usize) {
    let mut random = Random::new(6);
    for _ in 0..rounds {
        let n = graphs::node_count(&mut random);
        let shown = some_block(&mut random);
        let graph = random_graph(&mut random, n);
        let mut page = pages::page(&graph, shown);
        for _ in 0..random.below(4) {
            let at = random.below(page.len());
            page[at] = random.pick(b"#. \n01AL\x00\xFF");
        }
        let own = if random.one_in(8) { graphs::node_count(&mut random) } else { n };
        let mut sheet_graph = random_graph(&mut random, own);
        if own == n && !random.one_in(3) {
            sheet_graph = graphs::with_use(sheet_graph, graph.in_use.clone());
        }
        let mut bytes = sheet::store(&sheet_graph);
        if random.one_in(3) {
            bytes = damage::damaged(&mut random, bytes);
        }
        type_page(tally, &bytes, &page);
        let room = random.pick(&[0, LINE * 2, LINE * 49, LINE * 50, MOST]);
        print(tally, &bytes, shown, room);
        let length = random.below(2 * LINE);
        type_page(tally, &bytes, &random.bytes(length));
    }
}

fn main() {
    let mut tally = Tally::new();
    prints(&mut tally);
    pages_back(&mut tally);
    closed_nodes(&mut tally);
    changed_bytes(&mut tally);
    heads(&mut tally);
    lines(&mut tally);
    random_pages(&mut tally, 20_000);
    tally.both_frequent("type", 0, 51);
    tally.finish(&[0, 1, 2, 3, 4, 7, 33, 51]);
}
