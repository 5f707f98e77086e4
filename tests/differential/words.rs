//! Books, edits and rules in words, both ways, and tables of names: the library compared with the reference, and with
//! answers known without it.

use common::compare::{Lent, Outcome, Tally};
use common::library::{zamiathen_check_names, zamiathen_rule_in_words};
use common::names::{self, Token};
use common::random::Random;
use common::terms::{self, Names};
use common::words::{Call, BOOK_FROM_WORDS, BOOK_TO_WORDS, EDIT_FROM_WORDS, EDIT_TO_WORDS, RULE_TO_WORDS};
use common::{limits, texts};
use reference::syntax::Coded;
use reference::words;

/// Suffices for the codes of every book and edit.
const ROOM: usize = 4100;

fn check_names(tally: &mut Tally, table: &[u8]) {
    let lent = Lent::of(table);
    let found = unsafe { zamiathen_check_names(lent.ptr(), lent.len()) };
    let found = Outcome::new(&[found.number, found.place], vec![lent]);
    let wanted = Outcome::of_answer(words::check_names(table), vec![Lent::of(table)]);
    tally.compare("check names", &found, &wanted, &[("names", table)]);
}

/// Where each rule stands, from 0 on, and some that no book has.
fn rules_in_words(tally: &mut Tally, table: &[u8], text: &[u8], asked: &[usize]) {
    let (lent, lent_text) = (Lent::of(table), Lent::of(text));
    let place = |rule: &usize| unsafe {
        zamiathen_rule_in_words(lent.ptr(), lent.len(), lent_text.ptr(), lent_text.len(), *rule)
    };
    let found: Vec<usize> = asked.iter().map(place).collect();
    let found = Outcome::new(&found, vec![lent, lent_text]);
    let wanted: Vec<usize> = asked.iter().map(|rule| words::rule_in_words(table, text, *rule)).collect();
    let wanted = Outcome::new(&wanted, vec![Lent::of(table), Lent::of(text)]);
    tally.compare_numbers("rules in words", &found, &wanted, &[("names", table), ("words", text)]);
}

/// A call with outputs too short by one, just long enough, longer, and empty. Gives back what is written.
fn rooms(tally: &mut Tally, call: Call, table: &[u8], text: &[u8], room: usize) -> Vec<u8> {
    let (written, [number, place]) = call.wanted(table, text, room);
    let needed = if number == 33 { place } else { written.len() };
    for room in [0, needed.saturating_sub(1), needed, needed + 1] {
        call.compare(tally, table, text, room);
    }
    call.compare(tally, table, text, room);
    call.wanted(table, text, needed).0
}

/// Words read as a book and as an edit.
fn read(tally: &mut Tally, table: &[u8], text: &[u8]) {
    BOOK_FROM_WORDS.compare(tally, table, text, ROOM);
    EDIT_FROM_WORDS.compare(tally, table, text, ROOM);
}

/// Codes printed in every way, into outputs just long enough and one byte short, and the words read back: known without
/// the reference.
fn there_and_back(tally: &mut Tally, table: &[u8], codes: &[u8]) -> Vec<u8> {
    let mut printed = vec![];
    for (to, from) in [(BOOK_TO_WORDS, BOOK_FROM_WORDS), (EDIT_TO_WORDS, EDIT_FROM_WORDS)] {
        if let Some(words) = written(tally, to, table, codes) {
            from.answers(tally, table, &words, codes.len(), [0, 0], codes);
            printed = words;
        }
    }
    written(tally, RULE_TO_WORDS, table, codes);
    printed
}

/// What a call writes, unless it refuses.
fn written(tally: &mut Tally, call: Call, table: &[u8], codes: &[u8]) -> Option<Vec<u8>> {
    let (words, answer) = call.with_room(table, codes);
    call.answers(tally, table, codes, words.len(), answer, &words);
    if answer != [0, 0] {
        return None;
    }
    if !words.is_empty() {
        call.answers(tally, table, codes, words.len() - 1, [33, words.len()], &[]);
    }
    Some(words)
}

/// Every rule number that is tried on every text: those that a book can have, and others.
fn every_rule() -> Vec<usize> {
    (0..=34).chain([255, 256, 1 << 32, usize::MAX]).collect()
}

/// Tables of up to three tokens from a few, each cut at every byte.
fn short_tables(tally: &mut Tally) {
    let tokens = [
        "label", "arrow", "node", "0", "15", "16", "47", "48", "59", "60", "07", "train", "all", "end", "label:3", "(",
        "#", "label:",
    ];
    for first in tokens {
        for second in tokens {
            for third in tokens {
                check_names(tally, format!("{first} {second} {third}").as_bytes());
                check_names(tally, format!("node 7 train\n{first}\t{second}\r{third} label 0 T").as_bytes());
            }
        }
    }
    let table = b"label 0 train # a comment\nnode 34 T34 arrow 15 08:15";
    (0..=table.len()).for_each(|end| check_names(tally, &table[..end]));
    for byte in 0..=255 {
        check_names(tally, &[b"label 0 a", &[byte][..], b"b"].concat());
        check_names(tally, &[b"label 0 ", &[byte][..]].concat());
        check_names(tally, &[&[byte][..], b"label 0 a"].concat());
    }
    for length in [1, 2, 63, 64, 65, 66, 1000] {
        check_names(tally, &[b"node 59 ".to_vec(), vec![b'n'; length]].concat());
    }
    for word in names::WORDS {
        check_names(tally, format!("label 0 {word}").as_bytes());
        check_names(tally, format!("label 0 {word}s label 1 {}", &word[1..]).as_bytes());
    }
}

const TABLE: &[u8] = b"label 0 train\nlabel 1 3\narrow 0 stands-at\nnode 34 T34\nnode 3 08:15\n";

/// A word that is printed for each code, known without the reference.
fn known_rules(tally: &mut Tally) {
    let rules: [(&[u8], &str); 8] = [
        (&[0x21, 0x01, 0x02], "each(all, none)"),
        (&[0x21, 0x03, 0x01, 0x04, 0x03], "each(3, 08:15)"),
        (&[0x22, 0x12, 0x11, 0x00, 0x17, 0x22, 0x00], "each-arrow(reversed(stands-at), pair(T34, node:0))"),
        (
            &[0x23, 0x22, 0x08, 0x11, 0x00, 0x09, 0x11, 0x01, 0x05, 0x03, 0x00],
            "is(T34, some(stands-at, every(arrow:1, not(train))))",
        ),
        (
            &[0x24, 0x22, 0x03, 0x13, 0x11, 0x00, 0x14, 0x11, 0x00, 0x11, 0x0F],
            "joined(T34, 08:15, or(stands-at, and(stands-at, arrow:15)))",
        ),
        (
            &[0x25, 0x27, 0x21, 0x01, 0x01, 0x26, 0x21, 0x01, 0x01, 0x21, 0x02, 0x02],
            "and(not(each(all, all)), or(each(all, all), each(none, none)))",
        ),
        (
            &[0x21, 0x0A, 0x03, 0x11, 0x00, 0x01, 0x0B, 0x00, 0x11, 0x00, 0x01],
            "each(at-least(3, stands-at, all), at-most(0, stands-at, all))",
        ),
        (
            &[0x22, 0x15, 0x11, 0x00, 0x16, 0x11, 0x00, 0x06, 0x03, 0x00, 0x07, 0x01, 0x02, 0x11, 0x00],
            "each-arrow(without(stands-at, to(stands-at, and(train, or(all, none)))), stands-at)",
        ),
    ];
    for (codes, words) in rules {
        let words = format!("{words}\n");
        BOOK_TO_WORDS.answers(tally, TABLE, codes, ROOM, [0, 0], words.as_bytes());
        RULE_TO_WORDS.answers(tally, TABLE, codes, words.len(), [0, 0], words.as_bytes());
        BOOK_FROM_WORDS.answers(tally, TABLE, words.as_bytes(), codes.len(), [0, 0], codes);
    }
}

fn known_edits(tally: &mut Tally) {
    let edit = [
        0x35, 0x21, 0x01, 0x02, 0x31, 0x00, 0x01, 0x35, 0x21, 0x01, 0x01, 0x30, 0x30, 0x30, 0x33, 0x00, 0x11, 0x00,
        0x30, 0x32, 0x01, 0x02, 0x34, 0x02, 0x11, 0x02, 0x30,
    ];
    let words = b"if(each(all, none))\n  mark(train, all)\n  if(each(all, all))\n  else\n  end\nelse\n  add(stands-at, stands-at)\nend\n\
                  unmark(3, none)\ntake(arrow:2, arrow:2)\n";
    EDIT_TO_WORDS.answers(tally, TABLE, &edit, ROOM, [0, 0], words);
    EDIT_FROM_WORDS.answers(tally, TABLE, words, edit.len(), [0, 0], &edit);
    BOOK_TO_WORDS.answers(tally, TABLE, &[], 0, [0, 0], &[]);
    EDIT_TO_WORDS.answers(tally, TABLE, &[0x30], 0, [0, 0], &[]);
}

/// Each place of a number, with a number or a name to be put there.
const NUMBERED: [&str; 13] = [
    "is(node:0, at-least({}, arrow:0, all))",
    "is(node:0, at-most({}, arrow:0, all))",
    "is({}, all)",
    "joined({}, node:0, arrow:0)",
    "joined(node:0, {}, arrow:0)",
    "joined(node:0, node:0, pair({}, node:0))",
    "joined(node:0, node:0, pair(node:0, {}))",
    "each({}, all)",
    "each-arrow({}, arrow:0)",
    "mark({}, all)",
    "unmark({}, all)",
    "add({}, arrow:0)",
    "take({}, arrow:0)",
];

/// Every number at every place, as a count and as a name without a table and with one; and every number byte.
fn every_number(tally: &mut Tally) {
    let mut written: Vec<String> = (0..=260).map(|number| number.to_string()).collect();
    for sort in ["label", "arrow", "node"] {
        written.extend((0..=61).map(|number| format!("{sort}:{number}")));
        written.extend(["", "00", "03", "+3", "-1", "256", "3x"].map(|odd| format!("{sort}:{odd}")));
    }
    written.extend(["00", "01", "060", "+1", "1.", "\u{661}", "train", "all"].map(String::from));
    for table in ["", "label 3 3 arrow 3 7 node 3 60 node 7 label node 9 train label 47 1. label 1 0"] {
        for place in NUMBERED {
            for number in &written {
                read(tally, table.as_bytes(), place.replace("{}", number).as_bytes());
            }
        }
        for number in 0..=255 {
            limits::numbers(number).iter().for_each(|codes| drop(there_and_back(tally, table.as_bytes(), codes)));
        }
    }
}

/// The words of each expression at its limits: levels, rules and lengths, read as a book, and as an edit's operand.
fn limit_words(tally: &mut Tally) {
    let asked = every_rule();
    for codes in [limits::lengths(), limits::levels(), limits::rule_counts()].concat() {
        let words = RULE_TO_WORDS.with_room(b"", &codes).0;
        there_and_back(tally, b"", &codes);
        read(tally, b"", &words);
        rules_in_words(tally, b"", &words, &[0, 1]);
        if let Some(operand) = words.strip_prefix(b"is(node:0, ") {
            read(tally, b"", &[b"mark(label:47, ", operand].concat());
        }
        if let Some(operand) = words.strip_prefix(b"joined(node:0, node:0, ") {
            read(tally, b"", &[b"take(arrow:15, ", operand].concat());
        }
        let condition = [b"if(", words.trim_ascii_end(), b") else end"].concat();
        read(tally, b"", &condition);
    }
    for levels in 253..=257 {
        written(tally, RULE_TO_WORDS, b"", &[vec![0x27; levels - 2], vec![0x21, 0x01, 0x02]].concat());
        written(tally, RULE_TO_WORDS, b"", &[vec![0x23, 0x00], vec![0x05; levels - 2], vec![0x01]].concat());
    }
    for length in [16_380, 16_384, 16_385, 20_000] {
        written(tally, RULE_TO_WORDS, b"", &limits::long_book(length));
    }
    for rules in 30..=34 {
        for more in ["", "each", "none", "each(all,", ")"] {
            let text = "each(all,all)".repeat(rules) + more;
            read(tally, b"", text.as_bytes());
            rules_in_words(tally, b"", text.as_bytes(), &asked);
        }
    }
}

/// Branches in branches, around the last level, and each with something that begins nothing there.
fn deep_words(tally: &mut Tally) {
    for levels in 28..=34 {
        for operand in ["all", "train", "not(all)", "to", "is(node:0,all)", ""] {
            let opened = "if(is(node:0, all)) ".repeat(levels);
            let closed = "else end ".repeat(levels);
            read(tally, b"", format!("{opened}mark(label:0, {operand}) {closed}").as_bytes());
            read(tally, b"", format!("{opened}{operand}").as_bytes());
            let nots = "not(".repeat(levels);
            read(tally, b"", format!("mark(label:0, {nots}{operand}{})", ")".repeat(levels)).as_bytes());
            read(tally, b"", format!("is(node:0, {nots}{operand}{})", ")".repeat(levels)).as_bytes());
            read(tally, b"", format!("if({nots}{operand}{}) else end", ")".repeat(levels)).as_bytes());
            let reversed = "reversed(".repeat(levels);
            read(tally, b"", format!("add(arrow:0, {reversed}{operand}{})", ")".repeat(levels)).as_bytes());
        }
    }
    for levels in 0..4 {
        let branches = "if(each(all,all)) else ".repeat(levels);
        for rest in
            ["end", "end end", "else", "end else", "end end end", "end end end end", "mark", "each(all,all)", "("]
        {
            read(tally, b"", format!("{branches}{rest}").as_bytes());
        }
    }
}

/// Codes of 4,093 to 4,099 bytes and of many more, in words: 70 comes after 64 to 69, and before 33.
fn long_words(tally: &mut Tally) {
    for more in ["", "not(all)", "not(not(all))", "and(all,all)"] {
        for count in [1363, 1364, 1365, 1366, 6000] {
            let mut text = "mark(label:0,all)".repeat(count);
            if !more.is_empty() {
                text += &format!("unmark(label:1,{more})");
            }
            for fault in ["", " end", " mark", " mark(all"] {
                rooms(tally, EDIT_FROM_WORDS, b"", (text.clone() + fault).as_bytes(), ROOM);
            }
        }
    }
    for length in [4090, 4095, 4096, 4097, 4098, 5000, 16384] {
        let words = RULE_TO_WORDS.with_room(b"", &limits::long_book(length)).0;
        for fault in [&b""[..], b"each", b"all", b"each(all,all)"] {
            let text = [&words, fault].concat();
            rooms(tally, BOOK_FROM_WORDS, b"", &text, ROOM);
            rules_in_words(tally, b"", &text, &[0, 1, 2]);
        }
    }
}

/// Outputs of every length up to two more than is needed.
fn every_room(tally: &mut Tally) {
    let table = b"label 3 train arrow 0 stands-at";
    let book = [0x21, 0x08, 0x11, 0x00, 0x01, 0x03, 0x03, 0x21, 0x01, 0x01];
    let edit = [0x35, 0x21, 0x01, 0x01, 0x31, 0x03, 0x01, 0x30, 0x30, 0x30];
    for (to, from, codes) in [
        (BOOK_TO_WORDS, BOOK_FROM_WORDS, book),
        (EDIT_TO_WORDS, EDIT_FROM_WORDS, edit),
        (RULE_TO_WORDS, BOOK_FROM_WORDS, book),
    ] {
        let words = to.wanted(table, &codes, ROOM).0;
        (0..words.len() + 3).for_each(|room| drop(to.compare(tally, table, &codes, room)));
        (0..codes.len() + 3).for_each(|room| drop(from.compare(tally, table, &words, room)));
    }
}

/// Random codes: mostly a sound book or edit, often with few names.
fn some_codes(random: &mut Random) -> Vec<u8> {
    let names = Names::some(random, 60);
    match random.below(8) {
        0..=2 => terms::book_code(&terms::book(random, names, 4)),
        3..=5 => {
            let (steps, levels) = (random.below(6), terms::some_levels(random));
            terms::edit(random, names, steps, levels).code()
        }
        _ => texts::any(random, 60),
    }
}

/// Tables and codes, printed; the words laid out anew and read; then damaged, with this table and with another.
fn random_words(tally: &mut Tally, rounds: usize) {
    let mut random = Random::new(81);
    let mut tokens: Vec<Token> = vec![];
    for round in 0..rounds {
        if round % 4 == 0 {
            tokens = names::table(&mut random);
        }
        let table = names::laid(&mut random, &tokens);
        check_names(tally, &table);
        let codes = some_codes(&mut random);
        let printed = there_and_back(tally, &table, &codes);
        let spelled = names::tokens(&printed);
        let sound = names::laid(&mut random, &spelled);
        read(tally, &table, &sound);
        rules_in_words(tally, &table, &sound, &[0, 1, 2, 3, 4, 5]);
        for _ in 0..4 {
            let text = damaged_words(&mut random, &spelled, &tokens);
            read(tally, &table, &text);
            rules_in_words(tally, &table, &text, &[0, 1, 2, 4]);
        }
        let other = damaged_table(&mut random, &tokens);
        check_names(tally, &other);
        read(tally, &other, &sound);
        there_and_back(tally, &other, &codes);
        rules_in_words(tally, &other, &sound, &[0, 1]);
    }
}

/// Tokens damaged, a name of the table in place of one of them, a byte damaged, or a part of all this.
fn damaged_words(random: &mut Random, spelled: &[Token], table: &[Token]) -> Vec<u8> {
    let mut tokens = spelled.to_vec();
    if !tokens.is_empty() && !table.is_empty() && random.one_in(3) {
        let at = random.below(tokens.len());
        tokens[at] = table[3 * random.below(table.len() / 3) + 2].clone();
    }
    if !random.one_in(3) {
        tokens = names::damaged(random, tokens);
    }
    let text = names::laid(random, &tokens);
    if random.one_in(3) {
        return names::byte_damaged(random, text);
    }
    text
}

fn damaged_table(random: &mut Random, tokens: &[Token]) -> Vec<u8> {
    let tokens = if random.one_in(4) { tokens.to_vec() } else { names::damaged(random, tokens.to_vec()) };
    let text = names::laid(random, &tokens);
    if random.one_in(3) {
        return names::byte_damaged(random, text);
    }
    text
}

/// Any tokens, and any bytes.
fn random_tokens(tally: &mut Tally, rounds: usize) {
    let mut random = Random::new(82);
    for _ in 0..rounds {
        let count = random.below(12);
        let tokens: Vec<Token> = (0..count).map(|_| names::hostile(&mut random)).collect();
        let text = names::laid(&mut random, &tokens);
        let length = random.below(20);
        for text in [text, random.bytes(length)] {
            check_names(tally, &text);
            read(tally, b"", &text);
            read(tally, &text, &text);
            rules_in_words(tally, b"", &text, &[0, 1, 2, 32]);
        }
    }
}

fn load(path: &str) -> Vec<u8> {
    std::fs::read(path).unwrap_or_else(|error| panic!("{path}: {error}"))
}

/// The station's book and edits in words are read to the bytes in the files next to them, by both sides; the opening has no such file.
fn station(tally: &mut Tally) {
    let station = "examples/station";
    let table = load(&format!("{station}/station.names"));
    let mut read = 0;
    for folder in [station.to_string(), format!("{station}/carrying")] {
        for entry in std::fs::read_dir(&folder).unwrap_or_else(|error| panic!("{folder}: {error}")) {
            let path = entry.expect("an entry").path().to_string_lossy().into_owned();
            let Some(stem) = path.strip_suffix(".words").filter(|stem| !stem.ends_with("/opening")) else { continue };
            let (codes, words) = (load(&format!("{stem}.bin")), load(&path));
            let call = if codes[0] < 0x30 { BOOK_FROM_WORDS } else { EDIT_FROM_WORDS };
            assert_eq!(call.wanted(&table, &words, ROOM), (codes.clone(), [0, 0]), "{stem}.words by the reference");
            call.answers(tally, &table, &words, ROOM, [0, 0], &codes);
            there_and_back(tally, &table, &codes);
            read += 1;
        }
    }
    assert_eq!(read, 24, "texts of the station");
    station_rules(tally, &table);
}

/// In the station's book each rule begins at the start of a line, and no other line begins with a letter.
fn station_rules(tally: &mut Tally, table: &[u8]) {
    let words = load("examples/station/book.words");
    let starts = (0..words.len()).filter(|at| words[*at].is_ascii_lowercase() && (*at == 0 || words[at - 1] == b'\n'));
    let starts: Vec<usize> = starts.collect();
    assert_eq!(starts.len(), 10, "rules of the station");
    rules_in_words(tally, table, &words, &every_rule());
    for (rule, start) in starts.iter().enumerate() {
        assert_eq!(words::rule_in_words(table, &words, rule), *start, "where rule {rule} begins");
    }
}

fn main() {
    let mut tally = Tally::new();
    station(&mut tally);
    known_rules(&mut tally);
    known_edits(&mut tally);
    short_tables(&mut tally);
    every_number(&mut tally);
    every_room(&mut tally);
    limit_words(&mut tally);
    deep_words(&mut tally);
    long_words(&mut tally);
    random_words(&mut tally, 5_000);
    random_tokens(&mut tally, 8_000);
    let faults = [63, 64, 65, 66, 67, 68, 69, 70, 33];
    tally.all_reached("check names", &[0, 63]);
    tally.all_reached("book to words", &[0, 63, 11, 12, 13, 14, 15, 16, 33]);
    tally.all_reached("edit to words", &[0, 63, 21, 22, 23, 24, 25, 26, 33]);
    tally.all_reached("rule to words", &[0, 63, 12, 13, 14, 15, 33]);
    tally.all_reached("book from words", &faults);
    tally.all_reached("edit from words", &faults.map(|number| if number == 69 { 0 } else { number }));
    tally.finish(&[0]);
}
