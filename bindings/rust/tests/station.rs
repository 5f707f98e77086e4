//! The example station through the crate: every call, refusals, eight threads.

use std::fs;
use std::thread;
use zamiathen::*;

/// A file of the example station.
fn file(name: &str) -> Vec<u8> {
    let path = format!("{}/../../examples/station/{name}", env!("CARGO_MANIFEST_DIR"));
    fs::read(&path).unwrap_or_else(|error| panic!("{path}: {error}"))
}

/// What a call writes into an output of this length.
fn written(room: usize, call: impl FnOnce(&mut [u8]) -> Asked<usize>) -> Asked<Vec<u8>> {
    let mut output = vec![0; room];
    let length = call(&mut output)?;
    output.truncate(length);
    Ok(output)
}

/// Number and place of a refusal, 0 and 0 if there is none.
fn answered<T>(asked: Asked<T>) -> (usize, usize) {
    asked.map_or_else(|refused| (refused.number as usize, refused.place), |_| (0, 0))
}

fn entered(sheet: &[u8], book: &[u8], edit: &[u8]) -> Result<Vec<u8>, (Refused, Asked<Witness>)> {
    let (mut sheet, mut scratch) = (sheet.to_vec(), [0; CARRIED_BYTES]);
    match enter(&mut sheet, book, edit, &mut scratch) {
        Ok(()) => Ok(sheet),
        Err(refused) => Err((refused, witness(&sheet, &scratch))),
    }
}

#[test]
fn version_is_the_headers() {
    assert!(version_fits(), "the library has version {}", version());
}

#[test]
fn edits_are_entered_and_refused() {
    let (sheet, book) = (file("sheet.bin"), file("book.bin"));
    assert_eq!(entered(&sheet, &book, &file("move.bin")), Ok(file("sheet_after.bin")));
    let (refused, who) = entered(&sheet, &book, &file("crowd.bin")).unwrap_err();
    assert_eq!(refused.to_string(), "41 00002: A rule is broken.");
    assert_eq!(who, Ok(Witness::Node { first: 12, nodes: 1 << 12 }));
    let clash = judge(&file("clash.bin"), &book).unwrap_err();
    assert_eq!((clash.number, clash.place), (Number::RuleBroken, 2));
    assert_eq!(clash.rule, rule_start(&book, 60, 2)..rule_start(&book, 60, 3));
    assert_eq!(first_rule(&book[clash.rule.clone()]), Ok(clash.rule.len()));
    assert!(judge(&sheet, &book).is_ok());
    assert_eq!(written(CARRIED_BYTES, |output| carry_back(&book, &file("move.bin"), output)), Ok(file("carried.bin")));
    assert_eq!(written(TEXT_BYTES, |output| rewrite(&book, output)), Ok(book));
}

#[test]
fn faults_have_number_and_place() {
    let (sheet, book, edit) = (file("sheet.bin"), file("book.bin"), file("move.bin"));
    let mut damaged = sheet.clone();
    damaged[512 * 3 + 7] ^= 1;
    assert_eq!(answered(check(&damaged)), (2, 3));
    assert_eq!(answered(check(&[])), (1, 0));
    assert_eq!(answered(blank(&mut damaged, 61)), (5, 0));
    assert_eq!(answered(label_bit(&sheet, 48, 0)), (7, 0));
    assert_eq!(answered(entered(&sheet, &book[..9], &edit).map_err(|(refused, _)| refused)), (12, 9));
    assert_eq!(answered(entered(&sheet, &book, &book).map_err(|(refused, _)| refused)), (23, 0));
    assert_eq!(answered(apply(&mut sheet.clone(), &[])), (22, 0));
    assert_eq!(answered(enter(&mut sheet.clone(), &book, &edit, &mut [])).0, 33);
    assert_eq!(answered(join_sheets(&mut sheet.clone(), &sheet)), (58, 120));
    assert_eq!(answered(type_page(&mut sheet.clone(), b"")), (51, 0));
    assert_eq!(answered(close(&mut sheet.clone(), &book, 3)), (54, 3));
    assert_eq!(answered(check_steps(&book, &[], &[])).0, 16);
    assert_eq!(answered(count(4, &[], &[0x30])), (61, 0));
    assert_eq!(Number::of(6), Number::Unknown);
    assert_eq!(Number::Unknown.text(), "This version has no such number.");
}

#[test]
fn sheets_are_read_and_printed() {
    let sheet = file("sheet.bin");
    assert_eq!(nodes(&sheet), Ok(NodeSet { count: 60, set: (1 << 59) - 1 }));
    assert_eq!(label_set(&sheet, 8), Ok(NodeSet { count: 4, set: 0b1111 << 54 }));
    assert_eq!(label_bit(&sheet, 8, 54), Ok(true));
    assert_eq!(arrow_bit(&sheet, 0, 34, 10), Ok(true));
    assert_eq!(row_set(&sheet, 0, 34), Ok(NodeSet { count: 1, set: 1 << 10 }));
    let page = written(PAGE_BYTES, |output| print_arrow(&sheet, 0, output)).unwrap();
    assert_eq!(page.len(), LINE_BYTES * 61);
    let labels = written(PAGE_BYTES, |output| print_labels(&sheet, output)).unwrap();
    let mut typed = sheet.clone();
    assert_eq!(answered(type_page(&mut typed, &page)), (0, 0));
    assert_eq!(answered(type_page(&mut typed, &labels)), (0, 0));
    assert_eq!(typed, sheet);
}

#[test]
fn cards_nodes_and_sheets() {
    let (sheet, book) = (file("sheet.bin"), file("book.bin"));
    for (card, convert) in [("card_255.bin", convert_255 as fn(&mut [u8]) -> _), ("card_257.bin", convert_257)] {
        let mut card = file(card);
        assert_eq!(answered(convert(&mut card)), (0, 0));
        assert_eq!(answered(close(&mut card, &book, 59)), (0, 0));
        assert_eq!(card, sheet);
        assert_eq!(answered(open(&mut card, &book, 59)), (0, 0));
        assert_ne!(card, sheet);
    }
    let mut first = [0; SHEET_BYTES];
    assert_eq!(answered(blank(&mut first, 2)), (0, 0));
    let second = first;
    assert_eq!(answered(join_sheets(&mut first, &second)), (0, 0));
    assert_eq!(nodes(&first), Ok(NodeSet { count: 4, set: 0b1111 }));
}

#[test]
fn plans_are_kept() {
    let (sheet, after, book) = (file("sheet.bin"), file("sheet_after.bin"), file("book.bin"));
    let (mut store, mut present) = (vec![1; STORE_BYTES], after.clone());
    assert_eq!(answered(keep(&sheet, &mut store, 1)), (55, 0));
    assert_eq!(answered(store_blank(&mut store)), (0, 0));
    assert_eq!(answered(keep(&sheet, &mut store, 8)), (56, 0));
    assert_eq!(answered(return_to(&mut present, &store, 7, &book)), (57, 0));
    assert_eq!(answered(keep(&sheet, &mut store, 7)), (0, 0));
    assert_eq!(answered(return_to(&mut present, &store, 7, &book)), (0, 0));
    assert_eq!(present, sheet);
    assert_eq!(answered(zamiathen::drop(&mut store, 7)), (0, 0));
    assert_eq!(answered(zamiathen::drop(&mut store, 7)), (57, 0));
}

#[test]
fn edits_are_joined_and_logged() {
    let (there, back) = (file("move.bin"), file("move_back.bin"));
    let joined = written(TEXT_BYTES, |output| join_edits(&there, &back, output)).unwrap();
    let mut sheet = file("sheet.bin");
    assert_eq!(answered(apply(&mut sheet, &joined)), (0, 0));
    assert_eq!(sheet, file("sheet.bin"));
    let block = written(LOG_BYTES, |output| log_edit(&there, output)).unwrap();
    assert_eq!(block, file("week.bin")[..512]);
}

#[test]
fn words_go_there_and_back() {
    let (names, words, book) = (file("station.names"), file("book.words"), file("book.bin"));
    assert_eq!(answered(check_names(&names)), (0, 0));
    assert_eq!(answered(check_names(b"label 48 x")), (63, 6));
    assert_eq!(written(TEXT_BYTES, |output| book_from_words(&names, &words, output)), Ok(book.clone()));
    let printed = written(BOOK_WORDS_BYTES, |output| book_to_words(&names, &book, output)).unwrap();
    assert_eq!(written(TEXT_BYTES, |output| book_from_words(&names, &printed, output)), Ok(book.clone()));
    let rule = written(RULE_WORDS_BYTES, |output| rule_to_words(&names, &book, output)).unwrap();
    assert!(printed.starts_with(&rule));
    assert_eq!(rule_in_words(&names, &printed, 1), rule.len());
    let edit = file("move.bin");
    let steps = written(EDIT_WORDS_BYTES, |output| edit_to_words(&names, &edit, output)).unwrap();
    assert_eq!(written(TEXT_BYTES, |output| edit_from_words(&names, &steps, output)), Ok(edit));
    assert_eq!(answered(written(TEXT_BYTES, |output| edit_from_words(&names, b"mark(train", output))), (64, 10));
    assert_eq!(answered(written(TEXT_BYTES, |output| edit_from_words(&names, b" marks", output))), (65, 1));
}

#[test]
fn small_sheets_are_counted() {
    let small = |name: &str| file(&format!("../small/{name}"));
    let counts = count(3, &small("book.bin"), &small("edit.bin"));
    assert_eq!(counts, Ok(Counts { kept_kept: 38, kept_broken: 33, broken_kept: 602, broken_broken: 3423 }));
}

#[test]
fn steps_are_checked() {
    assert_eq!(answered(check_steps(&[0x27, 0x27, 0x21, 1, 1], &[0, 0, 7], &[0x21, 1, 1])), (0, 0));
    assert_eq!(answered(check_steps(&[0x27, 0x27, 0x21, 1, 1], &[0, 0, 7], &[0x21, 1, 2])), (60, 2));
}

#[test]
fn games_are_played() {
    let mut sheet = [0; SHEET_BYTES];
    blank(&mut sheet, 1).unwrap();
    let goal = [0x21, 0x01, 0x03, 0x00]; // each node has label 0
    let edits = [0x30, 0x31, 0x00, 0x01, 0x30]; // the dispatcher: nothing, or label 0 onto all
    assert_eq!(play(&sheet, &[], &goal, &edits, &[1, 4], 2, 1), Ok(Outcome::Edit(1)));
    assert_eq!(play(&sheet, &[], &goal, &edits[..1], &[1], 1, 1), Ok(Outcome::Cannot));
    let refused = play(&sheet, &[], &goal, &[0x30, 0x29], &[1, 1], 1, 2).unwrap_err();
    assert_eq!((refused.number, refused.place, refused.edit), (Number::EditCode, 0, 1));
    assert_eq!(answered(play(&sheet, &[], &goal, &edits, &[1, 5], 2, 1)), (62, 0));
}

#[test]
fn eight_threads_answer_as_one() {
    let (sheet, book, after) = (file("sheet.bin"), file("book.bin"), file("sheet_after.bin"));
    let (there, crowd) = (file("move.bin"), file("crowd.bin"));
    thread::scope(|scope| {
        for _ in 0..8 {
            let small = thread::Builder::new().stack_size(THREAD_BYTES);
            let calls = || {
                for _ in 0..200 {
                    assert_eq!(entered(&sheet, &book, &there).as_ref(), Ok(&after));
                    let (refused, who) = entered(&sheet, &book, &crowd).unwrap_err();
                    assert_eq!((refused.number, refused.place), (Number::RuleBroken, 2));
                    assert_eq!(who, Ok(Witness::Node { first: 12, nodes: 1 << 12 }));
                }
            };
            small.spawn_scoped(scope, calls).unwrap();
        }
    });
}
