//! The functions of the header, and for each a safe one that takes slices. The only module with unsafe code.
//!
//! Why the calls are safe: the library reads and writes only within its buffers, answers any bytes and any number, and
//! keeps no state. The buffers that a call writes share no byte with others, since they are borrowed mutably. The
//! pointer of an empty slice is not read. `tests/bindings` compares the declarations with the header.

use std::mem::size_of;

#[repr(C)]
pub struct Answer {
    pub number: usize,
    pub place: usize,
}

const _: () = assert!(size_of::<Answer>() == 16);

#[repr(C)]
pub struct Bit {
    pub number: usize,
    pub place: usize,
    pub bit: usize,
}

const _: () = assert!(size_of::<Bit>() == 24);

#[repr(C)]
pub struct NodeSet {
    pub number: usize,
    pub place: usize,
    pub count: usize,
    pub set: u64,
}

const _: () = assert!(size_of::<NodeSet>() == 32);

#[repr(C)]
pub struct Length {
    pub number: usize,
    pub place: usize,
    pub length: usize,
}

const _: () = assert!(size_of::<Length>() == 24);

#[repr(C)]
pub struct Judged {
    pub number: usize,
    pub place: usize,
    pub start: usize,
    pub length: usize,
}

const _: () = assert!(size_of::<Judged>() == 32);

#[repr(C)]
pub struct Witnessed {
    pub number: usize,
    pub place: usize,
    pub kind: usize,
    pub first: usize,
    pub second: usize,
    pub nodes: u64,
}

const _: () = assert!(size_of::<Witnessed>() == 48);

#[repr(C)]
pub struct Counts {
    pub number: usize,
    pub place: usize,
    pub kept_kept: usize,
    pub kept_broken: usize,
    pub broken_kept: usize,
    pub broken_broken: usize,
}

const _: () = assert!(size_of::<Counts>() == 48);

#[repr(C)]
pub struct Played {
    pub number: usize,
    pub place: usize,
    pub outcome: usize,
    pub edit: usize,
}

const _: () = assert!(size_of::<Played>() == 32);

extern "C" {
    fn zamiathen_version() -> usize;
    fn zamiathen_blank(sheet: *mut u8, sheet_length: usize, n: usize) -> Answer;
    fn zamiathen_check(sheet: *const u8, sheet_length: usize) -> Answer;
    fn zamiathen_convert_255(card: *mut u8, card_length: usize) -> Answer;
    fn zamiathen_convert_257(card: *mut u8, card_length: usize) -> Answer;
    fn zamiathen_join_sheets(first: *mut u8, first_length: usize, second: *const u8, second_length: usize) -> Answer;
    fn zamiathen_label_bit(sheet: *const u8, sheet_length: usize, label: usize, node: usize) -> Bit;
    fn zamiathen_arrow_bit(sheet: *const u8, sheet_length: usize, arrow: usize, from: usize, to: usize) -> Bit;
    fn zamiathen_nodes(sheet: *const u8, sheet_length: usize) -> NodeSet;
    fn zamiathen_label_set(sheet: *const u8, sheet_length: usize, label: usize) -> NodeSet;
    fn zamiathen_row_set(sheet: *const u8, sheet_length: usize, arrow: usize, from: usize) -> NodeSet;
    fn zamiathen_print_arrow(
        sheet: *const u8,
        sheet_length: usize,
        arrow: usize,
        output: *mut u8,
        output_length: usize,
    ) -> Length;
    fn zamiathen_print_labels(sheet: *const u8, sheet_length: usize, output: *mut u8, output_length: usize) -> Length;
    fn zamiathen_type_page(sheet: *mut u8, sheet_length: usize, page: *const u8, page_length: usize) -> Answer;
    fn zamiathen_first_rule(text: *const u8, text_length: usize) -> Length;
    fn zamiathen_rule_start(book: *const u8, book_length: usize, n: usize, rule: usize) -> usize;
    fn zamiathen_judge(sheet: *const u8, sheet_length: usize, book: *const u8, book_length: usize) -> Judged;
    fn zamiathen_witness(sheet: *const u8, sheet_length: usize, rule: *const u8, rule_length: usize) -> Witnessed;
    fn zamiathen_rewrite(book: *const u8, book_length: usize, output: *mut u8, output_length: usize) -> Length;
    fn zamiathen_check_steps(
        rule: *const u8,
        rule_length: usize,
        steps: *const u8,
        steps_length: usize,
        sent: *const u8,
        sent_length: usize,
    ) -> Answer;
    fn zamiathen_join_edits(
        p: *const u8,
        p_length: usize,
        q: *const u8,
        q_length: usize,
        output: *mut u8,
        output_length: usize,
    ) -> Length;
    fn zamiathen_apply(sheet: *mut u8, sheet_length: usize, edit: *const u8, edit_length: usize) -> Answer;
    fn zamiathen_carry_back(
        book: *const u8,
        book_length: usize,
        edit: *const u8,
        edit_length: usize,
        output: *mut u8,
        output_length: usize,
    ) -> Length;
    fn zamiathen_enter(
        sheet: *mut u8,
        sheet_length: usize,
        book: *const u8,
        book_length: usize,
        edit: *const u8,
        edit_length: usize,
        scratch: *mut u8,
        scratch_length: usize,
    ) -> Answer;
    fn zamiathen_log_edit(edit: *const u8, edit_length: usize, output: *mut u8, output_length: usize) -> Length;
    fn zamiathen_check_names(names: *const u8, names_length: usize) -> Answer;
    fn zamiathen_book_to_words(
        names: *const u8,
        names_length: usize,
        book: *const u8,
        book_length: usize,
        output: *mut u8,
        output_length: usize,
    ) -> Length;
    fn zamiathen_edit_to_words(
        names: *const u8,
        names_length: usize,
        edit: *const u8,
        edit_length: usize,
        output: *mut u8,
        output_length: usize,
    ) -> Length;
    fn zamiathen_rule_to_words(
        names: *const u8,
        names_length: usize,
        rule: *const u8,
        rule_length: usize,
        output: *mut u8,
        output_length: usize,
    ) -> Length;
    fn zamiathen_book_from_words(
        names: *const u8,
        names_length: usize,
        words: *const u8,
        words_length: usize,
        output: *mut u8,
        output_length: usize,
    ) -> Length;
    fn zamiathen_edit_from_words(
        names: *const u8,
        names_length: usize,
        words: *const u8,
        words_length: usize,
        output: *mut u8,
        output_length: usize,
    ) -> Length;
    fn zamiathen_rule_in_words(
        names: *const u8,
        names_length: usize,
        words: *const u8,
        words_length: usize,
        rule: usize,
    ) -> usize;
    fn zamiathen_close(sheet: *mut u8, sheet_length: usize, book: *const u8, book_length: usize, node: usize)
        -> Answer;
    fn zamiathen_open(sheet: *mut u8, sheet_length: usize, book: *const u8, book_length: usize, node: usize) -> Answer;
    fn zamiathen_store_blank(store: *mut u8, store_length: usize) -> Answer;
    fn zamiathen_keep(
        sheet: *const u8,
        sheet_length: usize,
        store: *mut u8,
        store_length: usize,
        name: usize,
    ) -> Answer;
    fn zamiathen_return(
        sheet: *mut u8,
        sheet_length: usize,
        store: *const u8,
        store_length: usize,
        name: usize,
        book: *const u8,
        book_length: usize,
    ) -> Answer;
    fn zamiathen_drop(store: *mut u8, store_length: usize, name: usize) -> Answer;
    fn zamiathen_count(n: usize, book: *const u8, book_length: usize, edit: *const u8, edit_length: usize) -> Counts;
    fn zamiathen_play(
        sheet: *const u8,
        sheet_length: usize,
        book: *const u8,
        book_length: usize,
        goal: *const u8,
        goal_length: usize,
        edits: *const u8,
        edits_length: usize,
        lengths: *const usize,
        lengths_count: usize,
        dispatchers: usize,
        moves: usize,
    ) -> Played;
}

pub fn version() -> usize {
    unsafe { zamiathen_version() }
}

pub fn blank(sheet: &mut [u8], n: usize) -> Answer {
    unsafe { zamiathen_blank(sheet.as_mut_ptr(), sheet.len(), n) }
}

pub fn check(sheet: &[u8]) -> Answer {
    unsafe { zamiathen_check(sheet.as_ptr(), sheet.len()) }
}

pub fn convert_255(card: &mut [u8]) -> Answer {
    unsafe { zamiathen_convert_255(card.as_mut_ptr(), card.len()) }
}

pub fn convert_257(card: &mut [u8]) -> Answer {
    unsafe { zamiathen_convert_257(card.as_mut_ptr(), card.len()) }
}

pub fn join_sheets(first: &mut [u8], second: &[u8]) -> Answer {
    unsafe { zamiathen_join_sheets(first.as_mut_ptr(), first.len(), second.as_ptr(), second.len()) }
}

pub fn label_bit(sheet: &[u8], label: usize, node: usize) -> Bit {
    unsafe { zamiathen_label_bit(sheet.as_ptr(), sheet.len(), label, node) }
}

pub fn arrow_bit(sheet: &[u8], arrow: usize, from: usize, to: usize) -> Bit {
    unsafe { zamiathen_arrow_bit(sheet.as_ptr(), sheet.len(), arrow, from, to) }
}

pub fn nodes(sheet: &[u8]) -> NodeSet {
    unsafe { zamiathen_nodes(sheet.as_ptr(), sheet.len()) }
}

pub fn label_set(sheet: &[u8], label: usize) -> NodeSet {
    unsafe { zamiathen_label_set(sheet.as_ptr(), sheet.len(), label) }
}

pub fn row_set(sheet: &[u8], arrow: usize, from: usize) -> NodeSet {
    unsafe { zamiathen_row_set(sheet.as_ptr(), sheet.len(), arrow, from) }
}

pub fn print_arrow(sheet: &[u8], arrow: usize, output: &mut [u8]) -> Length {
    unsafe { zamiathen_print_arrow(sheet.as_ptr(), sheet.len(), arrow, output.as_mut_ptr(), output.len()) }
}

pub fn print_labels(sheet: &[u8], output: &mut [u8]) -> Length {
    unsafe { zamiathen_print_labels(sheet.as_ptr(), sheet.len(), output.as_mut_ptr(), output.len()) }
}

pub fn type_page(sheet: &mut [u8], page: &[u8]) -> Answer {
    unsafe { zamiathen_type_page(sheet.as_mut_ptr(), sheet.len(), page.as_ptr(), page.len()) }
}

pub fn first_rule(text: &[u8]) -> Length {
    unsafe { zamiathen_first_rule(text.as_ptr(), text.len()) }
}

pub fn rule_start(book: &[u8], n: usize, rule: usize) -> usize {
    unsafe { zamiathen_rule_start(book.as_ptr(), book.len(), n, rule) }
}

pub fn judge(sheet: &[u8], book: &[u8]) -> Judged {
    unsafe { zamiathen_judge(sheet.as_ptr(), sheet.len(), book.as_ptr(), book.len()) }
}

pub fn witness(sheet: &[u8], rule: &[u8]) -> Witnessed {
    unsafe { zamiathen_witness(sheet.as_ptr(), sheet.len(), rule.as_ptr(), rule.len()) }
}

pub fn rewrite(book: &[u8], output: &mut [u8]) -> Length {
    unsafe { zamiathen_rewrite(book.as_ptr(), book.len(), output.as_mut_ptr(), output.len()) }
}

pub fn check_steps(rule: &[u8], steps: &[u8], sent: &[u8]) -> Answer {
    unsafe { zamiathen_check_steps(rule.as_ptr(), rule.len(), steps.as_ptr(), steps.len(), sent.as_ptr(), sent.len()) }
}

pub fn join_edits(p: &[u8], q: &[u8], output: &mut [u8]) -> Length {
    unsafe { zamiathen_join_edits(p.as_ptr(), p.len(), q.as_ptr(), q.len(), output.as_mut_ptr(), output.len()) }
}

pub fn apply(sheet: &mut [u8], edit: &[u8]) -> Answer {
    unsafe { zamiathen_apply(sheet.as_mut_ptr(), sheet.len(), edit.as_ptr(), edit.len()) }
}

pub fn carry_back(book: &[u8], edit: &[u8], output: &mut [u8]) -> Length {
    unsafe {
        zamiathen_carry_back(book.as_ptr(), book.len(), edit.as_ptr(), edit.len(), output.as_mut_ptr(), output.len())
    }
}

pub fn enter(sheet: &mut [u8], book: &[u8], edit: &[u8], scratch: &mut [u8]) -> Answer {
    unsafe {
        zamiathen_enter(
            sheet.as_mut_ptr(),
            sheet.len(),
            book.as_ptr(),
            book.len(),
            edit.as_ptr(),
            edit.len(),
            scratch.as_mut_ptr(),
            scratch.len(),
        )
    }
}

pub fn log_edit(edit: &[u8], output: &mut [u8]) -> Length {
    unsafe { zamiathen_log_edit(edit.as_ptr(), edit.len(), output.as_mut_ptr(), output.len()) }
}

pub fn check_names(names: &[u8]) -> Answer {
    unsafe { zamiathen_check_names(names.as_ptr(), names.len()) }
}

pub fn book_to_words(names: &[u8], book: &[u8], output: &mut [u8]) -> Length {
    unsafe {
        zamiathen_book_to_words(
            names.as_ptr(),
            names.len(),
            book.as_ptr(),
            book.len(),
            output.as_mut_ptr(),
            output.len(),
        )
    }
}

pub fn edit_to_words(names: &[u8], edit: &[u8], output: &mut [u8]) -> Length {
    unsafe {
        zamiathen_edit_to_words(
            names.as_ptr(),
            names.len(),
            edit.as_ptr(),
            edit.len(),
            output.as_mut_ptr(),
            output.len(),
        )
    }
}

pub fn rule_to_words(names: &[u8], rule: &[u8], output: &mut [u8]) -> Length {
    unsafe {
        zamiathen_rule_to_words(
            names.as_ptr(),
            names.len(),
            rule.as_ptr(),
            rule.len(),
            output.as_mut_ptr(),
            output.len(),
        )
    }
}

pub fn book_from_words(names: &[u8], words: &[u8], output: &mut [u8]) -> Length {
    unsafe {
        zamiathen_book_from_words(
            names.as_ptr(),
            names.len(),
            words.as_ptr(),
            words.len(),
            output.as_mut_ptr(),
            output.len(),
        )
    }
}

pub fn edit_from_words(names: &[u8], words: &[u8], output: &mut [u8]) -> Length {
    unsafe {
        zamiathen_edit_from_words(
            names.as_ptr(),
            names.len(),
            words.as_ptr(),
            words.len(),
            output.as_mut_ptr(),
            output.len(),
        )
    }
}

pub fn rule_in_words(names: &[u8], words: &[u8], rule: usize) -> usize {
    unsafe { zamiathen_rule_in_words(names.as_ptr(), names.len(), words.as_ptr(), words.len(), rule) }
}

pub fn close(sheet: &mut [u8], book: &[u8], node: usize) -> Answer {
    unsafe { zamiathen_close(sheet.as_mut_ptr(), sheet.len(), book.as_ptr(), book.len(), node) }
}

pub fn open(sheet: &mut [u8], book: &[u8], node: usize) -> Answer {
    unsafe { zamiathen_open(sheet.as_mut_ptr(), sheet.len(), book.as_ptr(), book.len(), node) }
}

pub fn store_blank(store: &mut [u8]) -> Answer {
    unsafe { zamiathen_store_blank(store.as_mut_ptr(), store.len()) }
}

pub fn keep(sheet: &[u8], store: &mut [u8], name: usize) -> Answer {
    unsafe { zamiathen_keep(sheet.as_ptr(), sheet.len(), store.as_mut_ptr(), store.len(), name) }
}

pub fn return_to(sheet: &mut [u8], store: &[u8], name: usize, book: &[u8]) -> Answer {
    unsafe {
        zamiathen_return(sheet.as_mut_ptr(), sheet.len(), store.as_ptr(), store.len(), name, book.as_ptr(), book.len())
    }
}

pub fn drop(store: &mut [u8], name: usize) -> Answer {
    unsafe { zamiathen_drop(store.as_mut_ptr(), store.len(), name) }
}

pub fn count(n: usize, book: &[u8], edit: &[u8]) -> Counts {
    unsafe { zamiathen_count(n, book.as_ptr(), book.len(), edit.as_ptr(), edit.len()) }
}

pub fn play(
    sheet: &[u8],
    book: &[u8],
    goal: &[u8],
    edits: &[u8],
    lengths: &[usize],
    dispatchers: usize,
    moves: usize,
) -> Played {
    unsafe {
        zamiathen_play(
            sheet.as_ptr(),
            sheet.len(),
            book.as_ptr(),
            book.len(),
            goal.as_ptr(),
            goal.len(),
            edits.as_ptr(),
            edits.len(),
            lengths.as_ptr(),
            lengths.len(),
            dispatchers,
            moves,
        )
    }
}
