//! The calls of `include/zamiathen.h`.

#[repr(C)]
pub struct CAnswer {
    pub number: usize,
    pub place: usize,
}

#[repr(C)]
pub struct CBit {
    pub number: usize,
    pub place: usize,
    pub bit: usize,
}

#[repr(C)]
pub struct CLength {
    pub number: usize,
    pub place: usize,
    pub length: usize,
}

#[repr(C)]
pub struct CJudged {
    pub number: usize,
    pub place: usize,
    pub start: usize,
    pub length: usize,
}

#[repr(C)]
pub struct CCounts {
    pub number: usize,
    pub place: usize,
    pub counts: [usize; 4],
}

#[repr(C)]
pub struct CPlayed {
    pub number: usize,
    pub place: usize,
    pub outcome: usize,
    pub edit: usize,
}

#[repr(C)]
pub struct CWitnessed {
    pub number: usize,
    pub place: usize,
    pub kind: usize,
    pub first: usize,
    pub second: usize,
    pub nodes: u64,
}

#[repr(C)]
pub struct CNodeSet {
    pub number: usize,
    pub place: usize,
    pub count: usize,
    pub set: u64,
}

#[link(name = "suite", kind = "static")]
extern "C" {
    pub fn zamiathen_version() -> usize;
    pub fn zamiathen_nodes(sheet: *const u8, sheet_length: usize) -> CNodeSet;
    pub fn zamiathen_label_set(sheet: *const u8, sheet_length: usize, label: usize) -> CNodeSet;
    pub fn zamiathen_row_set(sheet: *const u8, sheet_length: usize, arrow: usize, from: usize) -> CNodeSet;
    pub fn zamiathen_log_edit(edit: *const u8, edit_length: usize, output: *mut u8, output_length: usize) -> CLength;
    pub fn zamiathen_witness(sheet: *const u8, sheet_length: usize, rule: *const u8, rule_length: usize) -> CWitnessed;
    pub fn zamiathen_blank(sheet: *mut u8, sheet_length: usize, n: usize) -> CAnswer;
    pub fn zamiathen_check(sheet: *const u8, sheet_length: usize) -> CAnswer;
    pub fn zamiathen_convert_255(card: *mut u8, card_length: usize) -> CAnswer;
    pub fn zamiathen_convert_257(card: *mut u8, card_length: usize) -> CAnswer;
    pub fn zamiathen_label_bit(sheet: *const u8, sheet_length: usize, label: usize, node: usize) -> CBit;
    pub fn zamiathen_arrow_bit(sheet: *const u8, sheet_length: usize, arrow: usize, from: usize, to: usize) -> CBit;
    pub fn zamiathen_print_arrow(
        sheet: *const u8,
        sheet_length: usize,
        arrow: usize,
        output: *mut u8,
        output_length: usize,
    ) -> CLength;
    pub fn zamiathen_print_labels(
        sheet: *const u8,
        sheet_length: usize,
        output: *mut u8,
        output_length: usize,
    ) -> CLength;
    pub fn zamiathen_type_page(sheet: *mut u8, sheet_length: usize, page: *const u8, page_length: usize) -> CAnswer;
    pub fn zamiathen_first_rule(text: *const u8, text_length: usize) -> CLength;
    pub fn zamiathen_rule_start(book: *const u8, book_length: usize, n: usize, rule: usize) -> usize;
    pub fn zamiathen_judge(sheet: *const u8, sheet_length: usize, book: *const u8, book_length: usize) -> CJudged;
    pub fn zamiathen_close(
        sheet: *mut u8,
        sheet_length: usize,
        book: *const u8,
        book_length: usize,
        node: usize,
    ) -> CAnswer;
    pub fn zamiathen_open(
        sheet: *mut u8,
        sheet_length: usize,
        book: *const u8,
        book_length: usize,
        node: usize,
    ) -> CAnswer;
    pub fn zamiathen_store_blank(store: *mut u8, store_length: usize) -> CAnswer;
    pub fn zamiathen_keep(
        sheet: *const u8,
        sheet_length: usize,
        store: *mut u8,
        store_length: usize,
        name: usize,
    ) -> CAnswer;
    pub fn zamiathen_return(
        sheet: *mut u8,
        sheet_length: usize,
        store: *const u8,
        store_length: usize,
        name: usize,
        book: *const u8,
        book_length: usize,
    ) -> CAnswer;
    pub fn zamiathen_drop(store: *mut u8, store_length: usize, name: usize) -> CAnswer;
    pub fn zamiathen_join_sheets(
        first: *mut u8,
        first_length: usize,
        second: *const u8,
        second_length: usize,
    ) -> CAnswer;
    pub fn zamiathen_join_edits(
        p: *const u8,
        p_length: usize,
        q: *const u8,
        q_length: usize,
        output: *mut u8,
        output_length: usize,
    ) -> CLength;
    pub fn zamiathen_check_steps(
        rule: *const u8,
        rule_length: usize,
        steps: *const u8,
        steps_length: usize,
        sent: *const u8,
        sent_length: usize,
    ) -> CAnswer;
    pub fn zamiathen_count(
        n: usize,
        book: *const u8,
        book_length: usize,
        edit: *const u8,
        edit_length: usize,
    ) -> CCounts;
    pub fn zamiathen_play(
        sheet: *const u8,
        sheet_length: usize,
        book: *const u8,
        book_length: usize,
        goal: *const u8,
        goal_length: usize,
        edits: *const u8,
        edits_length: usize,
        lengths: *const usize,
        lengths_count: usize,
        dispatchers: usize,
        moves: usize,
    ) -> CPlayed;
    pub fn zamiathen_check_names(names: *const u8, names_length: usize) -> CAnswer;
    pub fn zamiathen_book_to_words(
        names: *const u8,
        names_length: usize,
        book: *const u8,
        book_length: usize,
        output: *mut u8,
        output_length: usize,
    ) -> CLength;
    pub fn zamiathen_edit_to_words(
        names: *const u8,
        names_length: usize,
        edit: *const u8,
        edit_length: usize,
        output: *mut u8,
        output_length: usize,
    ) -> CLength;
    pub fn zamiathen_rule_to_words(
        names: *const u8,
        names_length: usize,
        rule: *const u8,
        rule_length: usize,
        output: *mut u8,
        output_length: usize,
    ) -> CLength;
    pub fn zamiathen_book_from_words(
        names: *const u8,
        names_length: usize,
        words: *const u8,
        words_length: usize,
        output: *mut u8,
        output_length: usize,
    ) -> CLength;
    pub fn zamiathen_edit_from_words(
        names: *const u8,
        names_length: usize,
        words: *const u8,
        words_length: usize,
        output: *mut u8,
        output_length: usize,
    ) -> CLength;
    pub fn zamiathen_rule_in_words(
        names: *const u8,
        names_length: usize,
        words: *const u8,
        words_length: usize,
        rule: usize,
    ) -> usize;
    pub fn zamiathen_rewrite(book: *const u8, book_length: usize, output: *mut u8, output_length: usize) -> CLength;
    pub fn zamiathen_apply(sheet: *mut u8, sheet_length: usize, edit: *const u8, edit_length: usize) -> CAnswer;
    pub fn zamiathen_carry_back(
        book: *const u8,
        book_length: usize,
        edit: *const u8,
        edit_length: usize,
        output: *mut u8,
        output_length: usize,
    ) -> CLength;
    pub fn zamiathen_enter(
        sheet: *mut u8,
        sheet_length: usize,
        book: *const u8,
        book_length: usize,
        edit: *const u8,
        edit_length: usize,
        scratch: *mut u8,
        scratch_length: usize,
    ) -> CAnswer;
}
