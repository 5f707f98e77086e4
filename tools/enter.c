/* The commands new, make, codes, words, list, judge and enter. */
#include "command.h"

#include <string.h>
#include <unistd.h>

static int blank_sheet(request *r, uint8_t **sheet) {
    size_t n = 0;
    int status = typed_count(r->operands[0], "N is a number from 1 to 60", &n);
    if (status != DONE)
        return status;
    *sheet = take(r, ZAMIATHEN_SHEET_BYTES);
    zamiathen_answer answer = zamiathen_blank(*sheet, ZAMIATHEN_SHEET_BYTES, n);
    if (answer.number == ZAMIATHEN_DONE)
        return DONE;
    fprintf(stderr, "zamiathen: %zu: %s\n", answer.number, zamiathen_text(answer.number));
    return REFUSED;
}

int run_new(request *r) {
    uint8_t *sheet;
    int status = blank_sheet(r, &sheet);
    return status != DONE ? status : write_file(r, r->operands[1], sheet, ZAMIATHEN_SHEET_BYTES);
}

int run_make(request *r) {
    uint8_t *sheet;
    text opening;
    int status = blank_sheet(r, &sheet);
    if (status == DONE)
        status = read_names(r, r->operands[1]);
    if (status == DONE)
        status = read_text(r, r->operands[1], true, &opening);
    if (status != DONE)
        return status;
    zamiathen_answer answer = zamiathen_apply(sheet, ZAMIATHEN_SHEET_BYTES, opening.codes, opening.length);
    if (answer.number != ZAMIATHEN_DONE)
        return codes_fault(r, &opening, answer.number, answer.place, zamiathen_nodes(sheet, ZAMIATHEN_SHEET_BYTES).count);
    return write_file(r, r->operands[2], sheet, ZAMIATHEN_SHEET_BYTES);
}

/* What codes, words and page write, into the last file that was typed, or to the output. */
int put(request *r, const uint8_t *bytes, size_t length) {
    if (r->count == 3)
        return write_file(r, r->operands[2], bytes, length);
    fwrite(bytes, 1, length, stdout);
    return DONE;
}

/* Reads the text of codes and words, after the word that says what it is. */
static int read_either(request *r, text *t, const char *sorts) {
    const char *sort = r->operands[0];
    bool is_edit = strcmp(sort, "edit") == 0;
    bool is_rule = strcmp(sort, "rule") == 0 && strstr(sorts, "rule") != NULL;
    if (!is_edit && !is_rule && strcmp(sort, "book") != 0)
        return wrong("%s is none of %s", sort, sorts);
    int status = read_names(r, r->operands[1]);
    return status != DONE ? status : read_text(r, r->operands[1], is_edit, t);
}

int run_codes(request *r) {
    text t;
    uint8_t *words;
    int status = read_either(r, &t, "book, edit");
    if (status != DONE)
        return status;
    zamiathen_length printed = to_words(r, t.is_edit ? zamiathen_edit_to_words : zamiathen_book_to_words, t.codes, t.length, &words);
    if (printed.number != ZAMIATHEN_DONE)
        return codes_fault(r, &t, printed.number, printed.place, ZAMIATHEN_MAX_NODES);
    if (r->count == 2 && isatty(STDOUT_FILENO))
        return wrong("codes are bytes and not for a terminal: name a file for them");
    return put(r, t.codes, t.length);
}

int run_words(request *r) {
    text t;
    uint8_t *words;
    int status = read_either(r, &t, "book, edit, rule");
    if (status != DONE)
        return status;
    printer print = t.is_edit ? zamiathen_edit_to_words
        : strcmp(r->operands[0], "rule") == 0 ? zamiathen_rule_to_words
                                              : zamiathen_book_to_words;
    zamiathen_length printed = to_words(r, print, t.codes, t.length, &words);
    if (printed.number != ZAMIATHEN_DONE)
        return codes_fault(r, &t, printed.number, printed.place, ZAMIATHEN_MAX_NODES);
    return put(r, words, printed.length);
}

int run_list(request *r) {
    text book;
    uint8_t *words;
    int status = read_names(r, r->operands[0]);
    if (status == DONE)
        status = read_text(r, r->operands[0], false, &book);
    if (status != DONE)
        return status;
    zamiathen_length printed = to_words(r, zamiathen_book_to_words, book.codes, book.length, &words);
    if (printed.number != ZAMIATHEN_DONE)
        return codes_fault(r, &book, printed.number, printed.place, ZAMIATHEN_MAX_NODES);
    for (size_t rule = 0, start = 0; start < book.length; rule++) {
        printf("rule %zu", rule);
        print_place(r, &book, rule, "  ");
        fputc('\n', stdout);
        print_rule(r, "  ", book.codes + start, book.length - start);
        start = zamiathen_rule_start(book.codes, book.length, ZAMIATHEN_MAX_NODES, rule + 1);
    }
    return DONE;
}

/* Reads the names, the sheet and the book that were typed first. */
int read_case(request *r, file *sheet, text *book) {
    int status = read_names(r, r->operands[0]);
    if (status == DONE)
        status = read_sheet(r, r->operands[0], sheet);
    return status != DONE ? status : read_text(r, r->operands[1], false, book);
}

int run_judge(request *r) {
    file sheet;
    text book;
    int status = read_case(r, &sheet, &book);
    if (status != DONE)
        return status;
    zamiathen_judged judged = zamiathen_judge(sheet.bytes, sheet.length, book.codes, book.length);
    if (judged.number == ZAMIATHEN_RULE_BROKEN)
        return print_refusal(r, &book, judged.place, "is",
                             zamiathen_witness(sheet.bytes, sheet.length, book.codes + judged.start, judged.length));
    if (judged.number != ZAMIATHEN_DONE)
        return codes_fault(r, &book, judged.number, judged.place, zamiathen_nodes(sheet.bytes, sheet.length).count);
    printf("%skept%s\n", ink(r, GREEN), ink(r, PLAIN));
    return DONE;
}

/* Enters an edit into a copy of the sheet. */
trial try_edit(request *r, const file *sheet, const text *book, const text *edit) {
    trial t = {take(r, ZAMIATHEN_SHEET_BYTES), take(r, ZAMIATHEN_CARRIED_BYTES), {0, 0}, {0}};
    memcpy(t.sheet, sheet->bytes, ZAMIATHEN_SHEET_BYTES);
    memset(t.scratch, 0, ZAMIATHEN_CARRIED_BYTES);
    t.answer = zamiathen_enter(t.sheet, ZAMIATHEN_SHEET_BYTES, book->codes, book->length, edit->codes, edit->length,
                               t.scratch, ZAMIATHEN_CARRIED_BYTES);
    if (t.answer.number == ZAMIATHEN_RULE_BROKEN)
        t.who = zamiathen_witness(sheet->bytes, sheet->length, t.scratch, ZAMIATHEN_CARRIED_BYTES);
    return t;
}

int run_enter(request *r) {
    file sheet;
    text book, edit;
    int status = r->only_try ? DONE : lock_file(r, r->operands[0]);
    if (status == DONE)
        status = read_case(r, &sheet, &book);
    if (status == DONE)
        status = read_text(r, r->operands[2], true, &edit);
    if (status != DONE)
        return status;
    trial t = try_edit(r, &sheet, &book, &edit);
    if (t.answer.number == ZAMIATHEN_RULE_BROKEN)
        return print_refusal(r, &book, t.answer.place, "would be", t.who);
    if (t.answer.number != ZAMIATHEN_DONE)
        return answer_fault(r, &sheet, &book, &edit, t.answer);
    bool changed = memcmp(t.sheet, sheet.bytes, ZAMIATHEN_SHEET_BYTES) != 0;
    if (changed && !r->only_try)
        status = write_file(r, r->operands[0], t.sheet, ZAMIATHEN_SHEET_BYTES);
    if (status != DONE)
        return status;
    printf("%s%s%s\n", ink(r, GREEN), r->only_try ? "would be entered" : "entered", ink(r, PLAIN));
    if (print_changes(r, sheet.bytes, t.sheet) == 0)
        puts("  nothing changes");
    return DONE;
}
