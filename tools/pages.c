/* The commands join and convert, which make sheets from others, and page and type, for the wall. */
#include "command.h"

#include <string.h>

/*
 * Sheets made of others
 */

/* Writes the joined sheet and says which nodes are the second's now. */
static int put_joined(request *r, const file *first, const file *second, const uint8_t *joined) {
    size_t before = zamiathen_nodes(first->bytes, first->length).count;
    size_t all = zamiathen_nodes(joined, ZAMIATHEN_SHEET_BYTES).count;
    int status = write_file(r, r->operands[2], joined, ZAMIATHEN_SHEET_BYTES);
    if (status != DONE)
        return status;
    printf("%sjoined%s: %zu nodes\n", ink(r, GREEN), ink(r, PLAIN), all);
    printf("  the nodes 0 to %zu of %s are now %zu to %zu, %s to %s\n", all - before - 1, second->path, before, all - 1,
           node_name(r, before), node_name(r, all - 1));
    return DONE;
}

int run_join(request *r) {
    file first, second;
    int status = lock_file(r, r->operands[2]);
    if (status == DONE)
        status = read_names(r, r->operands[0]);
    if (status == DONE)
        status = read_sheet(r, r->operands[0], &first);
    if (status == DONE)
        status = read_sheet(r, r->operands[1], &second);
    if (status != DONE)
        return status;
    uint8_t *joined = copy_of(r, first.bytes, first.length);
    zamiathen_answer answer = zamiathen_join_sheets(joined, first.length, second.bytes, second.length);
    if (answer.number == ZAMIATHEN_DONE)
        return put_joined(r, &first, &second, joined);
    fprintf(stderr, "%s, %s: %zu: %s\nThey have %zu.\n", first.path, second.path, answer.number,
            zamiathen_text(answer.number), answer.place);
    return REFUSED;
}

/* Says why a file is not a card of either form. */
static int card_fault(request *r, const file *card, zamiathen_answer of_255, zamiathen_answer of_257) {
    if (of_255.number == ZAMIATHEN_SHEET_LENGTH) {
        fprintf(stderr, "%s: %zu: %s\nIt has %s, and a card has as many as a sheet. Take another file.\n", card->path,
                of_255.number, zamiathen_text(of_255.number), figure(r, card->length));
        return REFUSED;
    }
    fprintf(stderr, "%s: as a card of version 1: %zu, block %zu: %s\n", card->path, of_255.number, of_255.place,
            zamiathen_text(of_255.number));
    fprintf(stderr, "%s: as a card of version 2 or 3: %zu, block %zu: %s\n", card->path, of_257.number, of_257.place,
            zamiathen_text(of_257.number));
    if (zamiathen_check(card->bytes, card->length).number == ZAMIATHEN_DONE)
        fputs("It is a sheet already.\n", stderr);
    return REFUSED;
}

int run_convert(request *r) {
    file card;
    zamiathen_answer of_255, of_257 = {0, 0};
    int status = read_file(r, r->operands[0], &card);
    if (status != DONE)
        return status;
    uint8_t *sheet = copy_of(r, card.bytes, card.length);
    of_255 = zamiathen_convert_255(sheet, card.length);
    if (of_255.number != ZAMIATHEN_DONE)
        of_257 = zamiathen_convert_257(sheet, card.length);
    if (of_257.number != ZAMIATHEN_DONE)
        return card_fault(r, &card, of_255, of_257);
    status = write_file(r, r->operands[1], sheet, card.length);
    if (status == DONE)
        printf("%sconverted%s: a card of version %s, %zu nodes\n", ink(r, GREEN), ink(r, PLAIN),
               of_255.number == ZAMIATHEN_DONE ? "1" : "2 or 3", zamiathen_nodes(sheet, card.length).count);
    return status;
}

/*
 * Pages
 */

int run_page(request *r) {
    file sheet;
    size_t arrow = 0;
    bool labels = strcmp(r->operands[1], "labels") == 0;
    int status = read_names(r, r->operands[0]);
    if (status == DONE)
        status = read_sheet(r, r->operands[0], &sheet);
    if (status == DONE && !labels)
        status = typed_number(r, 'a', r->operands[1], &arrow);
    if (status != DONE)
        return status;
    uint8_t *page = take(r, ZAMIATHEN_PAGE_BYTES);
    zamiathen_length printed = labels ? zamiathen_print_labels(sheet.bytes, sheet.length, page, ZAMIATHEN_PAGE_BYTES)
                                      : zamiathen_print_arrow(sheet.bytes, sheet.length, arrow, page, ZAMIATHEN_PAGE_BYTES);
    return put(r, page, printed.length);
}

/* The first byte of a line that no page of the sheet has there: with the bytes from there on as the sheet prints them, the line would be right. */
static size_t wrong_byte(request *r, const file *sheet, const file *page, size_t line, const uint8_t *printed) {
    uint8_t *mended = copy_of(r, page->bytes, page->length), *typed = take(r, sheet->length);
    size_t at = ZAMIATHEN_LINE_BYTES;
    while (at > 0) {
        at--;
        mended[ZAMIATHEN_LINE_BYTES * line + at] = printed[ZAMIATHEN_LINE_BYTES * line + at];
        memcpy(typed, sheet->bytes, sheet->length);
        zamiathen_answer answer = zamiathen_type_page(typed, sheet->length, mended, page->length);
        if (answer.number != ZAMIATHEN_PAGE || answer.place != line)
            break;
    }
    return at;
}

/* The page of the sheet that has the same head; the head is right. */
static uint8_t *same_page(request *r, const file *sheet, const file *page) {
    uint8_t *printed = take(r, ZAMIATHEN_PAGE_BYTES);
    memset(printed, 0, ZAMIATHEN_PAGE_BYTES);
    if (page->bytes[0] == 'L')
        zamiathen_print_labels(sheet->bytes, sheet->length, printed, ZAMIATHEN_PAGE_BYTES);
    else
        zamiathen_print_arrow(sheet->bytes, sheet->length, 10u * (page->bytes[1] - '0') + page->bytes[2] - '0', printed,
                              ZAMIATHEN_PAGE_BYTES);
    return printed;
}

/* Whose line it is, and whose square. */
static void say_square(request *r, const file *page, size_t line, size_t at, size_t n) {
    bool labels = page->bytes[0] == 'L';
    if (labels && line > ZAMIATHEN_LABELS)
        fputs("The line of the nodes in use, which only close and open change", stderr);
    else
        fprintf(stderr, "The line of %s", labels ? label_name(r, line - 1) : node_name(r, line - 1));
    if (at >= 3 && at - 3 < n)
        fprintf(stderr, ", the square of %s", node_name(r, at - 3));
    fputs(".\n", stderr);
}

/* A fault of a page, 51: the first line that printing could not give. */
static int page_fault(request *r, const file *sheet, const file *page, size_t line) {
    size_t n = zamiathen_nodes(sheet->bytes, sheet->length).count;
    if (line == 0) {
        fprintf(stderr, "%s:1: %d: %s\n", page->path, ZAMIATHEN_PAGE, zamiathen_text(ZAMIATHEN_PAGE));
        fprintf(stderr, "wanted: lines of 64 bytes, %zu of them with the head A00 to A15, or 50 with the head L%02zu\nIt has %s bytes.\n",
                n + 1, n, figure(r, page->length));
        return REFUSED;
    }
    size_t at = wrong_byte(r, sheet, page, line, same_page(r, sheet, page));
    fprintf(stderr, "%s:%zu:%zu: %d: %s\n", page->path, line + 1, at + 1, ZAMIATHEN_PAGE, zamiathen_text(ZAMIATHEN_PAGE));
    print_bytes(stderr, page->bytes + ZAMIATHEN_LINE_BYTES * line, ZAMIATHEN_LINE_BYTES - 1);
    fprintf(stderr, "\n%*s^\n", (int)at, "");
    fprintf(stderr, "wanted: two digits, a blank, # or . for each of the %zu nodes, . for a closed one, and blanks\n", n);
    say_square(r, page, line, at, n);
    return REFUSED;
}

int run_type(request *r) {
    file sheet, page;
    int status = lock_file(r, r->operands[0]);
    if (status == DONE)
        status = read_names(r, r->operands[0]);
    if (status == DONE)
        status = read_sheet(r, r->operands[0], &sheet);
    if (status == DONE)
        status = read_file(r, r->operands[1], &page);
    if (status != DONE)
        return status;
    uint8_t *after = copy_of(r, sheet.bytes, sheet.length);
    zamiathen_answer answer = zamiathen_type_page(after, sheet.length, page.bytes, page.length);
    if (answer.number != ZAMIATHEN_DONE)
        return page_fault(r, &sheet, &page, answer.place);
    if (memcmp(after, sheet.bytes, sheet.length) != 0)
        status = write_file(r, r->operands[0], after, sheet.length);
    if (status != DONE)
        return status;
    printf("%styped%s\n", ink(r, GREEN), ink(r, PLAIN));
    if (print_changes(r, sheet.bytes, after) == 0)
        puts("  nothing changes");
    return DONE;
}
