/* Every call of the header as a C program makes it, through the header and libsuite.a alone: each answer that it can
 * give, and the buffers passed to it, with a guard on each side, after it. */
#include "zamiathen.h"

#include <stdio.h>
#include <string.h>

enum { GUARD = 64, GUARD_BYTE = 0xA7, FILL = 0xEE };

struct text {
    uint8_t bytes[ZAMIATHEN_TEXT_BYTES + 1];
    size_t length;
};

/* A text that is refused: `times` times the middle between head and tail, in hexadecimal. */
struct fault {
    size_t number, place;
    const char *head;
    size_t times;
    const char *middle, *tail;
};

static struct {
    uint8_t before[GUARD], bytes[ZAMIATHEN_SHEET_BYTES], after[GUARD];
} lent_sheet;
static struct {
    uint8_t before[GUARD], bytes[ZAMIATHEN_CARRIED_BYTES], after[GUARD];
} lent_scratch;
static uint8_t *const sheet = lent_sheet.bytes, *const scratch = lent_scratch.bytes;
static const size_t whole = ZAMIATHEN_SHEET_BYTES, room = ZAMIATHEN_CARRIED_BYTES;

/* What the sheet should hold. */
static uint8_t kept[ZAMIATHEN_SHEET_BYTES];
static int passed, failed;

static void same(const char *what, int equal) {
    if (equal) {
        passed++;
    } else {
        failed++;
        printf("%s: differs\n", what);
    }
}

static void answered(const char *what, zamiathen_answer found, size_t number, size_t place) {
    if (found.number != number || found.place != place)
        printf("%s: %02zu %05zu\n", what, found.number, found.place);
    same(what, found.number == number && found.place == place);
}

static void bit_read(const char *what, zamiathen_bit found, size_t number, size_t place, size_t bit) {
    answered(what, (zamiathen_answer){found.number, found.place}, number, place);
    same(what, found.bit == bit);
}

static void measured(const char *what, zamiathen_length found, size_t number, size_t place, size_t length) {
    answered(what, (zamiathen_answer){found.number, found.place}, number, place);
    same(what, found.length == length);
}

static void judged(const char *what, zamiathen_judged found, zamiathen_judged wanted) {
    answered(what, (zamiathen_answer){found.number, found.place}, wanted.number, wanted.place);
    same(what, found.start == wanted.start && found.length == wanted.length);
}

static int all(const uint8_t *bytes, size_t length, uint8_t byte) {
    for (size_t i = 0; i < length; i++)
        if (bytes[i] != byte)
            return 0;
    return 1;
}

static int guarded(const uint8_t *before, const uint8_t *after) {
    return all(before, GUARD, GUARD_BYTE) && all(after, GUARD, GUARD_BYTE);
}

/* The sheet is as it should be, the carried text stands at the scratch's start, and all the rest is as it was. */
static void left(const char *what, const uint8_t *carried, size_t length) {
    same(what, memcmp(sheet, kept, whole) == 0);
    same(what, (length == 0 || memcmp(scratch, carried, length) == 0) && all(scratch + length, room - length, FILL));
    same(what, guarded(lent_sheet.before, lent_sheet.after) && guarded(lent_scratch.before, lent_scratch.after));
}

static void left_alone(const char *what) { left(what, NULL, 0); }

/* Check bytes of a block: sums modulo 257 over bytes 0 to 507, in two bytes each. */
static void seal_block(uint8_t *bytes) {
    unsigned s = 0, t = 0;
    for (size_t i = 0; i < 508; i++) {
        s = (s + bytes[i]) % 257;
        t = (t + s) % 257;
    }
    bytes[508] = (uint8_t)(s % 256);
    bytes[509] = (uint8_t)(s / 256);
    bytes[510] = (uint8_t)(t % 256);
    bytes[511] = (uint8_t)(t / 256);
}

/* Those of each block of a sheet. */
static void seal(uint8_t *bytes) {
    for (size_t block = 0; block < 17; block++)
        seal_block(bytes + 512 * block);
}

/* Check bytes of an old card: sums modulo 255 over bytes 0 to 509, in one byte each. */
static void seal_255(uint8_t *bytes) {
    for (size_t block = 0; block < 17; block++, bytes += 512) {
        unsigned s = 0, t = 0;
        for (size_t i = 0; i < 510; i++) {
            s = (s + bytes[i]) % 255;
            t = (t + s) % 255;
        }
        bytes[510] = (uint8_t)s;
        bytes[511] = (uint8_t)t;
    }
}

/* Sheet T without check bytes: n = 3, label 0 = nodes 0, 1; label 1 = node 2; arrow 0 = 0 to 2, 1 to 2. */
static void unsealed_t(uint8_t *bytes) {
    memset(bytes, 0, whole);
    bytes[0] = 1;
    bytes[2] = 3;
    for (uint8_t block = 1; block < 17; block++) {
        bytes[512 * block] = 2;
        bytes[512 * block + 1] = block;
    }
    bytes[16] = 3;
    bytes[24] = 4;
    bytes[512 + 16] = 4;
    bytes[512 + 24] = 4;
}

static void sheet_t(uint8_t *bytes) {
    unsealed_t(bytes);
    bytes[400] = 7;
    seal(bytes);
}

/* The old cards, which have zeros for the nodes in use: how each is sealed, and its converter. */
struct form {
    void (*seal)(uint8_t *);
    zamiathen_answer (*convert)(uint8_t *, size_t);
    size_t zeros_end; /* where the check bytes begin */
};
static const struct form forms[] = {{seal_255, zamiathen_convert_255, 510}, {seal, zamiathen_convert_257, 508}};

/* T as it was stored before version 2, or before version 4. */
static void card_t(uint8_t *bytes, const struct form *form) {
    unsealed_t(bytes);
    form->seal(bytes);
}

static void start(void) {
    memset(&lent_sheet, GUARD_BYTE, sizeof lent_sheet);
    memset(&lent_scratch, GUARD_BYTE, sizeof lent_scratch);
    sheet_t(sheet);
    memcpy(kept, sheet, whole);
    memset(scratch, FILL, room);
}

static void put(struct text *text, const char *hex) {
    for (unsigned byte; sscanf(hex, "%2x", &byte) == 1; hex += strlen(hex) > 2 ? 3 : 2)
        text->bytes[text->length++] = (uint8_t)byte;
}

static const struct text *text_of(const struct fault *fault) {
    static struct text text;
    text.length = 0;
    put(&text, fault->head);
    for (size_t i = 0; i < fault->times; i++)
        put(&text, fault->middle);
    put(&text, fault->tail);
    return &text;
}

static const uint8_t B[] = {0x21, 0x03, 0x00, 0x08, 0x11, 0x00, 0x03, 0x01};
static const uint8_t END[] = {0x30};
static const uint8_t TAKE[] = {0x32, 0x01, 0x04, 0x02, 0x30};
static const uint8_t TAKE_AND_ADD[] = {0x32, 0x01, 0x04, 0x02, 0x31, 0x01, 0x04, 0x02, 0x30};
static const uint8_t CARRIED_8[] = {0x21, 0x03, 0x00, 0x08, 0x11, 0x00, 0x06, 0x03, 0x01, 0x05, 0x04, 0x02};
static const uint8_t CARRIED_9[] = {0x21, 0x03, 0x00, 0x08, 0x11, 0x00, 0x07, 0x06,
                                    0x03, 0x01, 0x05, 0x04, 0x02, 0x04, 0x02};
static const uint8_t BOOK_10[] = {0x21, 0x03, 0x01, 0x03, 0x00};
static const uint8_t EDIT_10[] = {0x35, 0x23, 0x00, 0x03, 0x01, 0x31, 0x00, 0x04, 0x02, 0x30, 0x30, 0x30};
static const uint8_t CARRIED_10[] = {0x25, 0x26, 0x27, 0x23, 0x00, 0x03, 0x01, 0x21, 0x03, 0x01, 0x07, 0x03, 0x00,
                                     0x04, 0x02, 0x26, 0x23, 0x00, 0x03, 0x01, 0x21, 0x03, 0x01, 0x03, 0x00};

/* Three rules, of which the second does not hold on T. */
static const uint8_t BROKEN[] = {0x21, 0x01, 0x01, 0x23, 0x02, 0x03, 0x00, 0x21, 0x01, 0x02};

static const struct fault book_faults[] = {
    {ZAMIATHEN_BOOK_LENGTH, 0, "", ZAMIATHEN_TEXT_BYTES + 1, "21", ""},
    {ZAMIATHEN_BOOK_ENDS, 2, "21 01", 0, "", ""},
    {ZAMIATHEN_BOOK_CODE, 0, "30", 0, "", ""},
    {ZAMIATHEN_BOOK_LEVEL, 32, "", 32, "27", "21 01 01"},
    {ZAMIATHEN_BOOK_NUMBER, 1, "23 3C 01", 0, "", ""},
    {ZAMIATHEN_BOOK_NUMBER, 3, "23 00 0A 00 11 00 02", 0, "", ""},
    {ZAMIATHEN_BOOK_NUMBER, 3, "23 00 0B 3C 11 00 01", 0, "", ""},
    {ZAMIATHEN_BOOK_RULES, 96, "", ZAMIATHEN_MAX_RULES + 1, "21 01 01", ""},
};

/* Stored books: the faults of books that are not about counts, and a fault in what would be dropped. */
static const struct fault stored_faults[] = {
    {ZAMIATHEN_BOOK_LENGTH, 0, "", ZAMIATHEN_TEXT_BYTES + 1, "21", ""},
    {ZAMIATHEN_BOOK_ENDS, 6, "23 00 0A 00 11 00", 0, "", ""},
    {ZAMIATHEN_BOOK_CODE, 6, "23 00 0B FF 11 00 11 00", 0, "", ""},
    {ZAMIATHEN_BOOK_LEVEL, 32, "", 32, "27", "21 01 01"},
    {ZAMIATHEN_BOOK_NUMBER, 1, "23 3C 01", 0, "", ""},
    {ZAMIATHEN_BOOK_NUMBER, 7, "23 00 0A 00 11 00 03 30", 0, "", ""},
    {ZAMIATHEN_BOOK_RULES, 96, "", ZAMIATHEN_MAX_RULES + 1, "21 01 01", ""},
};

/* A stored book and what it becomes. */
static const char *const stored_books[][2] = {
    {"", ""},
    {"23 00 0A 00 11 00 02", "23 00 01"},
    {"23 00 0A 01 11 00 02", "23 00 0A 01 11 00 02"},
    {"23 00 0A 3C 11 00 02", "23 00 0A 3C 11 00 02"},
    {"23 00 0A 3D 11 00 02", "23 00 02"},
    {"23 00 0A FF 11 00 02", "23 00 02"},
    {"23 00 0B 00 11 00 02", "23 00 0B 00 11 00 02"},
    {"23 00 0B 3B 11 00 02", "23 00 0B 3B 11 00 02"},
    {"23 00 0B 3C 11 00 02", "23 00 01"},
    {"23 00 0B FF 11 00 02", "23 00 01"},
    {"21 01 01 23 3B 0A 02 16 11 0F 0B 3C 11 00 01 0A 00 11 00 01 21 01 02",
     "21 01 01 23 3B 0A 02 16 11 0F 01 01 21 01 02"},
};

static const struct fault edit_faults[] = {
    {ZAMIATHEN_EDIT_LENGTH, 0, "", ZAMIATHEN_TEXT_BYTES + 1, "30", ""},
    {ZAMIATHEN_EDIT_ENDS, 4, "32 01 04 02", 0, "", ""},
    {ZAMIATHEN_EDIT_CODE, 0, "21 01 01", 0, "", ""},
    {ZAMIATHEN_EDIT_LEVEL, 33, "31 00", 31, "05", "01 30"},
    {ZAMIATHEN_EDIT_NUMBER, 1, "31 30 01 30", 0, "", ""},
    {ZAMIATHEN_EDIT_NUMBER, 3, "31 00 0A 3D 11 00 01 30", 0, "", ""},
    {ZAMIATHEN_EDIT_MORE, 1, "30 30", 0, "", ""},
};

/* Edits through which 21 03 00 01 grows too long or too deep. */
static const struct fault carried_faults[] = {
    {ZAMIATHEN_CARRIED_LENGTH, 0, "", 9, "31 00 07 03 00 03 00", "30"},
    {ZAMIATHEN_CARRIED_LEVELS, 0, "", 254, "31 00 02", "30"},
};
static const uint8_t GROWS[] = {0x21, 0x03, 0x00, 0x01};

static zamiathen_answer enter(size_t sheet_length, const uint8_t *book, size_t book_length, const uint8_t *edit,
                              size_t edit_length) {
    return zamiathen_enter(sheet, sheet_length, book, book_length, edit, edit_length, scratch, room);
}

/* Examples 7 to 10 of document 01. */
static void examples(void) {
    start();
    judged("example 7", zamiathen_judge(sheet, whole, B, sizeof B), (zamiathen_judged){0, 0, 0, 0});
    answered("example 8", enter(whole, B, sizeof B, TAKE, sizeof TAKE), ZAMIATHEN_RULE_BROKEN, 0);
    left("example 8", CARRIED_8, sizeof CARRIED_8);

    start();
    answered("example 9", enter(whole, B, sizeof B, TAKE_AND_ADD, sizeof TAKE_AND_ADD), ZAMIATHEN_DONE, 0);
    left("example 9", CARRIED_9, sizeof CARRIED_9);

    start();
    measured("example 10", zamiathen_carry_back(BOOK_10, sizeof BOOK_10, EDIT_10, sizeof EDIT_10, scratch, room),
             ZAMIATHEN_DONE, 0, sizeof CARRIED_10);
    left("example 10", CARRIED_10, sizeof CARRIED_10);
}

/* Edits that change the sheet, check bytes too: label 1 given to node 0, with a book and without one, and taken from
 * node 2, which B would not allow. */
static void changes(void) {
    static const uint8_t add[] = {0x31, 0x01, 0x04, 0x00, 0x30};
    static const uint8_t carried[] = {0x21, 0x03, 0x00, 0x08, 0x11, 0x00, 0x07, 0x03, 0x01, 0x04, 0x00};
    start();
    kept[24] = 5;
    seal(kept);
    answered("enter that adds", enter(whole, B, sizeof B, add, sizeof add), ZAMIATHEN_DONE, 0);
    left("enter that adds", carried, sizeof carried);
    start();
    kept[24] = 5;
    seal(kept);
    answered("apply that adds", zamiathen_apply(sheet, whole, add, sizeof add), ZAMIATHEN_DONE, 0);
    left_alone("apply that adds");
    kept[24] = 1;
    seal(kept);
    answered("apply that takes", zamiathen_apply(sheet, whole, TAKE, sizeof TAKE), ZAMIATHEN_DONE, 0);
    left_alone("apply that takes");
}

static void blanks(void) {
    static const size_t no_count[] = {0, ZAMIATHEN_MAX_NODES + 1, 256 + 3, SIZE_MAX};
    start();
    for (size_t i = 0; i < sizeof no_count / sizeof *no_count; i++)
        answered("no such n", zamiathen_blank(sheet, whole - 1, no_count[i]), ZAMIATHEN_NODE_COUNT, 0);
    answered("short blank", zamiathen_blank(sheet, whole - 1, 3), ZAMIATHEN_SHEET_LENGTH, 0);
    left_alone("refused blanks");
    for (size_t n = 1; n <= ZAMIATHEN_MAX_NODES; n++) {
        memset(sheet, FILL, whole);
        answered("blank", zamiathen_blank(sheet, whole, n), ZAMIATHEN_DONE, 0);
        answered("blank", zamiathen_check(sheet, whole), ZAMIATHEN_DONE, 0);
        sheet_t(kept);
        kept[2] = (uint8_t)n;
        kept[16] = kept[24] = kept[512 + 16] = kept[512 + 24] = 0;
        for (size_t i = 0; i < 8; i++)
            kept[400 + i] = (uint8_t)((((uint64_t)1 << n) - 1) >> (8 * i));
        seal(kept);
        left_alone("blank");
    }
}

static zamiathen_bit label_bit(size_t label, size_t node) {
    return zamiathen_label_bit(sheet, whole, label, node);
}

static zamiathen_bit arrow_bit(size_t arrow, size_t from, size_t to) {
    return zamiathen_arrow_bit(sheet, whole, arrow, from, to);
}

/* All bits of T, and numbers that T does not have. */
static void bits(void) {
    start();
    for (size_t i = 0; i < 3; i++) {
        for (size_t k = 0; k < ZAMIATHEN_LABELS; k++)
            bit_read("label bit", label_bit(k, i), ZAMIATHEN_DONE, 0, k == 0 ? i < 2 : k == 1 && i == 2);
        for (size_t j = 0; j < 3; j++)
            for (size_t a = 0; a < ZAMIATHEN_ARROWS; a++)
                bit_read("arrow bit", arrow_bit(a, i, j), ZAMIATHEN_DONE, 0, a == 0 && i < 2 && j == 2);
    }
    bit_read("label 48", label_bit(ZAMIATHEN_LABELS, 0), ZAMIATHEN_OUT_OF_RANGE, 0, 0);
    bit_read("label bit of node 3", label_bit(0, 3), ZAMIATHEN_OUT_OF_RANGE, 0, 0);
    bit_read("arrow 16", arrow_bit(ZAMIATHEN_ARROWS, 0, 2), ZAMIATHEN_OUT_OF_RANGE, 0, 0);
    bit_read("arrow from node 3", arrow_bit(0, 3, 2), ZAMIATHEN_OUT_OF_RANGE, 0, 0);
    bit_read("arrow to node 255", arrow_bit(0, 0, 255), ZAMIATHEN_OUT_OF_RANGE, 0, 0);
    bit_read("label 256", label_bit(256, 0), ZAMIATHEN_OUT_OF_RANGE, 0, 0);
    bit_read("label bit of node 256", label_bit(0, 256), ZAMIATHEN_OUT_OF_RANGE, 0, 0);
    bit_read("arrow 256", arrow_bit(256, 0, 2), ZAMIATHEN_OUT_OF_RANGE, 0, 0);
    bit_read("arrow from node 256", arrow_bit(0, 256, 2), ZAMIATHEN_OUT_OF_RANGE, 0, 0);
    bit_read("arrow to the last number", arrow_bit(0, 0, SIZE_MAX), ZAMIATHEN_OUT_OF_RANGE, 0, 0);
    left_alone("bit reads");
}

/* The rules of a book by their ends and by their starts, and the broken one. */
static void rules(void) {
    static const size_t starts[] = {0, 3, 7, sizeof BROKEN, sizeof BROKEN};
    start();
    for (size_t i = 0; i + 1 < sizeof starts / sizeof *starts; i++) {
        same("rule start", zamiathen_rule_start(BROKEN, sizeof BROKEN, 3, i) == starts[i]);
        if (starts[i] < sizeof BROKEN)
            measured("rule end", zamiathen_first_rule(BROKEN + starts[i], sizeof BROKEN - starts[i]), ZAMIATHEN_DONE, 0,
                     starts[i + 1] - starts[i]);
    }
    same("no such rule", zamiathen_rule_start(BROKEN, sizeof BROKEN, 3, SIZE_MAX) == sizeof BROKEN);
    same("rule start with n = 2", zamiathen_rule_start(BROKEN, sizeof BROKEN, 2, 1) == 3);
    same("rule after node 2 with n = 2", zamiathen_rule_start(BROKEN, sizeof BROKEN, 2, 2) == sizeof BROKEN);
    judged("second rule broken", zamiathen_judge(sheet, whole, BROKEN, sizeof BROKEN),
           (zamiathen_judged){ZAMIATHEN_RULE_BROKEN, 1, 3, 4});
    answered("second rule broken", enter(whole, BROKEN, sizeof BROKEN, END, 1), ZAMIATHEN_RULE_BROKEN, 1);
    left("second rule broken", BROKEN + 3, 4);
}

/* Each call that takes a sheet, with a sheet of this length. */
static void refused_sheet(const char *what, size_t length, size_t number, size_t place) {
    answered(what, zamiathen_check(sheet, length), number, place);
    judged(what, zamiathen_judge(sheet, length, B, sizeof B), (zamiathen_judged){number, place, 0, 0});
    bit_read(what, zamiathen_label_bit(sheet, length, 0, 0), number, place, 0);
    bit_read(what, zamiathen_arrow_bit(sheet, length, 0, 0, 2), number, place, 0);
    answered(what, zamiathen_apply(sheet, length, TAKE, sizeof TAKE), number, place);
    measured(what, zamiathen_print_arrow(sheet, length, 16, scratch, 0), number, place, 0);
    measured(what, zamiathen_print_labels(sheet, length, scratch, 0), number, place, 0);
    answered(what, zamiathen_type_page(sheet, length, scratch, 0), number, place);
    answered(what, enter(length, B, sizeof B, TAKE, sizeof TAKE), number, place);
    answered(what, zamiathen_close(sheet, length, B, sizeof B, 3), number, place);
    answered(what, zamiathen_open(sheet, length, B, sizeof B, 3), number, place);
    left_alone(what);
}

/* The squares of arrow 0 of sheet T, and of its first two labels. */
static const char T_ROWS[3][4] = {"..#", "..#", "..."}, T_LABELS[2][4] = {"##.", "..#"};

static size_t page_line(uint8_t *page, size_t line, const char *start, const char *squares) {
    memset(page + 64 * line, ' ', 63);
    memcpy(page + 64 * line, start, 3);
    memcpy(page + 64 * line + 3, squares, strlen(squares));
    page[64 * line + 63] = '\n';
    return 64 * (line + 1);
}

static size_t arrow_page(uint8_t *page) {
    char number[4];
    size_t length = page_line(page, 0, "A00", "");
    for (size_t i = 0; i < 3; i++) {
        snprintf(number, sizeof number, "%02zu ", i);
        length = page_line(page, i + 1, number, T_ROWS[i]);
    }
    return length;
}

static size_t label_page(uint8_t *page) {
    char number[4];
    size_t length = page_line(page, 0, "L03", "");
    for (size_t k = 0; k < 48; k++) {
        snprintf(number, sizeof number, "%02zu ", k);
        length = page_line(page, k + 1, number, k < 2 ? T_LABELS[k] : "...");
    }
    return page_line(page, length / 64, "48 ", "###");
}

static void pages(void) {
    static uint8_t page[ZAMIATHEN_PAGE_BYTES], labels[ZAMIATHEN_PAGE_BYTES];
    size_t length = arrow_page(page), label_length = label_page(labels);
    start();
    measured("arrow page", zamiathen_print_arrow(sheet, whole, 0, scratch, room), ZAMIATHEN_DONE, 0, length);
    left("arrow page", page, length);
    memset(scratch, FILL, room);
    measured("label page", zamiathen_print_labels(sheet, whole, scratch, room), ZAMIATHEN_DONE, 0, label_length);
    left("label page", labels, label_length);
    memset(scratch, FILL, room);
    measured("no such kind", zamiathen_print_arrow(sheet, whole, 16, scratch, room), ZAMIATHEN_OUT_OF_RANGE, 0, 0);
    measured("no such kind", zamiathen_print_arrow(sheet, whole, SIZE_MAX, scratch, room), ZAMIATHEN_OUT_OF_RANGE, 0, 0);
    measured("short output", zamiathen_print_arrow(sheet, whole, 15, scratch, length - 1), ZAMIATHEN_ROOM, length, 0);
    measured("short output", zamiathen_print_labels(sheet, whole, scratch, label_length - 1), ZAMIATHEN_ROOM, label_length,
             0);
    answered("own page", zamiathen_type_page(sheet, whole, page, length), ZAMIATHEN_DONE, 0);
    answered("own label page", zamiathen_type_page(sheet, whole, labels, label_length), ZAMIATHEN_DONE, 0);
    left_alone("pages of its own");
    answered("page cut short", zamiathen_type_page(sheet, whole, page, length - 1), ZAMIATHEN_PAGE, 0);
    page[64 * 2 + 3 + 3] = '.';
    answered("mark after column n", zamiathen_type_page(sheet, whole, page, length), ZAMIATHEN_PAGE, 2);
    memcpy(page, "A16", 3);
    answered("head of no kind", zamiathen_type_page(sheet, whole, page, length), ZAMIATHEN_PAGE, 0);
    labels[64 * 49 + 4] = '.';
    answered("other nodes in use", zamiathen_type_page(sheet, whole, labels, label_length), ZAMIATHEN_PAGE, 49);
    answered("label page of version 3", zamiathen_type_page(sheet, whole, labels, 64 * 49), ZAMIATHEN_PAGE, 0);
    left_alone("refused pages");
}

static void refused_sheets(void) {
    start();
    refused_sheet("short sheet", whole - 1, ZAMIATHEN_SHEET_LENGTH, 0);
    refused_sheet("no sheet", 0, ZAMIATHEN_SHEET_LENGTH, 0);
    sheet[600] ^= 255;
    memcpy(kept, sheet, whole);
    refused_sheet("0 turned into 255 in block 1", whole, ZAMIATHEN_SHEET_SUMS, 1);
    start();
    sheet[512 * 5] = 5;
    sheet[512 * 5 + 1] = 2;
    memcpy(kept, sheet, whole);
    refused_sheet("neighbours of block 5 exchanged", whole, ZAMIATHEN_SHEET_SUMS, 5);
    start();
    card_t(sheet, &forms[0]);
    memcpy(kept, sheet, whole);
    refused_sheet("an old card", whole, ZAMIATHEN_SHEET_SUMS, 0);
    card_t(sheet, &forms[1]);
    memcpy(kept, sheet, whole);
    refused_sheet("a card of version 3, no node in use", whole, ZAMIATHEN_SHEET_HEAD, 0);
    start();
    sheet[512 * 3 + 1] = 4;
    seal(sheet);
    memcpy(kept, sheet, whole);
    refused_sheet("head of block 3", whole, ZAMIATHEN_SHEET_HEAD, 3);
    start();
    sheet[512 * 16 + 16 + 8 * 3] = 1;
    seal(sheet);
    memcpy(kept, sheet, whole);
    refused_sheet("row 3 of 3 in block 16", whole, ZAMIATHEN_SHEET_ZEROS, 16);
}

/* T, and each question of a sheet in each block. */
static void checks(void) {
    start();
    answered("check", zamiathen_check(sheet, whole), ZAMIATHEN_DONE, 0);
    answered("check, cut short", zamiathen_check(sheet, whole - 512), ZAMIATHEN_SHEET_LENGTH, 0);
    left_alone("check");
    for (size_t block = 0; block < 17; block++) {
        uint8_t *const bytes = sheet + 512 * block;
        bytes[100] ^= 1;
        answered("check bytes", zamiathen_check(sheet, whole), ZAMIATHEN_SHEET_SUMS, block);
        sheet_t(sheet);
        bytes[511] ^= 1;
        answered("stored check bytes", zamiathen_check(sheet, whole), ZAMIATHEN_SHEET_SUMS, block);
        sheet_t(sheet);
        bytes[1] = 17;
        seal(sheet);
        answered("head", zamiathen_check(sheet, whole), ZAMIATHEN_SHEET_HEAD, block);
        sheet_t(sheet);
        bytes[507] = 1;
        seal(sheet);
        answered("zeros", zamiathen_check(sheet, whole), ZAMIATHEN_SHEET_ZEROS, block);
        sheet_t(sheet);
    }
    sheet[2] = 61;
    seal(sheet);
    answered("61 nodes", zamiathen_check(sheet, whole), ZAMIATHEN_SHEET_HEAD, 0);
}

/* T with one byte changed, its check bytes right again. */
static void checked(const char *what, size_t at, uint8_t byte, size_t number, size_t place) {
    sheet_t(sheet);
    sheet[at] = byte;
    seal(sheet);
    answered(what, zamiathen_check(sheet, whole), number, place);
}

/* The questions about the nodes in use: 3 when none below n is, 4 when one above n is or a closed one has something. */
static void nodes_in_use(void) {
    start();
    checked("no node in use", 400, 0, ZAMIATHEN_SHEET_HEAD, 0);
    checked("only node 3 of 3 in use", 400, 8, ZAMIATHEN_SHEET_HEAD, 0);
    checked("node 3 of 3 in use", 400, 15, ZAMIATHEN_SHEET_ZEROS, 0);
    checked("node 63 in use", 407, 128, ZAMIATHEN_SHEET_ZEROS, 0);
    checked("node 0 closed, with a label", 400, 6, ZAMIATHEN_SHEET_ZEROS, 0);
    sheet_t(sheet);
    sheet[16] = 2;
    sheet[400] = 6;
    seal(sheet);
    answered("node 0 closed, with an arrow", zamiathen_check(sheet, whole), ZAMIATHEN_SHEET_ZEROS, 1);
    sheet[512 + 16] = 0;
    seal(sheet);
    answered("node 0 closed, with nothing", zamiathen_check(sheet, whole), ZAMIATHEN_DONE, 0);
    bit_read("label bit of a closed node", label_bit(0, 0), ZAMIATHEN_DONE, 0, 0);
    bit_read("arrow bit of a closed node", arrow_bit(0, 1, 0), ZAMIATHEN_DONE, 0, 0);
}

/* A card that is not sound stays as it is. */
static void refused_card(const char *what, const struct form *form, size_t length, size_t number, size_t place) {
    memcpy(kept, sheet, whole);
    answered(what, form->convert(sheet, length), number, place);
    left_alone(what);
}

/* The old card of T becomes T; each question of old cards, in each block. */
static void cards(const struct form *form) {
    const struct form *other = form == &forms[0] ? &forms[1] : &forms[0];
    start();
    card_t(sheet, form);
    answered("card", form->convert(sheet, whole), ZAMIATHEN_DONE, 0);
    answered("card, converted", zamiathen_check(sheet, whole), ZAMIATHEN_DONE, 0);
    left_alone("card");
    refused_card("a sheet for a card", form, whole,
                 form->zeros_end == 508 ? ZAMIATHEN_SHEET_ZEROS : ZAMIATHEN_SHEET_SUMS, 0);
    card_t(sheet, other);
    refused_card("a card of other sums", form, whole, ZAMIATHEN_SHEET_SUMS, 0);
    card_t(sheet, form);
    refused_card("short card", form, whole - 1, ZAMIATHEN_SHEET_LENGTH, 0);
    for (size_t block = 0; block < 17; block++) {
        uint8_t *const bytes = sheet + 512 * block;
        card_t(sheet, form);
        bytes[100] ^= 1;
        refused_card("check bytes of a card", form, whole, ZAMIATHEN_SHEET_SUMS, block);
        card_t(sheet, form);
        bytes[1] = 17;
        form->seal(sheet);
        refused_card("head of a card", form, whole, ZAMIATHEN_SHEET_HEAD, block);
        for (size_t zero = 400; zero < form->zeros_end; zero++) {
            card_t(sheet, form);
            bytes[zero] = 1;
            form->seal(sheet);
            refused_card("zeros of a card", form, whole, ZAMIATHEN_SHEET_ZEROS, block);
        }
    }
}

/* A sum of 0 that an old card has as 255: n = 60, label 0 = nodes 1, 6, 7. */
static void card_sum_of_zero(void) {
    start();
    for (int wrong = 0; wrong < 2; wrong++) {
        card_t(sheet, &forms[0]);
        sheet[2] = 60;
        sheet[16] = 0xC2;
        sheet[24] = 0;
        seal_255(sheet);
        same("sum of 0", sheet[510] == 0);
        memcpy(kept, sheet, whole);
        sheet[510] = kept[510] = wrong ? 255 : 0;
        answered("sum of 0", zamiathen_convert_255(sheet, whole), wrong ? ZAMIATHEN_SHEET_SUMS : ZAMIATHEN_DONE, 0);
        if (!wrong) {
            memset(kept + 400, 255, 7);
            kept[407] = 15;
            seal(kept);
        }
        left_alone("sum of 0");
    }
}

/* Each call that takes a book. A text of 33 rules has a first one. */
static void refused_books(void) {
    start();
    for (size_t i = 0; i < sizeof book_faults / sizeof *book_faults; i++) {
        const struct fault *fault = &book_faults[i];
        const struct text *book = text_of(fault);
        judged("refused book", zamiathen_judge(sheet, whole, book->bytes, book->length),
               (zamiathen_judged){fault->number, fault->place, 0, 0});
        measured("refused book", zamiathen_carry_back(book->bytes, book->length, END, 1, scratch, room), fault->number,
                 fault->place, 0);
        answered("refused book", enter(whole, book->bytes, book->length, TAKE, sizeof TAKE), fault->number,
                 fault->place);
        answered("refused book", zamiathen_close(sheet, whole, book->bytes, book->length, 3), fault->number,
                 fault->place);
        answered("refused book", zamiathen_open(sheet, whole, book->bytes, book->length, 0), fault->number,
                 fault->place);
        if (fault->number == ZAMIATHEN_BOOK_RULES)
            measured("first of 33", zamiathen_first_rule(book->bytes, book->length), ZAMIATHEN_DONE, 0, 3);
        else
            measured("refused text", zamiathen_first_rule(book->bytes, book->length), fault->number, fault->place, 0);
    }
    left_alone("refused books");
}

/* A stored book is read by any count. */
static void rewritten(void) {
    static struct text stored, wanted;
    for (size_t i = 0; i < sizeof stored_books / sizeof *stored_books; i++) {
        const char *what = stored_books[i][0];
        stored.length = wanted.length = 0;
        put(&stored, stored_books[i][0]);
        put(&wanted, stored_books[i][1]);
        start();
        if (wanted.length > 0)
            measured(what, zamiathen_rewrite(stored.bytes, stored.length, scratch, wanted.length - 1), ZAMIATHEN_ROOM,
                     wanted.length, 0);
        left_alone(what);
        measured(what, zamiathen_rewrite(stored.bytes, stored.length, scratch, wanted.length), ZAMIATHEN_DONE, 0,
                 wanted.length);
        left(what, wanted.bytes, wanted.length);
        start();
        measured(what, zamiathen_rewrite(stored.bytes, stored.length, scratch, room), ZAMIATHEN_DONE, 0, wanted.length);
        left(what, wanted.bytes, wanted.length);
    }
    start();
    for (size_t i = 0; i < sizeof stored_faults / sizeof *stored_faults; i++) {
        const struct fault *fault = &stored_faults[i];
        const struct text *book = text_of(fault);
        measured("refused stored book", zamiathen_rewrite(book->bytes, book->length, scratch, room), fault->number,
                 fault->place, 0);
        measured("refused without an output", zamiathen_rewrite(book->bytes, book->length, NULL, 0), fault->number,
                 fault->place, 0);
    }
    left_alone("refused stored books");
}

/* Each call that takes an edit. */
static void refused_edits(void) {
    start();
    for (size_t i = 0; i < sizeof edit_faults / sizeof *edit_faults; i++) {
        const struct fault *fault = &edit_faults[i];
        const struct text *edit = text_of(fault);
        answered("refused edit", zamiathen_apply(sheet, whole, edit->bytes, edit->length), fault->number, fault->place);
        measured("refused edit", zamiathen_carry_back(B, sizeof B, edit->bytes, edit->length, scratch, room),
                 fault->number, fault->place, 0);
        answered("refused edit", enter(whole, B, sizeof B, edit->bytes, edit->length), fault->number, fault->place);
    }
    left_alone("refused edits");
}

/* Carried books that pass a limit, or the room that there is. */
static void refused_sizes(void) {
    start();
    for (size_t i = 0; i < sizeof carried_faults / sizeof *carried_faults; i++) {
        const struct fault *fault = &carried_faults[i];
        const struct text *edit = text_of(fault);
        measured("carried size", zamiathen_carry_back(GROWS, sizeof GROWS, edit->bytes, edit->length, scratch, room),
                 fault->number, fault->place, 0);
        answered("carried size", enter(whole, GROWS, sizeof GROWS, edit->bytes, edit->length), fault->number,
                 fault->place);
    }
    measured("short output", zamiathen_carry_back(B, sizeof B, TAKE, sizeof TAKE, scratch, sizeof CARRIED_8 - 1),
             ZAMIATHEN_ROOM, sizeof CARRIED_8, 0);
    answered("short scratch",
             zamiathen_enter(sheet, whole, B, sizeof B, TAKE, sizeof TAKE, scratch, sizeof CARRIED_8 - 1),
             ZAMIATHEN_ROOM, sizeof CARRIED_8);
    left_alone("refused sizes");
    measured("output of the length needed",
             zamiathen_carry_back(B, sizeof B, TAKE, sizeof TAKE, scratch, sizeof CARRIED_8), ZAMIATHEN_DONE, 0,
             sizeof CARRIED_8);
    left("output of the length needed", CARRIED_8, sizeof CARRIED_8);
}

/* Node 3 is not one of T's, but it is one of the 60 that a text without a sheet may name. */
static void node_3(void) {
    static const uint8_t book[] = {0x23, 0x03, 0x01};
    start();
    judged("node 3 of T", zamiathen_judge(sheet, whole, book, sizeof book),
           (zamiathen_judged){ZAMIATHEN_BOOK_NUMBER, 1, 0, 0});
    measured("node 3 in a text", zamiathen_first_rule(book, sizeof book), ZAMIATHEN_DONE, 0, sizeof book);
    measured("node 3 carried back", zamiathen_carry_back(book, sizeof book, END, 1, scratch, room), ZAMIATHEN_DONE, 0,
             sizeof book);
    left("node 3", book, sizeof book);
}

/* NULL with length 0 in each place. */
static void empty_buffers(void) {
    start();
    answered("no buffer for a blank sheet", zamiathen_blank(NULL, 0, 3), ZAMIATHEN_SHEET_LENGTH, 0);
    answered("no sheet", zamiathen_check(NULL, 0), ZAMIATHEN_SHEET_LENGTH, 0);
    answered("no card", zamiathen_convert_255(NULL, 0), ZAMIATHEN_SHEET_LENGTH, 0);
    bit_read("no sheet", zamiathen_label_bit(NULL, 0, 0, 0), ZAMIATHEN_SHEET_LENGTH, 0, 0);
    bit_read("no sheet", zamiathen_arrow_bit(NULL, 0, 0, 0, 0), ZAMIATHEN_SHEET_LENGTH, 0, 0);
    measured("no text", zamiathen_first_rule(NULL, 0), ZAMIATHEN_BOOK_ENDS, 0, 0);
    same("no book", zamiathen_rule_start(NULL, 0, 3, 0) == 0 && zamiathen_rule_start(NULL, 0, 3, 1) == 0);
    judged("no sheet", zamiathen_judge(NULL, 0, NULL, 0), (zamiathen_judged){ZAMIATHEN_SHEET_LENGTH, 0, 0, 0});
    judged("no book", zamiathen_judge(sheet, whole, NULL, 0), (zamiathen_judged){0, 0, 0, 0});
    answered("no sheet, no edit", zamiathen_apply(NULL, 0, NULL, 0), ZAMIATHEN_SHEET_LENGTH, 0);
    measured("no output", zamiathen_print_labels(sheet, whole, NULL, 0), ZAMIATHEN_ROOM, 3200, 0);
    answered("no page", zamiathen_type_page(sheet, whole, NULL, 0), ZAMIATHEN_PAGE, 0);
    measured("nothing to rewrite", zamiathen_rewrite(NULL, 0, NULL, 0), ZAMIATHEN_DONE, 0, 0);
    measured("no output", zamiathen_rewrite(B, sizeof B, NULL, 0), ZAMIATHEN_ROOM, sizeof B, 0);
    answered("no edit", zamiathen_apply(sheet, whole, NULL, 0), ZAMIATHEN_EDIT_ENDS, 0);
    measured("no edit", zamiathen_carry_back(NULL, 0, NULL, 0, NULL, 0), ZAMIATHEN_EDIT_ENDS, 0, 0);
    measured("nothing to carry", zamiathen_carry_back(NULL, 0, END, 1, NULL, 0), ZAMIATHEN_DONE, 0, 0);
    measured("no output", zamiathen_carry_back(B, sizeof B, END, 1, NULL, 0), ZAMIATHEN_ROOM, sizeof B, 0);
    answered("nothing at all", zamiathen_enter(NULL, 0, NULL, 0, NULL, 0, NULL, 0), ZAMIATHEN_SHEET_LENGTH, 0);
    answered("no book, no scratch", zamiathen_enter(sheet, whole, NULL, 0, END, 1, NULL, 0), ZAMIATHEN_DONE, 0);
    left_alone("empty buffers");
}

/* T with a node more, 3, which has nothing. */
static void four_nodes(void) {
    start();
    sheet[2] = 4;
    sheet[400] = 15;
    seal(sheet);
    memcpy(kept, sheet, whole);
}

/* Node 3 closed and opened: number, and the nodes in use after it. */
static void turned(const char *what, zamiathen_answer found, size_t number, size_t place, uint8_t in_use) {
    answered(what, found, number, place);
    kept[400] = in_use;
    seal(kept);
    left_alone(what);
}

static void closing(void) {
    static const uint8_t in_use[] = {0x23, 0x03, 0x01}, closed[] = {0x21, 0x01, 0x01, 0x27, 0x23, 0x03, 0x01};
    static const uint8_t named[] = {0x31, 0x00, 0x04, 0x03, 0x33, 0x00, 0x17, 0x03, 0x00, 0x31, 0x02, 0x01, 0x30};
    four_nodes();
    turned("close node 4", zamiathen_close(sheet, whole, B, sizeof B, 4), ZAMIATHEN_OUT_OF_RANGE, 0, 15);
    turned("open node 4", zamiathen_open(sheet, whole, NULL, 0, SIZE_MAX), ZAMIATHEN_OUT_OF_RANGE, 0, 15);
    turned("a rule without it", zamiathen_close(sheet, whole, in_use, sizeof in_use, 3), ZAMIATHEN_RULE_BROKEN, 0, 15);
    turned("open an open one", zamiathen_open(sheet, whole, closed, sizeof closed, 3), ZAMIATHEN_DONE, 0, 15);
    turned("close", zamiathen_close(sheet, whole, B, sizeof B, 3), ZAMIATHEN_DONE, 0, 7);
    turned("close a closed one", zamiathen_close(sheet, whole, in_use, sizeof in_use, 3), ZAMIATHEN_DONE, 0, 7);
    turned("a rule with it", zamiathen_open(sheet, whole, closed, sizeof closed, 3), ZAMIATHEN_RULE_BROKEN, 1, 7);
    judged("23 on it", zamiathen_judge(sheet, whole, in_use, sizeof in_use),
           (zamiathen_judged){ZAMIATHEN_RULE_BROKEN, 0, 0, sizeof in_use});
    answered("steps on it", zamiathen_apply(sheet, whole, named, sizeof named), ZAMIATHEN_DONE, 0);
    kept[32] = 7;
    turned("open", zamiathen_open(sheet, whole, B, sizeof B, 3), ZAMIATHEN_DONE, 0, 15);
    turned("and close", zamiathen_close(sheet, whole, closed, sizeof closed, 3), ZAMIATHEN_DONE, 0, 7);
}

/* What keeps a node from being closed, also where a rule would be broken: a label, an arrow from it, one to it, or that no
 * other is in use. */
static void taken_nodes(void) {
    static const uint8_t never[] = {0x21, 0x01, 0x02};
    four_nodes();
    turned("labels and arrows", zamiathen_close(sheet, whole, never, sizeof never, 1), ZAMIATHEN_NODE_TAKEN, 1, 15);
    sheet[16] = sheet[24] = kept[16] = kept[24] = 0;
    seal(sheet);
    turned("an arrow from it", zamiathen_close(sheet, whole, never, sizeof never, 0), ZAMIATHEN_NODE_TAKEN, 0, 15);
    turned("arrows to it", zamiathen_close(sheet, whole, never, sizeof never, 2), ZAMIATHEN_NODE_TAKEN, 2, 15);
    turned("nothing", zamiathen_close(sheet, whole, never, sizeof never, 3), ZAMIATHEN_RULE_BROKEN, 0, 15);
    for (uint8_t node = 0; node < 3; node++) {
        answered("blank", zamiathen_blank(sheet, whole, 3), ZAMIATHEN_DONE, 0);
        for (uint8_t i = 0; i < 3; i++)
            if (i != node)
                answered("close", zamiathen_close(sheet, whole, NULL, 0, i), ZAMIATHEN_DONE, 0);
        memcpy(kept, sheet, whole);
        turned("the only one", zamiathen_close(sheet, whole, never, sizeof never, node), ZAMIATHEN_NODE_TAKEN, node,
               (uint8_t)(1 << node));
    }
}

/* A store, as document 02 has its length and numbers, with a guard on each side; and what it should hold. */
enum { STORE_BYTES = 61440, STORE_UNSOUND = 55, NO_NAME = 56, UNFILLED = 57 };
static struct {
    uint8_t before[GUARD], bytes[STORE_BYTES], after[GUARD];
} lent_store;
static uint8_t *const store = lent_store.bytes;
static uint8_t kept_store[STORE_BYTES];
static const size_t no_names[] = {0, 8, 9, 256 + 2, SIZE_MAX / 2 + 1, SIZE_MAX};

/* The answer, and every byte of store and sheet. */
static void stored(const char *what, zamiathen_answer found, size_t number, size_t place) {
    answered(what, found, number, place);
    same(what, memcmp(store, kept_store, STORE_BYTES) == 0 && guarded(lent_store.before, lent_store.after));
    left_alone(what);
}

static zamiathen_answer keep(size_t name) { return zamiathen_keep(sheet, whole, store, STORE_BYTES, name); }

static zamiathen_answer give_back(size_t name, const uint8_t *book, size_t length) {
    return zamiathen_return(sheet, whole, store, STORE_BYTES, name, book, length);
}

static zamiathen_answer drop(size_t name) { return zamiathen_drop(store, STORE_BYTES, name); }

/* A blank store, with T. */
static void start_store(void) {
    start();
    memset(&lent_store, GUARD_BYTE, sizeof lent_store);
    memset(store, FILL, STORE_BYTES);
    memcpy(kept_store, store, STORE_BYTES);
    stored("short store", zamiathen_store_blank(store, STORE_BYTES - 1), STORE_UNSOUND, 0);
    stored("no store", zamiathen_store_blank(NULL, 0), STORE_UNSOUND, 0);
    stored("no blank store", drop(1), STORE_UNSOUND, 0);
    memset(kept_store, 0, STORE_BYTES);
    kept_store[0] = 4;
    seal_block(kept_store);
    stored("blank store", zamiathen_store_blank(store, STORE_BYTES), ZAMIATHEN_DONE, 0);
}

/* T under name 2. */
static void fill_second(void) {
    kept_store[1] = 2;
    seal_block(kept_store);
    sheet_t(kept_store + 512 + whole);
    stored("keep", keep(2), ZAMIATHEN_DONE, 0);
}

/* T kept, the sheet changed, T given back; kept again, dropped. */
static void plans(void) {
    start_store();
    fill_second();
    for (size_t i = 0; i < sizeof no_names / sizeof *no_names; i++) {
        stored("no such name to keep", keep(no_names[i]), NO_NAME, 0);
        stored("no such name to return", give_back(no_names[i], B, sizeof B), NO_NAME, 0);
        stored("no such name to drop", drop(no_names[i]), NO_NAME, 0);
    }
    for (size_t name = 1; name <= 7; name++)
        if (name != 2) {
            stored("unfilled", give_back(name, B, sizeof B), UNFILLED, 0);
            stored("unfilled", drop(name), UNFILLED, 0);
        }
    kept[24] = 0;
    seal(kept);
    stored("label 1 taken", zamiathen_apply(sheet, whole, TAKE, sizeof TAKE), ZAMIATHEN_DONE, 0);
    stored("judged on the kept sheet", give_back(2, BROKEN, sizeof BROKEN), ZAMIATHEN_RULE_BROKEN, 1);
    for (size_t i = 0; i < sizeof book_faults / sizeof *book_faults; i++) {
        const struct text *book = text_of(&book_faults[i]);
        stored("refused book", give_back(2, book->bytes, book->length), book_faults[i].number, book_faults[i].place);
    }
    sheet_t(kept);
    stored("returned", give_back(2, B, sizeof B), ZAMIATHEN_DONE, 0);
    answered("blank", zamiathen_blank(sheet, whole, 60), ZAMIATHEN_DONE, 0);
    memcpy(kept, sheet, whole);
    static const uint8_t node_3[] = {0x23, 0x03, 0x01};
    stored("read with the kept sheet's n", give_back(2, node_3, sizeof node_3), ZAMIATHEN_BOOK_NUMBER, 1);
    memcpy(kept_store + 512 + whole, sheet, whole);
    stored("kept again", keep(2), ZAMIATHEN_DONE, 0);
    stored("returned with 60 nodes", give_back(2, node_3, sizeof node_3), ZAMIATHEN_DONE, 0);
    kept_store[1] |= 64;
    seal_block(kept_store);
    memcpy(kept_store + STORE_BYTES - whole, sheet, whole);
    stored("the last name", keep(7), ZAMIATHEN_DONE, 0);
    kept_store[1] = 64;
    seal_block(kept_store);
    memset(kept_store + 512 + whole, 0, whole);
    stored("drop", drop(2), ZAMIATHEN_DONE, 0);
    stored("drop again", drop(2), UNFILLED, 0);
}

/* Each question before the next: a fault of the sheet, of the store in each block, of the name. */
static void refused_plans(void) {
    start_store();
    fill_second();
    stored("short sheet to keep", zamiathen_keep(sheet, whole - 1, store, STORE_BYTES - 1, 0), ZAMIATHEN_SHEET_LENGTH, 0);
    stored("short sheet to return", zamiathen_return(sheet, whole - 1, store, STORE_BYTES - 1, 0, B, sizeof B),
           ZAMIATHEN_SHEET_LENGTH, 0);
    sheet[16 * 512 + 20] ^= 1;
    kept[16 * 512 + 20] ^= 1;
    stored("check bytes before the store", zamiathen_keep(sheet, whole, store, 0, 0), ZAMIATHEN_SHEET_SUMS, 16);
    stored("check bytes before the name", give_back(0, NULL, 0), ZAMIATHEN_SHEET_SUMS, 16);
    sheet[16 * 512 + 20] ^= 1;
    kept[16 * 512 + 20] ^= 1;
    stored("short store", zamiathen_keep(sheet, whole, store, STORE_BYTES - 1, 0), STORE_UNSOUND, 0);
    stored("short store", zamiathen_return(sheet, whole, store, STORE_BYTES - 1, 0, END, 1), STORE_UNSOUND, 0);
    stored("short store", zamiathen_drop(store, STORE_BYTES - 1, 0), STORE_UNSOUND, 0);
    for (size_t block = 0; block < STORE_BYTES / 512; block++) {
        const size_t at = 512 * block + 100;
        store[at] = kept_store[at] = 1;
        stored("a byte of the store", keep(3), STORE_UNSOUND, 0);
        stored("a byte of the store", give_back(1, END, 1), STORE_UNSOUND, 0);
        stored("a byte of the store", drop(0), STORE_UNSOUND, 0);
        store[at] = kept_store[at] = 0;
    }
    for (unsigned mark = 0; mark < 256; mark++) {
        store[1] = kept_store[1] = (uint8_t)mark;
        seal_block(store);
        seal_block(kept_store);
        stored("marks", drop(1), mark == 2 ? UNFILLED : STORE_UNSOUND, 0);
    }
}

/* A second sheet, with a guard on each side; it is only read. */
_Static_assert(ZAMIATHEN_NODES_TOTAL == 58, "document 02");
static struct {
    uint8_t before[GUARD], bytes[ZAMIATHEN_SHEET_BYTES], after[GUARD];
} lent_second;
static uint8_t *const second = lent_second.bytes;

static void joined(const char *what, size_t first_length, size_t second_length, size_t number, size_t place) {
    static uint8_t before[sizeof lent_second];
    memcpy(before, &lent_second, sizeof lent_second);
    answered(what, zamiathen_join_sheets(sheet, first_length, second, second_length), number, place);
    same(what, memcmp(before, &lent_second, sizeof lent_second) == 0);
    left_alone(what);
}

/* T followed by T, whose nodes are then 3, 4 and 5; T followed by U, which is T without node 1, a closed one. */
static void joining(void) {
    start();
    memset(&lent_second, GUARD_BYTE, sizeof lent_second);
    sheet_t(second);
    kept[2] = 6;
    kept[400] = 63;
    kept[16] = 3 | 3 << 3;
    kept[24] = 4 | 4 << 3;
    kept[512 + 16 + 8 * 3] = kept[512 + 16 + 8 * 4] = 4 << 3;
    seal(kept);
    joined("T and T", whole, whole, ZAMIATHEN_DONE, 0);
    judged("B on both", zamiathen_judge(sheet, whole, B, sizeof B), (zamiathen_judged){0, 0, 0, 0});
    start();
    second[400] = 5;
    second[16] = 1;
    second[512 + 24] = 0;
    seal(second);
    kept[2] = 6;
    kept[400] = 7 | 5 << 3;
    kept[16] = 3 | 1 << 3;
    kept[24] = 4 | 4 << 3;
    kept[512 + 16 + 8 * 3] = 4 << 3;
    seal(kept);
    joined("T and U", whole, whole, ZAMIATHEN_DONE, 0);
}

/* The questions of the first, then of the second, then the total. */
static void refused_joins(void) {
    start();
    sheet_t(second);
    joined("short first, short second", whole - 1, whole - 1, ZAMIATHEN_SHEET_LENGTH, 0);
    joined("short second", whole, whole - 1, ZAMIATHEN_SHEET_LENGTH, 0);
    joined("no second", whole, 0, ZAMIATHEN_SHEET_LENGTH, 0);
    for (size_t block = 0; block < 17; block++) {
        second[512 * block + 100] ^= 1;
        joined("check bytes of the second", whole, whole, ZAMIATHEN_SHEET_SUMS, block);
        sheet[512 * block] ^= 1;
        kept[512 * block] ^= 1;
        joined("check bytes of both", whole, whole, ZAMIATHEN_SHEET_SUMS, block);
        seal(sheet);
        seal(kept);
        joined("head of the first", whole, whole, ZAMIATHEN_SHEET_HEAD, block);
        sheet[512 * block] ^= 1;
        kept[512 * block] ^= 1;
        seal(sheet);
        seal(kept);
        second[512 * block + 100] ^= 1;
        second[512 * block + 500] = 1;
        seal(second);
        joined("zeros of the second", whole, whole, ZAMIATHEN_SHEET_ZEROS, block);
        second[512 * block + 500] = 0;
        seal(second);
    }
    for (size_t n = 55; n <= 60; n++) {
        answered("blank", zamiathen_blank(sheet, whole, n), ZAMIATHEN_DONE, 0);
        memcpy(kept, sheet, whole);
        if (n + 3 > 60) {
            joined("too many nodes", whole, whole, ZAMIATHEN_NODES_TOTAL, n + 3);
            continue;
        }
        kept[2] = (uint8_t)(n + 3);
        for (size_t i = 0; i < 8; i++) {
            kept[400 + i] = (uint8_t)((((uint64_t)1 << (n + 3)) - 1) >> (8 * i));
            kept[16 + i] = (uint8_t)(((uint64_t)3 << n) >> (8 * i));
            kept[24 + i] = (uint8_t)(((uint64_t)4 << n) >> (8 * i));
            kept[512 + 16 + 8 * n + i] = kept[512 + 16 + 8 * (n + 1) + i] = kept[24 + i];
        }
        seal(kept);
        joined("up to 60 nodes", whole, whole, ZAMIATHEN_DONE, 0);
    }
}

/* P, Q, and Q where P's end stood. */
static const char *const chains[][3] = {
    {"30", "30", "30"},
    {"31 00 01 30", "30", "31 00 01 30"},
    {"30", "32 2F 04 3B 30", "32 2F 04 3B 30"},
    {"31 00 01 30", "33 0F 12 11 00 30", "31 00 01 33 0F 12 11 00 30"},
    {"35 21 01 01 30 30 30", "31 00 01 30", "35 21 01 01 30 30 31 00 01 30"},
    {"34 00 17 30 30 35 21 01 01 30 31 00 01 30 30", "35 23 00 03 30 30 30 30", ""},
    {"34 00 17 30 30 35 21 01 01 30 31 00 01 30 30", "35 23 00 03 2F 30 30 30",
     "34 00 17 30 30 35 21 01 01 30 31 00 01 30 35 23 00 03 2F 30 30 30"},
};

static zamiathen_length chain(const struct text *p, const struct text *q, size_t length) {
    return zamiathen_join_edits(p->bytes, p->length, q->bytes, q->length, scratch, length);
}

static void joined_edits(void) {
    static struct text p, q, wanted;
    for (size_t i = 0; i < sizeof chains / sizeof *chains; i++) {
        const char *what = chains[i][0];
        p.length = q.length = wanted.length = 0;
        put(&p, chains[i][0]);
        put(&q, chains[i][1]);
        put(&wanted, chains[i][2]);
        start();
        if (wanted.length == 0) {
            measured(what, chain(&p, &q, room), ZAMIATHEN_EDIT_NUMBER, 4, 0);
            left_alone(what);
            continue;
        }
        measured(what, chain(&p, &q, wanted.length - 1), ZAMIATHEN_ROOM, wanted.length, 0);
        left_alone(what);
        measured(what, chain(&p, &q, wanted.length), ZAMIATHEN_DONE, 0, wanted.length);
        left(what, wanted.bytes, wanted.length);
        start();
        measured(what, chain(&p, &q, room), ZAMIATHEN_DONE, 0, wanted.length);
        left(what, wanted.bytes, wanted.length);
    }
}

/* P's questions, then Q's, then the length of both, then the room. */
static void refused_chains(void) {
    static struct text faulty, edit, wanted;
    start();
    for (size_t i = 0; i < sizeof edit_faults / sizeof *edit_faults; i++)
        for (size_t j = 0; j < sizeof edit_faults / sizeof *edit_faults; j++) {
            faulty = *text_of(&edit_faults[i]);
            measured("P refused", chain(&faulty, text_of(&edit_faults[j]), 0), edit_faults[i].number,
                     edit_faults[i].place, 0);
            edit.length = 0;
            while (edit.length < ZAMIATHEN_TEXT_BYTES - 1)
                put(&edit, "31 00 01");
            put(&edit, "30");
            measured("Q refused", chain(&edit, text_of(&edit_faults[j]), 0), edit_faults[j].number,
                     edit_faults[j].place, 0);
        }
    faulty.length = 0;
    put(&faulty, "31 00 01 30");
    measured("4,099 bytes before the room", chain(&edit, &faulty, 0), ZAMIATHEN_EDIT_LENGTH, 0, 0);
    measured("4,099 bytes", chain(&faulty, &edit, room), ZAMIATHEN_EDIT_LENGTH, 0, 0);
    measured("no output", zamiathen_join_edits(END, 1, END, 1, NULL, 0), ZAMIATHEN_ROOM, 1, 0);
    measured("no P", zamiathen_join_edits(NULL, 0, END, 1, NULL, 0), ZAMIATHEN_EDIT_ENDS, 0, 0);
    measured("no Q", zamiathen_join_edits(END, 1, NULL, 0, NULL, 0), ZAMIATHEN_EDIT_ENDS, 0, 0);
    left_alone("refused chains");
    faulty.length = wanted.length = 0;
    put(&faulty, "30");
    for (size_t i = 0; i < edit.length; i++)
        wanted.bytes[wanted.length++] = edit.bytes[i];
    measured("4,096 bytes", chain(&edit, &faulty, ZAMIATHEN_TEXT_BYTES), ZAMIATHEN_DONE, 0, ZAMIATHEN_TEXT_BYTES);
    left("4,096 bytes", wanted.bytes, wanted.length);
}

/* Rules are judged one by one, each written at the scratch's start over the one before, up to the first broken one: two
 * that hold, of 11 and 5 bytes, one that doesn't, of 3, and a longer one after it. TAKE changes none of them. */
static const uint8_t ONE_BY_ONE[] = {0x21, 0x03, 0x00, 0x07, 0x03, 0x00, 0x07, 0x03, 0x00, 0x04, 0x01,
                                     0x22, 0x11, 0x00, 0x11, 0x00, 0x21, 0x01, 0x02, 0x21, 0x01, 0x07,
                                     0x01, 0x07, 0x01, 0x07, 0x01, 0x07, 0x01, 0x07, 0x01, 0x01};
enum { FIRST_TWO = 16, FIRST_THREE = 19, FIRST = 11, LAST = sizeof ONE_BY_ONE - FIRST_THREE };

static zamiathen_answer enter_with(const uint8_t *book, size_t length, size_t scratch_length) {
    return zamiathen_enter(sheet, whole, book, length, TAKE, sizeof TAKE, scratch, scratch_length);
}

static void one_by_one(void) {
    static uint8_t writings[FIRST];
    start();
    answered("longest after the broken one", enter_with(ONE_BY_ONE, sizeof ONE_BY_ONE, LAST - 1), ZAMIATHEN_ROOM, LAST);
    answered("no scratch", enter_with(ONE_BY_ONE, FIRST_TWO, 0), ZAMIATHEN_ROOM, FIRST);
    answered("one byte short", enter_with(ONE_BY_ONE, FIRST_THREE, FIRST - 1), ZAMIATHEN_ROOM, FIRST);
    left_alone("short scratches");
    memcpy(writings, ONE_BY_ONE, FIRST);
    memcpy(writings, ONE_BY_ONE + FIRST, FIRST_TWO - FIRST);
    memcpy(writings, ONE_BY_ONE + FIRST_TWO, FIRST_THREE - FIRST_TWO);
    answered("the third is broken", enter_with(ONE_BY_ONE, FIRST_THREE, FIRST), ZAMIATHEN_RULE_BROKEN, 2);
    left("the third is broken", writings, FIRST);
    start();
    answered("the fourth is not written", enter_with(ONE_BY_ONE, sizeof ONE_BY_ONE, room), ZAMIATHEN_RULE_BROKEN, 2);
    left("the fourth is not written", writings, FIRST);
    start();
    memcpy(writings, ONE_BY_ONE, FIRST);
    memcpy(writings, ONE_BY_ONE + FIRST, FIRST_TWO - FIRST);
    kept[24] = 0;
    seal(kept);
    answered("two that hold", enter_with(ONE_BY_ONE, FIRST_TWO, FIRST), ZAMIATHEN_DONE, 0);
    left("two that hold", writings, FIRST);
}

/* A carried rule, steps, and the text sent, with the answer: each law, and each question before the next. */
enum { STEP_UNFIT = 59, OTHER_TEXT = 60 };
static const struct {
    const char *rule, *steps, *sent;
    size_t number, place;
} checked_steps[] = {
    {"23 00 01", "", "23 00 01", ZAMIATHEN_DONE, 0},
    {"23 00 05 05 03 01", "02 00 01", "23 00 03 01", ZAMIATHEN_DONE, 0},
    {"23 00 06 03 01 03 01", "02 00 02", "23 00 03 01", ZAMIATHEN_DONE, 0},
    {"23 00 07 04 3B 04 3B", "02 00 03", "23 00 04 3B", ZAMIATHEN_DONE, 0},
    {"23 00 06 03 01 05 03 01", "02 00 04", "23 00 02", ZAMIATHEN_DONE, 0},
    {"23 00 07 01 08 11 00 01", "02 00 05", "23 00 01", ZAMIATHEN_DONE, 0},
    {"23 00 06 01 08 11 00 01", "02 00 06", "23 00 08 11 00 01", ZAMIATHEN_DONE, 0},
    {"25 27 27 23 00 01 21 01 01", "01 00 07", "25 23 00 01 21 01 01", ZAMIATHEN_DONE, 0},
    {"26 23 00 01 23 00 01", "00 00 08", "23 00 01", ZAMIATHEN_DONE, 0},
    {"21 02 06 05 05 03 01 03 01", "03 00 01 02 00 02", "21 02 03 01", ZAMIATHEN_DONE, 0},
    {"", "FF", "FF", ZAMIATHEN_BOOK_ENDS, 0},
    {"23 00 05", "FF", "FF", ZAMIATHEN_BOOK_ENDS, 3},
    {"30", "FF", "FF", ZAMIATHEN_BOOK_CODE, 0},
    {"23 3C 01", "FF", "FF", ZAMIATHEN_BOOK_NUMBER, 1},
    {"23 00 0A 00 11 00 01", "FF", "FF", ZAMIATHEN_BOOK_NUMBER, 3},
    {"23 00 01 23 00 01", "FF", "FF", ZAMIATHEN_BOOK_RULES, 3},
    {"23 00 05 05 03 01", "02", "FF", STEP_UNFIT, 0},
    {"23 00 05 05 03 01", "02 00 01 02 00", "23 00 03 01", STEP_UNFIT, 1},
    {"23 00 05 05 03 01", "02 00 00", "FF", STEP_UNFIT, 0},
    {"23 00 05 05 03 01", "02 00 09", "FF", STEP_UNFIT, 0},
    {"23 00 05 05 03 01", "03 00 01", "FF", STEP_UNFIT, 0},
    {"23 00 05 05 03 01", "02 01 01", "FF", STEP_UNFIT, 0},
    {"23 00 06 03 01 03 02", "02 00 02", "FF", STEP_UNFIT, 0},
    {"23 00 06 03 01 05 03 02", "02 00 04", "FF", STEP_UNFIT, 0},
    {"23 05 0B 05 11 05 05 03 01", "05 00 01", "FF", STEP_UNFIT, 0},
    {"23 00 05 05 03 01", "02 00 01", "", OTHER_TEXT, 0},
    {"23 00 05 05 03 01", "02 00 01", "23 00 03", OTHER_TEXT, 3},
    {"23 00 05 05 03 01", "02 00 01", "23 00 03 01 01", OTHER_TEXT, 4},
    {"23 00 05 05 03 01", "02 00 01", "23 00 04 01", OTHER_TEXT, 2},
};

static void steps_of_a_tool(void) {
    static struct text rule, steps, sent, before[3];
    static uint8_t deep[ZAMIATHEN_CARRIED_BYTES + 1];
    for (size_t i = 0; i < sizeof checked_steps / sizeof *checked_steps; i++) {
        rule.length = steps.length = sent.length = 0;
        put(&rule, checked_steps[i].rule);
        put(&steps, checked_steps[i].steps);
        put(&sent, checked_steps[i].sent);
        before[0] = rule;
        before[1] = steps;
        before[2] = sent;
        answered(checked_steps[i].rule,
                 zamiathen_check_steps(rule.bytes, rule.length, steps.bytes, steps.length, sent.bytes, sent.length),
                 checked_steps[i].number, checked_steps[i].place);
        same(checked_steps[i].rule, memcmp(&before[0], &rule, sizeof rule) == 0 &&
                                        memcmp(&before[1], &steps, sizeof steps) == 0 &&
                                        memcmp(&before[2], &sent, sizeof sent) == 0);
    }
    answered("nothing", zamiathen_check_steps(NULL, 0, NULL, 0, NULL, 0), ZAMIATHEN_BOOK_ENDS, 0);
    memset(deep, 0x05, sizeof deep);
    deep[0] = 0x23;
    deep[1] = 0x00;
    deep[255] = 0x01;
    answered("255 levels", zamiathen_check_steps(deep, 256, NULL, 0, deep, 256), ZAMIATHEN_DONE, 0);
    deep[255] = 0x05;
    answered("256 levels", zamiathen_check_steps(deep, 257, NULL, 0, deep, 257), ZAMIATHEN_BOOK_LEVEL, 256);
    answered("16,385 bytes", zamiathen_check_steps(deep, sizeof deep, NULL, 0, NULL, 0), ZAMIATHEN_BOOK_LENGTH, 0);
}

/* n, book and edit, with the answer: number, place, kept before and after, kept then broken, broken then kept, broken
 * twice. */
_Static_assert(ZAMIATHEN_SMALL_SHEETS == 61, "document 02");
static const struct {
    size_t n;
    const char *book, *edit;
    size_t numbers[6];
} counted[] = {
    {1, "21 01 03 00", "30", {0, 0, 2, 0, 0, 2}},
    {1, "", "30", {0, 0, 4, 0, 0, 0}},
    {2, "21 01 03 00", "30", {0, 0, 16, 0, 0, 48}},
    {2, "21 01 03 00", "31 00 01 30", {0, 0, 16, 0, 48, 0}},
    {2, "21 01 03 00", "32 00 04 01 30", {0, 0, 0, 16, 0, 48}},
    {3, "24 00 02 11 00", "34 00 17 00 02 30", {0, 0, 0, 2048, 0, 2048}},
    {3, "23 00 03 00", "35 23 00 03 00 32 00 01 30 31 00 01 30 30", {0, 0, 0, 2048, 2048, 0}},
    {0, "FF", "FF", {ZAMIATHEN_SMALL_SHEETS}},
    {4, "FF", "FF", {ZAMIATHEN_SMALL_SHEETS}},
    {256 + 1, "", "30", {ZAMIATHEN_SMALL_SHEETS}},
    {SIZE_MAX, "", "30", {ZAMIATHEN_SMALL_SHEETS}},
    {1, "21 03 01 01 21", "FF", {ZAMIATHEN_BOOK_ENDS, 5}},
    {1, "23 01 03 01", "FF", {ZAMIATHEN_BOOK_NUMBER, 1}},
    {2, "21 03 01 01", "FF", {ZAMIATHEN_EDIT_CODE, 0}},
    {2, "21 03 01 01", "30 30", {ZAMIATHEN_EDIT_MORE, 1}},
    {2, "21 03 01 01", "30", {ZAMIATHEN_SMALL_SHEETS}},
    {3, "22 11 01 11 00", "30", {ZAMIATHEN_SMALL_SHEETS}},
    {3, "", "35 21 01 01 30 32 2F 01 30 30", {ZAMIATHEN_SMALL_SHEETS}},
};

static void counts(void) {
    static struct text book, edit;
    size_t numbers[6];
    for (size_t i = 0; i < sizeof counted / sizeof *counted; i++) {
        book.length = edit.length = 0;
        put(&book, counted[i].book);
        put(&edit, counted[i].edit);
        zamiathen_counts found = zamiathen_count(counted[i].n, book.bytes, book.length, edit.bytes, edit.length);
        _Static_assert(sizeof found == sizeof numbers, "six numbers");
        memcpy(numbers, &found, sizeof numbers);
        same(counted[i].book, memcmp(numbers, counted[i].numbers, sizeof numbers) == 0);
    }
}

/* Games on a blank sheet of two nodes: the edits' texts one after the other, the dispatcher's first, their lengths, and
 * the answer: number, place, outcome (0 can't, 1 an edit, 2 a pass, 3 after a refusal), the edit. GIVE gives node 0 label 0. */
#define GIVE "31 00 04 00 30 "
#define TAKE_IT "32 00 04 00 30 "
#define LABELLED "23 00 03 00"
#define DOUBLED "31 00 03 00 31 00 03 00 31 00 03 00 31 00 03 00 31 00 03 00 "
#define DOUBLING DOUBLED DOUBLED DOUBLED "30 "
#define REFUSED ZAMIATHEN_PLAY_REFUSED
_Static_assert(ZAMIATHEN_GAME_RANGE == 62, "document 02");
static const struct {
    const char *book, *goal, *edits;
    size_t lengths[9], count, dispatchers, moves, numbers[4];
} games[] = {
    {"", LABELLED, GIVE TAKE_IT, {5, 5}, 2, 1, 1, {0, 0, 1, 0}},
    {"", LABELLED, GIVE TAKE_IT, {5, 5}, 2, 1, 2, {0, 0, 0, 0}},
    {"", LABELLED, GIVE "30 " TAKE_IT, {5, 1, 5}, 3, 1, 2, {0, 0, 0, 0}},
    {"", LABELLED, "30 " GIVE TAKE_IT, {1, 5, 5}, 3, 2, 3, {0, 0, 1, 0}},
    {"", LABELLED, "30 " GIVE TAKE_IT, {1, 5, 5}, 3, 2, 1, {0, 0, 1, 1}},
    {"", LABELLED, "30 " GIVE, {1, 5}, 2, 2, 2, {0, 0, 1, 1}},
    {"21 03 00 02", "21 01 01", GIVE, {5}, 1, 1, 1, {0, 0, 2, 0}},
    {"21 03 00 02", LABELLED, GIVE GIVE, {5, 5}, 2, 1, 2, {0, 0, 2, 0}},
    {"", "27 " LABELLED, GIVE, {5}, 1, 1, 1, {0, 0, 0, 0}},
    {"21 03 00 02", LABELLED, "30 " GIVE, {1, 5}, 2, 1, 3, {0, 0, 1, 0}},
    {"21 03 00 02", LABELLED, TAKE_IT GIVE, {5, 5}, 2, 1, 3, {0, 0, 0, 0}},
    {"", LABELLED, "30 30 30 " GIVE "30 30 30 30", {1, 1, 1, 5, 1, 1, 1, 1}, 8, 4, 6, {0, 0, 1, 0}},
    {"FF", "", "FF", {1}, 1, 0, 1, {ZAMIATHEN_GAME_RANGE, 0, REFUSED, 0}},
    {"FF", "", "FF", {1}, 1, 1, 0, {ZAMIATHEN_GAME_RANGE, 0, REFUSED, 0}},
    {"FF", "", "FF", {1}, 1, 1, 7, {ZAMIATHEN_GAME_RANGE, 0, REFUSED, 0}},
    {"FF", "", "FF", {1, 1, 1, 1, 1}, 5, 5, 1, {ZAMIATHEN_GAME_RANGE, 0, REFUSED, 0}},
    {"FF", "", "FF", {1, 1, 1, 1, 1, 1}, 6, 1, 1, {ZAMIATHEN_GAME_RANGE, 0, REFUSED, 0}},
    {"FF", "", "FF", {1}, 1, 1, 1, {ZAMIATHEN_BOOK_CODE, 0, REFUSED, 0}},
    {"", "", "FF", {1}, 1, 1, 1, {ZAMIATHEN_BOOK_ENDS, 0, REFUSED, 0}},
    {"", "23 02 01", "FF", {1}, 1, 1, 1, {ZAMIATHEN_BOOK_NUMBER, 1, REFUSED, 0}},
    {"", LABELLED " 21", "FF", {1}, 1, 1, 1, {ZAMIATHEN_BOOK_RULES, 4, REFUSED, 0}},
    {"", LABELLED, "30 30 30 FF", {1, 2, 1}, 3, 2, 1, {ZAMIATHEN_EDIT_MORE, 1, REFUSED, 1}},
    {"", LABELLED, "30 FF", {1, 1}, 2, 1, 1, {ZAMIATHEN_EDIT_CODE, 0, REFUSED, 1}},
    {"", LABELLED, "30 30 31 00", {1, 1, 2}, 3, 2, 1, {ZAMIATHEN_EDIT_ENDS, 2, REFUSED, 2}},
    {LABELLED, LABELLED, "30 " DOUBLING "30", {1, 61, 1}, 3, 2, 1, {ZAMIATHEN_CARRIED_LENGTH, 0, REFUSED, 1}},
    {"FF", "", "30 31 00", {1, 1}, 2, 2, 1, {ZAMIATHEN_GAME_RANGE, 0, REFUSED, 0}},
    {"FF", "", "30 31 00", {1, 3}, 2, 2, 1, {ZAMIATHEN_GAME_RANGE, 0, REFUSED, 0}},
    {"FF", "", "30 31 00", {1, SIZE_MAX}, 2, 2, 1, {ZAMIATHEN_GAME_RANGE, 0, REFUSED, 0}},
    {"FF", "", "30 31 00", {SIZE_MAX, 4}, 2, 2, 1, {ZAMIATHEN_GAME_RANGE, 0, REFUSED, 0}},
    {"FF", "", "30 31 00", {3, SIZE_MAX, 1}, 3, 2, 1, {ZAMIATHEN_GAME_RANGE, 0, REFUSED, 0}},
};

static void played(size_t sheet_length, size_t i, const struct text *edits, const size_t *numbers) {
    static struct text book, goal;
    size_t found_numbers[4];
    book.length = goal.length = 0;
    put(&book, games[i].book);
    put(&goal, games[i].goal);
    __auto_type found =
        zamiathen_play(sheet, sheet_length, book.bytes, book.length, goal.bytes, goal.length, edits->bytes,
                       edits->length, games[i].lengths, games[i].count, games[i].dispatchers, games[i].moves);
    _Static_assert(sizeof found == sizeof found_numbers, "four numbers");
    memcpy(found_numbers, &found, sizeof found_numbers);
    same(games[i].edits, memcmp(found_numbers, numbers, sizeof found_numbers) == 0);
    left_alone(games[i].edits);
}

static void play(void) {
    static struct text edits;
    start();
    answered("blank", zamiathen_blank(sheet, whole, 2), ZAMIATHEN_DONE, 0);
    memcpy(kept, sheet, whole);
    for (size_t i = 0; i < sizeof games / sizeof *games; i++) {
        edits.length = 0;
        put(&edits, games[i].edits);
        played(whole, i, &edits, games[i].numbers);
        const size_t number = games[i].numbers[0] == ZAMIATHEN_GAME_RANGE ? ZAMIATHEN_GAME_RANGE : ZAMIATHEN_SHEET_LENGTH;
        const size_t refused[4] = {number, 0, REFUSED, 0};
        played(whole - 1, i, &edits, refused);
    }
}

/* Who breaks a rule on sheet T: kind, nodes or pair; the rule that is carried back names who would break it after. */
static void witnessed(const char *rule, size_t number, size_t place, zamiathen_witnessed wanted) {
    struct text text = {.length = 0};
    start();
    put(&text, rule);
    zamiathen_witnessed found = zamiathen_witness(sheet, whole, text.bytes, text.length);
    answered(rule, (zamiathen_answer){found.number, found.place}, number, place);
    same(rule, found.kind == wanted.kind && found.first == wanted.first && found.second == wanted.second &&
                   found.nodes == wanted.nodes);
    left_alone(rule);
}

static void witnesses(void) {
    const zamiathen_witnessed none = {0};
    witnessed("21 03 00 01", 0, 0, none);
    witnessed("21 01 03 00", 0, 0, (zamiathen_witnessed){.kind = ZAMIATHEN_WITNESS_NODE, .first = 2, .nodes = 4});
    witnessed("21 01 03 01", 0, 0, (zamiathen_witnessed){.kind = ZAMIATHEN_WITNESS_NODE, .first = 0, .nodes = 3});
    witnessed("23 01 03 01", 0, 0, (zamiathen_witnessed){.kind = ZAMIATHEN_WITNESS_NODE, .first = 1, .nodes = 2});
    witnessed("22 11 00 17 00 02", 0, 0, (zamiathen_witnessed){.kind = ZAMIATHEN_WITNESS_PAIR, .first = 1, .second = 2});
    witnessed("24 02 00 11 00", 0, 0, (zamiathen_witnessed){.kind = ZAMIATHEN_WITNESS_PAIR, .first = 2, .second = 0});
    witnessed("27 21 03 00 01", 0, 0, (zamiathen_witnessed){.kind = ZAMIATHEN_WITNESS_UNNAMED});
    witnessed("25 23 02 03 00 23 00 03 01", 0, 0, (zamiathen_witnessed){.kind = 1, .first = 2, .nodes = 4});
    witnessed("25 23 02 03 01 23 00 03 01", 0, 0, (zamiathen_witnessed){.kind = 1, .first = 0, .nodes = 1});
    witnessed("26 23 02 03 00 23 00 03 01", 0, 0, (zamiathen_witnessed){.kind = 1, .first = 0, .nodes = 1});
    witnessed("21 01 02 FF FF", 0, 0, (zamiathen_witnessed){.kind = 1, .first = 0, .nodes = 7});
    witnessed("", 12, 0, none);
    witnessed("21 01", 12, 2, none);
    witnessed("31 01 01 30", 13, 0, none);
    witnessed("23 03 01", 15, 1, none);
    start();
    answered("witness on a short sheet", (zamiathen_answer){zamiathen_witness(sheet, whole - 1, NULL, 0).number, 0}, 1, 0);

    struct text book = {.length = 0}, edit = {.length = 0};
    put(&book, "23 00 03 00 21 03 01 04 02");
    put(&edit, "31 01 04 01 31 01 04 00 30");
    start();
    zamiathen_answer answer = zamiathen_enter(sheet, whole, book.bytes, book.length, edit.bytes, edit.length, scratch, room);
    zamiathen_witnessed found = zamiathen_witness(sheet, whole, scratch, room);
    answered("enter of two too many", answer, 41, 1);
    same("who would break the rule", found.number == 0 && found.kind == 1 && found.first == 0 && found.nodes == 3);
}

/* Sets of nodes on sheet T, the version, a sentence for each number, and an edit's blocks of a log. */
static void set_read(const char *what, zamiathen_node_set found, size_t number, size_t place, size_t count, uint64_t set) {
    answered(what, (zamiathen_answer){found.number, found.place}, number, place);
    same(what, found.count == count && found.set == set);
    left_alone(what);
}

static void node_sets(void) {
    start();
    set_read("nodes", zamiathen_nodes(sheet, whole), 0, 0, 3, 7);
    set_read("label 0", zamiathen_label_set(sheet, whole, 0), 0, 0, 2, 3);
    set_read("label 1", zamiathen_label_set(sheet, whole, 1), 0, 0, 1, 4);
    set_read("label 47", zamiathen_label_set(sheet, whole, 47), 0, 0, 0, 0);
    set_read("label 48", zamiathen_label_set(sheet, whole, 48), 7, 0, 0, 0);
    set_read("label 256", zamiathen_label_set(sheet, whole, 256), 7, 0, 0, 0);
    set_read("row 0 of arrow 0", zamiathen_row_set(sheet, whole, 0, 0), 0, 0, 1, 4);
    set_read("row 2 of arrow 0", zamiathen_row_set(sheet, whole, 0, 2), 0, 0, 0, 0);
    set_read("row 3 of arrow 0", zamiathen_row_set(sheet, whole, 0, 3), 7, 0, 0, 0);
    set_read("row 0 of arrow 16", zamiathen_row_set(sheet, whole, 16, 0), 7, 0, 0, 0);
    set_read("nodes of a short sheet", zamiathen_nodes(sheet, whole - 1), 1, 0, 0, 0);
    same("version", zamiathen_version() == ZAMIATHEN_VERSION);
}

static void texts(void) {
    const char *other = zamiathen_text(1000);
    static const size_t numbers[] = {0,  1,  2,  3,  4,  5,  7,  11, 12, 13, 14, 15, 16, 21, 22, 23, 24, 25,
                                     26, 31, 32, 33, 41, 51, 52, 53, 54, 55, 56, 57, 58, 59, 60, 61, 62, 63,
                                     64, 65, 66, 67, 68, 69, 70};
    for (size_t i = 0; i < sizeof numbers / sizeof *numbers; i++) {
        const char *text = zamiathen_text(numbers[i]);
        same("text of a number", strcmp(text, other) != 0 && text[strlen(text) - 1] == '.');
        for (size_t j = 0; j < i; j++)
            same("two texts", strcmp(text, zamiathen_text(numbers[j])) != 0);
    }
    same("text of no number", strcmp(zamiathen_text(6), other) == 0);
}

static void log_blocks(void) {
    uint8_t edit[ZAMIATHEN_TEXT_BYTES + 1], block[512] = {3, 3, 2, 0, 0x30, 0xFF};
    memset(edit, 0x30, sizeof edit);
    edit[1] = 0xFF;
    start();
    seal_block(block);
    measured("a log of two bytes", zamiathen_log_edit(edit, 2, scratch, room), 0, 0, 512);
    left("a log of two bytes", block, 512);
    start();
    measured("a log of no byte", zamiathen_log_edit(edit, 0, scratch, room), 22, 0, 0);
    measured("a log of too many", zamiathen_log_edit(edit, sizeof edit, scratch, room), 21, 0, 0);
    measured("a log without room", zamiathen_log_edit(edit, 505, scratch, 1023), 33, 1024, 0);
    left_alone("a log that is refused");
    measured("a log of 9 blocks", zamiathen_log_edit(edit, sizeof edit - 1, scratch, room), 0, 0, ZAMIATHEN_LOG_BYTES);
    same("the first block", scratch[0] == 3 && scratch[1] == 1 && scratch[2] == 0xF8 && scratch[3] == 1);
    same("the last block", scratch[8 * 512 + 1] == 2 && scratch[8 * 512 + 2] == 64 && scratch[8 * 512 + 4] == 0x30);
}

/* Words: a table of names, and texts from the station's files. */
static const char NAMES[] = "label 0 train label 1 closed # a comment\narrow 0 stands-at node 34 T34 node 2 08:15\n";

struct words {
    uint8_t bytes[ZAMIATHEN_EDIT_WORDS_BYTES]; /* of the longest edit, which has more than the longest book */
    size_t length;
};
static struct words names, words;

static void words_of(struct words *into, const struct fault *fault) {
    into->length = (size_t)sprintf((char *)into->bytes, "%s", fault->head);
    for (size_t i = 0; i < fault->times; i++)
        into->length += (size_t)sprintf((char *)into->bytes + into->length, "%s", fault->middle);
    into->length += (size_t)sprintf((char *)into->bytes + into->length, "%s", fault->tail);
}

static void load(const char *path, uint8_t *bytes, size_t most, size_t *length) {
    FILE *file = fopen(path, "rb");
    *length = file == NULL ? 0 : fread(bytes, 1, most, file);
    same(path, *length > 0);
    if (file != NULL)
        fclose(file);
}

/* A call that turns words into codes, or codes into words. */
typedef zamiathen_length turning(const uint8_t *, size_t, const uint8_t *, size_t, uint8_t *, size_t);

/* A text of the station: its words are its bytes, and what is printed of these is read back, with just enough room. */
static void there_and_back(const char *path, turning *from_words, turning *to_words) {
    static uint8_t printed[ZAMIATHEN_EDIT_WORDS_BYTES];
    struct text codes;
    char file[64];
    snprintf(file, sizeof file, "%s.bin", path);
    load(file, codes.bytes, sizeof codes.bytes, &codes.length);
    snprintf(file, sizeof file, "%s.words", path);
    load(file, words.bytes, sizeof words.bytes, &words.length);
    start();
    measured(file, from_words(names.bytes, names.length, words.bytes, words.length, scratch, room), 0, 0, codes.length);
    left(file, codes.bytes, codes.length);
    memset(printed, FILL, sizeof printed);
    zamiathen_length found = to_words(names.bytes, names.length, codes.bytes, codes.length, printed, sizeof printed);
    measured(path, found, 0, 0, found.length);
    same(path, found.length > 0 && all(printed + found.length, sizeof printed - found.length, FILL));
    start();
    measured(path, from_words(names.bytes, names.length, printed, found.length, scratch, codes.length), 0, 0, codes.length);
    left(path, codes.bytes, codes.length);
    start();
    measured(path, from_words(names.bytes, names.length, printed, found.length, scratch, codes.length - 1), 33, codes.length, 0);
    measured(path, to_words(names.bytes, names.length, codes.bytes, codes.length, scratch, found.length - 1), 33, found.length, 0);
    left_alone(path);
    measured(path, to_words(names.bytes, names.length, codes.bytes, codes.length, scratch, found.length), 0, 0, found.length);
    left(path, printed, found.length);
}

/* Where a rule stands in the words of the station's book: there its line begins. */
static void stands(size_t rule, const char *line) {
    const size_t place = zamiathen_rule_in_words(names.bytes, names.length, words.bytes, words.length, rule);
    same(line, place < words.length && strncmp((const char *)words.bytes + place, line, strlen(line)) == 0);
}

static void station_words(void) {
    static const char first[] = "each(some(stands-at, all), train)\n";
    struct text book;
    load("examples/station/station.names", names.bytes, sizeof names.bytes, &names.length);
    answered("the station's names", zamiathen_check_names(names.bytes, names.length), 0, 0);
    there_and_back("examples/station/move", zamiathen_edit_from_words, zamiathen_edit_to_words);
    there_and_back("examples/station/book", zamiathen_book_from_words, zamiathen_book_to_words);
    stands(0, "each(some(stands-at, all), train)\n\n# whatever");
    stands(4, "and(each(berth, and(");
    stands(9, "each(and(berth, some(");
    same("rule 10", zamiathen_rule_in_words(names.bytes, names.length, words.bytes, words.length, 10) == words.length);
    same("no names", zamiathen_rule_in_words(words.bytes, words.length, words.bytes, words.length, 0) == words.length);
    load("examples/station/book.bin", book.bytes, sizeof book.bytes, &book.length);
    start();
    measured("the first rule", zamiathen_rule_to_words(names.bytes, names.length, book.bytes, book.length, scratch, room), 0, 0,
             sizeof first - 1);
    left("the first rule", (const uint8_t *)first, sizeof first - 1);
}

static const struct fault names_faults[] = {
    {63, 0, "train 0", 0, "", ""},
    {63, 5, "label", 0, "", ""},
    {63, 7, "label 0", 0, "", ""},
    {63, 6, "label 48 train", 0, "", ""},
    {63, 6, "arrow 01 next", 0, "", ""},
    {63, 8, "label 0 every", 0, "", ""},
    {63, 7, "node 0 node:1", 0, "", ""},
    {63, 7, "node 0 ", 65, "n", ""},
    {63, 22, "label 0 train\nlabel 1 train", 0, "", ""},
    {63, 20, "label 0 train\nlabel 0 crew", 0, "", ""},
    {63, 19, "label 0 train\nnode 60 T60", 0, "", ""},
};
static const struct fault book_words_faults[] = {
    {64, 5, "each(", 0, "", ""},
    {64, 20, "each(train # , all)\n", 0, "", ""},
    {65, 0, "train", 0, "", ""},
    {65, 5, "each(stands-at, all)", 0, "", ""},
    {65, 5, "each(label:0, all)", 0, "", ""},
    {65, 14, "each(all, all))", 0, "", ""},
    {66, 5, "each all", 0, "", ""},
    {67, 3, "is(train, all)", 0, "", ""},
    {67, 19, "each(all, at-least(61, stands-at, all))", 0, "", ""},
    {68, 8 + 4 * 31, "is(T34, ", 31, "not(", "all"},
    {69, 13 * 32, "", 33, "each(all,all)", ""},
};
static const struct fault edit_words_faults[] = {
    {64, 23, "if(each(all, all)) else", 0, "", ""},
    {65, 0, "end", 0, "", ""},
    {65, 19, "if(each(all, all)) end", 0, "", ""},
    {66, 10, "mark(train)", 0, "", ""},
    {67, 5, "mark(stands-at, all)", 0, "", ""},
    {68, 12 + 4 * 31, "mark(train, ", 31, "not(", "all"},
    {70, 4099, "", 1366, "mark(train,all)", ""},
    {70, 4099, "# no room\n", 1366, "mark(train,all)", ""},
};

/* Each fault, with room and without, and a wrong table before it. Nothing is written. */
static void misspelled(const struct fault *faults, size_t count, turning *from_words) {
    start();
    for (size_t i = 0; i < count; i++) {
        words_of(&words, &faults[i]);
        const char *what = faults[i].times > 0 ? faults[i].middle : faults[i].head;
        measured(what, from_words((const uint8_t *)NAMES, sizeof NAMES - 1, words.bytes, words.length, scratch, room),
                 faults[i].number, faults[i].place, 0);
        measured(what, from_words((const uint8_t *)NAMES, sizeof NAMES - 1, words.bytes, words.length, NULL, 0),
                 faults[i].number, faults[i].place, 0);
        measured(what, from_words((const uint8_t *)NAMES, 5, words.bytes, words.length, scratch, room), 63, 5, 0);
        left_alone(what);
    }
}

static void refused_words(void) {
    static turning *const turnings[] = {zamiathen_book_to_words, zamiathen_edit_to_words, zamiathen_rule_to_words,
                                        zamiathen_book_from_words, zamiathen_edit_from_words};
    start();
    for (size_t i = 0; i < sizeof names_faults / sizeof *names_faults; i++) {
        words_of(&names, &names_faults[i]);
        answered(names_faults[i].head, zamiathen_check_names(names.bytes, names.length), 63, names_faults[i].place);
        for (size_t j = 0; j < sizeof turnings / sizeof *turnings; j++)
            measured(names_faults[i].head, turnings[j](names.bytes, names.length, END, 1, scratch, room), 63,
                     names_faults[i].place, 0);
        left_alone(names_faults[i].head);
    }
    misspelled(book_words_faults, sizeof book_words_faults / sizeof *book_words_faults, zamiathen_book_from_words);
    misspelled(edit_words_faults, sizeof edit_words_faults / sizeof *edit_words_faults, zamiathen_edit_from_words);
}

/* The codes that are refused when they are printed: as books, as edits, and as the first rule of a text. */
static void refused_codes(void) {
    start();
    for (size_t i = 0; i < sizeof book_faults / sizeof *book_faults; i++) {
        const struct text *text = text_of(&book_faults[i]);
        measured("book to words", zamiathen_book_to_words(NULL, 0, text->bytes, text->length, scratch, room),
                 book_faults[i].number, book_faults[i].place, 0);
    }
    for (size_t i = 0; i < sizeof edit_faults / sizeof *edit_faults; i++) {
        const struct text *text = text_of(&edit_faults[i]);
        measured("edit to words", zamiathen_edit_to_words(NULL, 0, text->bytes, text->length, scratch, room),
                 edit_faults[i].number, edit_faults[i].place, 0);
    }
    const struct fault deep = {14, 255, "", 255, "27", "21 01 01"}, cut = {12, 2, "21 01", 0, "", ""};
    const struct fault code = {13, 2, "21 01 21", 0, "", ""}, number = {15, 1, "23 3C", 0, "", ""};
    const struct fault *const rules[] = {&deep, &cut, &code, &number};
    for (size_t i = 0; i < sizeof rules / sizeof *rules; i++) {
        const struct text *text = text_of(rules[i]);
        measured("rule to words", zamiathen_rule_to_words(NULL, 0, text->bytes, text->length, scratch, room),
                 rules[i]->number, rules[i]->place, 0);
    }
    left_alone("refused codes");
}

/* Nothing at all: no names, no words, no room. */
static void no_words(void) {
    static const uint8_t rule[] = {0x21, 0x01, 0x01};
    start();
    answered("no names", zamiathen_check_names(NULL, 0), 0, 0);
    measured("no book", zamiathen_book_to_words(NULL, 0, NULL, 0, NULL, 0), 0, 0, 0);
    measured("no book", zamiathen_book_from_words(NULL, 0, NULL, 0, NULL, 0), 0, 0, 0);
    measured("no edit", zamiathen_edit_to_words(NULL, 0, NULL, 0, NULL, 0), ZAMIATHEN_EDIT_ENDS, 0, 0);
    measured("the end alone", zamiathen_edit_to_words(NULL, 0, END, 1, NULL, 0), 0, 0, 0);
    measured("no room for the end", zamiathen_edit_from_words(NULL, 0, NULL, 0, NULL, 0), ZAMIATHEN_ROOM, 1, 0);
    measured("no rule", zamiathen_rule_to_words(NULL, 0, NULL, 0, NULL, 0), ZAMIATHEN_BOOK_ENDS, 0, 0);
    measured("no room for a rule", zamiathen_rule_to_words(NULL, 0, rule, sizeof rule, NULL, 0), ZAMIATHEN_ROOM, 15, 0);
    same("no words", zamiathen_rule_in_words(NULL, 0, NULL, 0, 0) == 0);
    left_alone("no words");
    measured("the end alone", zamiathen_edit_from_words(NULL, 0, NULL, 0, scratch, room), 0, 0, 1);
    left("the end alone", END, 1);
    same("sizes", ZAMIATHEN_BOOK_WORDS_BYTES < ZAMIATHEN_EDIT_WORDS_BYTES && ZAMIATHEN_EDIT_WORDS_BYTES < ZAMIATHEN_RULE_WORDS_BYTES);
}

int main(void) {
    examples();
    changes();
    blanks();
    bits();
    rules();
    pages();
    refused_sheets();
    checks();
    nodes_in_use();
    cards(&forms[0]);
    cards(&forms[1]);
    card_sum_of_zero();
    refused_books();
    rewritten();
    refused_edits();
    refused_sizes();
    node_3();
    closing();
    taken_nodes();
    plans();
    refused_plans();
    joining();
    refused_joins();
    joined_edits();
    refused_chains();
    one_by_one();
    steps_of_a_tool();
    counts();
    play();
    witnesses();
    node_sets();
    texts();
    log_blocks();
    station_words();
    refused_words();
    refused_codes();
    no_words();
    empty_buffers();
    printf("%d passed, %d failed\n", passed, failed);
    return failed != 0;
}
