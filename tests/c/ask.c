/* Asks the library, for tests in other languages. Takes a sheet's file; then reads calls from standard input, one a line, with
 * texts in hexadecimal and - for an empty one, and prints one line for each:
 *
 *   check SHEET         number and place
 *   convert_255 CARD    number, place and the card's bytes after the call
 *   convert_257 CARD    the same
 *   judge BOOK          number and place
 *   rewrite BOOK        number, place and the rewritten book
 *   carry BOOK EDIT     number, place and the carried book
 *   enter BOOK EDIT     number, place and the sheet's bytes after the call; each call begins with the sheet of the file
 *   close BOOK NODE     the same
 *   open BOOK NODE      the same
 *   page - ARROW        number, place and the page of an arrow kind
 *   book_words NAMES WORDS      number, place and the codes
 *   edit_words NAMES WORDS      the same
 *   steps RULE STEPS SENT       number and place
 *   play BOOK GOAL DISPATCHERS MOVES EDIT...    number, place, outcome and edit
 */
#include "zamiathen.h"

#include <stdio.h>
#include <stdlib.h>
#include <string.h>

enum { TEXT = ZAMIATHEN_SHEET_BYTES, LINE = 4 * TEXT };

struct text {
    uint8_t bytes[TEXT];
    size_t length;
};

static uint8_t sheet[ZAMIATHEN_SHEET_BYTES], entered[ZAMIATHEN_SHEET_BYTES], scratch[ZAMIATHEN_CARRIED_BYTES];

static int read_text(struct text *text, const char *word) {
    unsigned byte;
    text->length = 0;
    if (word == NULL)
        return 0;
    if (strcmp(word, "-") == 0)
        return 1;
    for (; sscanf(word, "%2x", &byte) == 1; word += 2) {
        if (text->length == TEXT || word[1] == 0)
            return 0;
        text->bytes[text->length++] = (uint8_t)byte;
    }
    return *word == 0;
}

static void print_bytes(const uint8_t *bytes, size_t length) {
    if (length == 0)
        printf("-");
    for (size_t i = 0; i < length; i++)
        printf("%02x", bytes[i]);
    printf("\n");
}

static int check(const char *word) {
    static struct text given;
    if (!read_text(&given, word))
        return 0;
    zamiathen_answer a = zamiathen_check(given.bytes, given.length);
    printf("%02zu %05zu\n", a.number, a.place);
    return 1;
}

static int convert(zamiathen_answer (*call)(uint8_t *, size_t), const char *word) {
    static struct text card;
    if (!read_text(&card, word))
        return 0;
    zamiathen_answer a = call(card.bytes, card.length);
    printf("%02zu %05zu ", a.number, a.place);
    print_bytes(card.bytes, card.length);
    return 1;
}

static int turn(zamiathen_answer (*call)(uint8_t *, size_t, const uint8_t *, size_t, size_t), const struct text *book,
                const char *word) {
    if (word == NULL)
        return 0;
    memcpy(entered, sheet, sizeof sheet);
    zamiathen_answer a = call(entered, sizeof entered, book->bytes, book->length, strtoul(word, NULL, 10));
    printf("%02zu %05zu ", a.number, a.place);
    print_bytes(entered, sizeof entered);
    return 1;
}

static int page(const char *word) {
    if (word == NULL)
        return 0;
    zamiathen_length p = zamiathen_print_arrow(sheet, sizeof sheet, strtoul(word, NULL, 10), scratch, sizeof scratch);
    printf("%02zu %05zu ", p.number, p.place);
    print_bytes(scratch, p.length);
    return 1;
}

static int words(zamiathen_length (*call)(const uint8_t *, size_t, const uint8_t *, size_t, uint8_t *, size_t),
                 const struct text *names, const struct text *given) {
    zamiathen_length r = call(names->bytes, names->length, given->bytes, given->length, scratch, sizeof scratch);
    printf("%02zu %05zu ", r.number, r.place);
    print_bytes(scratch, r.length);
    return 1;
}

static int steps(const struct text *rule, const struct text *steps) {
    static struct text sent;
    if (!read_text(&sent, strtok(NULL, " \n")))
        return 0;
    zamiathen_answer a =
        zamiathen_check_steps(rule->bytes, rule->length, steps->bytes, steps->length, sent.bytes, sent.length);
    printf("%02zu %05zu\n", a.number, a.place);
    return 1;
}

static int play(const struct text *book) {
    static struct text goal, edit;
    static uint8_t edits[LINE];
    size_t lengths[16], count = 0, end = 0;
    const char *word, *ours, *moves;
    if (!read_text(&goal, strtok(NULL, " \n")) || (ours = strtok(NULL, " \n")) == NULL || (moves = strtok(NULL, " \n")) == NULL)
        return 0;
    for (; (word = strtok(NULL, " \n")) != NULL; end += lengths[count++] = edit.length) {
        if (count == 16 || !read_text(&edit, word) || end + edit.length > sizeof edits)
            return 0;
        memcpy(edits + end, edit.bytes, edit.length);
    }
    zamiathen_played p = zamiathen_play(sheet, sizeof sheet, book->bytes, book->length, goal.bytes, goal.length, edits, end, lengths,
                                        count, strtoul(ours, NULL, 10), strtoul(moves, NULL, 10));
    printf("%02zu %05zu %zu %zu\n", p.number, p.place, p.outcome, p.edit);
    return 1;
}

static int call(char *line) {
    static struct text book, edit;
    const char *name = strtok(line, " \n");
    if (name != NULL && strcmp(name, "check") == 0)
        return check(strtok(NULL, " \n"));
    if (name != NULL && strcmp(name, "convert_255") == 0)
        return convert(zamiathen_convert_255, strtok(NULL, " \n"));
    if (name != NULL && strcmp(name, "convert_257") == 0)
        return convert(zamiathen_convert_257, strtok(NULL, " \n"));
    if (name == NULL || !read_text(&book, strtok(NULL, " \n")))
        return 0;
    if (strcmp(name, "judge") == 0) {
        zamiathen_judged j = zamiathen_judge(sheet, sizeof sheet, book.bytes, book.length);
        printf("%02zu %05zu\n", j.number, j.place);
        return 1;
    }
    if (strcmp(name, "rewrite") == 0) {
        zamiathen_length r = zamiathen_rewrite(book.bytes, book.length, scratch, sizeof scratch);
        printf("%02zu %05zu ", r.number, r.place);
        print_bytes(scratch, r.length);
        return 1;
    }
    if (strcmp(name, "page") == 0)
        return page(strtok(NULL, " \n"));
    if (strcmp(name, "close") == 0)
        return turn(zamiathen_close, &book, strtok(NULL, " \n"));
    if (strcmp(name, "open") == 0)
        return turn(zamiathen_open, &book, strtok(NULL, " \n"));
    if (strcmp(name, "play") == 0)
        return play(&book);
    if (!read_text(&edit, strtok(NULL, " \n")))
        return 0;
    if (strcmp(name, "book_words") == 0)
        return words(zamiathen_book_from_words, &book, &edit);
    if (strcmp(name, "edit_words") == 0)
        return words(zamiathen_edit_from_words, &book, &edit);
    if (strcmp(name, "steps") == 0)
        return steps(&book, &edit);
    if (strcmp(name, "carry") == 0) {
        zamiathen_length c =
            zamiathen_carry_back(book.bytes, book.length, edit.bytes, edit.length, scratch, sizeof scratch);
        printf("%02zu %05zu ", c.number, c.place);
        print_bytes(scratch, c.length);
        return 1;
    }
    if (strcmp(name, "enter") != 0)
        return 0;
    memcpy(entered, sheet, sizeof sheet);
    zamiathen_answer a = zamiathen_enter(entered, sizeof entered, book.bytes, book.length, edit.bytes, edit.length,
                                         scratch, sizeof scratch);
    printf("%02zu %05zu ", a.number, a.place);
    print_bytes(entered, sizeof entered);
    return 1;
}

int main(int count, char **words) {
    static char line[LINE];
    FILE *file = count == 2 ? fopen(words[1], "rb") : NULL;
    if (file == NULL || fread(sheet, 1, sizeof sheet, file) != sizeof sheet) {
        fprintf(stderr, "usage: ask SHEET\n");
        return 2;
    }
    while (fgets(line, sizeof line, stdin) != NULL)
        if (!call(line)) {
            fprintf(stderr, "not a call\n");
            return 2;
        }
    return 0;
}
