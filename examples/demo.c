/* The calls of zamiathen.h on the example station, as a planning suite would make them: words are read, a sheet is judged, edits
 * are entered or refused, a platform is closed, plans are kept and returned to, a game is decided.
 *
 *   demo DIRECTORY      the directory with station.names, the sheets, and the book, the goal and the edits in words
 */
#include "zamiathen.h"

#include <stdio.h>
#include <stdlib.h>
#include <string.h>

struct text {
    uint8_t bytes[ZAMIATHEN_TEXT_BYTES];
    size_t length;
};
typedef zamiathen_length read_words(const uint8_t *, size_t, const uint8_t *, size_t, uint8_t *, size_t);

static const char *directory;
static uint8_t names[16384], sheet[ZAMIATHEN_SHEET_BYTES], scratch[ZAMIATHEN_CARRIED_BYTES], store[ZAMIATHEN_STORE_BYTES];
static size_t names_length, sheet_length;
static struct text book;

/* Reads a whole file, and stops where it has more bytes than there is room for. */
static size_t load(const char *name, uint8_t *bytes, size_t room) {
    char path[1024];
    snprintf(path, sizeof path, "%s/%s", directory, name);
    FILE *file = fopen(path, "rb");
    if (file == NULL) {
        perror(path);
        exit(2);
    }
    size_t length = fread(bytes, 1, room, file);
    if (fgetc(file) != EOF || ferror(file)) {
        fprintf(stderr, "%s cannot be read, or has more than %zu bytes\n", path, room);
        exit(2);
    }
    fclose(file);
    return length;
}

static void print_answer(const char *call, const char *of, size_t number, size_t place) {
    printf("%s %s: %zu, place %zu. %s\n", call, of, number, place, zamiathen_text(number));
}

/* Reads a file of words into codes. */
static struct text from_words(read_words *call, const char *name) {
    static uint8_t words[16384];
    struct text text;
    zamiathen_length read = call(names, names_length, words, load(name, words, sizeof words), text.bytes, sizeof text.bytes);
    if (read.number != ZAMIATHEN_DONE) {
        print_answer("read", name, read.number, read.place);
        exit(1);
    }
    text.length = read.length;
    return text;
}

/* The first rule of some codes in words, without the line end. */
static const char *in_words(const uint8_t *rule, size_t length) {
    static uint8_t words[ZAMIATHEN_RULE_WORDS_BYTES + 1];
    zamiathen_length printed = zamiathen_rule_to_words(names, names_length, rule, length, words, sizeof words - 1);
    words[printed.length > 0 ? printed.length - 1 : 0] = 0;
    return (char *)words;
}

/* A node's name, from the words of a rule that names it: is(NAME, all). */
static const char *node_name(size_t node) {
    static char name[128];
    sscanf(in_words((const uint8_t[]){0x23, (uint8_t)node, 0x01}, 3), "is(%127[^,]", name);
    return name;
}

/* The broken rule, and who breaks it on the sheet; for a carried rule, who would break the rule after the edit. */
static void print_broken(size_t rule, const uint8_t *judged, size_t length) {
    size_t start = zamiathen_rule_start(book.bytes, book.length, ZAMIATHEN_MAX_NODES, rule);
    zamiathen_witnessed who = zamiathen_witness(sheet, sheet_length, judged, length);
    printf("  %s\n", in_words(book.bytes + start, book.length - start));
    if (who.kind == ZAMIATHEN_WITNESS_NODE || who.kind == ZAMIATHEN_WITNESS_PAIR)
        printf("  broken by %s", node_name(who.first));
    if (who.kind == ZAMIATHEN_WITNESS_PAIR)
        printf(" and %s", node_name(who.second));
    if (who.kind == ZAMIATHEN_WITNESS_UNNAMED)
        printf("  nobody is named");
    printf("\n");
}

static void judge(const char *name) {
    sheet_length = load(name, sheet, sizeof sheet);
    zamiathen_judged answer = zamiathen_judge(sheet, sheet_length, book.bytes, book.length);
    print_answer("judge", name, answer.number, answer.place);
    if (answer.number == ZAMIATHEN_RULE_BROKEN)
        print_broken(answer.place, book.bytes + answer.start, answer.length);
}

/* After a 41 the broken rule, carried back through the edit, is at the start of the scratch. */
static void enter(const char *name) {
    struct text edit = from_words(zamiathen_edit_from_words, name);
    zamiathen_answer answer =
        zamiathen_enter(sheet, sheet_length, book.bytes, book.length, edit.bytes, edit.length, scratch, sizeof scratch);
    print_answer("enter", name, answer.number, answer.place);
    if (answer.number == ZAMIATHEN_RULE_BROKEN) {
        print_broken(answer.place, scratch, sizeof scratch);
        printf("  the condition that fails: %s\n", in_words(scratch, sizeof scratch));
    }
}

static void close_node(size_t node) {
    zamiathen_answer answer = zamiathen_close(sheet, sheet_length, book.bytes, book.length, node);
    print_answer("close", node_name(node), answer.number, answer.place);
}

/* Can the dispatcher, who has the first two edits, keep T34 at an open berth against every move of the disruption? */
static void play(size_t moves) {
    const char *files[4] = {"move_back.words", "move.words", "fault_s1.words", "fault_s2.words"};
    struct text goal = from_words(zamiathen_book_from_words, "goal.words");
    uint8_t edits[4 * ZAMIATHEN_TEXT_BYTES];
    size_t lengths[4], end = 0;
    for (size_t i = 0; i < 4; end += lengths[i++]) {
        struct text edit = from_words(zamiathen_edit_from_words, files[i]);
        memcpy(edits + end, edit.bytes, lengths[i] = edit.length);
    }
    zamiathen_played played = zamiathen_play(sheet, sheet_length, book.bytes, book.length, goal.bytes, goal.length, edits, end,
                                             lengths, 4, 2, moves);
    if (played.outcome == ZAMIATHEN_PLAY_REFUSED)
        print_answer("play", played.number >= ZAMIATHEN_EDIT_LENGTH && played.number <= ZAMIATHEN_CARRIED_LEVELS ? files[played.edit]
                                                                                                               : "the game",
                     played.number, played.place);
    else
        printf("play %zu moves: %s\n", moves, played.outcome == ZAMIATHEN_PLAY_EDIT ? files[played.edit]
                                             : played.outcome == ZAMIATHEN_PLAY_PASS ? "pass" : "no win can be forced");
}

int main(int count, char **words) {
    if (count != 2)
        return fprintf(stderr, "usage: demo DIRECTORY\n"), 2;
    directory = words[1];
    names_length = load("station.names", names, sizeof names);
    book = from_words(zamiathen_book_from_words, "book.words");
    judge("clash.bin");
    enter("repair.words");
    judge("sheet.bin");
    enter("crowd.words");
    enter("one_way.words");
    close_node(58);
    enter("retire.words");
    close_node(58);
    zamiathen_store_blank(store, sizeof store);
    zamiathen_answer kept = zamiathen_keep(sheet, sheet_length, store, sizeof store, 1);
    print_answer("keep", "1", kept.number, kept.place);
    enter("swap.words");
    zamiathen_answer back = zamiathen_return(sheet, sheet_length, store, sizeof store, 1, book.bytes, book.length);
    print_answer("return", "1", back.number, back.place);
    play(3);
    play(4);
    return 0;
}
