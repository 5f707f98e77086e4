/* How much stack zamiathen_enter and zamiathen_witness take on the deepest carried rules there can be, 255 levels,
 * zamiathen_play in games of six moves with edits and rules of 32 levels, and the calls with words: each call runs in a thread of its own, whose
 * stack was filled with a pattern before. Prints the bytes that no longer hold it, less those of a
 * thread that does nothing. They must not pass ZAMIATHEN_STACK_BYTES. */
#include "zamiathen.h"

#include <pthread.h>
#include <stdio.h>
#include <stdlib.h>
#include <string.h>

enum { ROOM = 4 << 20, PATTERN = 0xA5 };

struct text {
    uint8_t bytes[ZAMIATHEN_TEXT_BYTES];
    size_t length;
};

static uint8_t sheet[ZAMIATHEN_SHEET_BYTES], scratch[ZAMIATHEN_CARRIED_BYTES];
static struct text book, edit;
static zamiathen_answer answer;
static int passed, failed;

static void *enter(void *unused) {
    answer = zamiathen_enter(sheet, sizeof sheet, book.bytes, book.length, edit.bytes, edit.length, scratch,
                             sizeof scratch);
    return unused;
}

static void *nothing(void *unused) {
    return unused;
}

static size_t changed_stack(void *(*run)(void *)) {
    pthread_t thread;
    pthread_attr_t attributes;
    uint8_t *stack = aligned_alloc(4096, ROOM);
    size_t untouched = 0;
    memset(stack, PATTERN, ROOM);
    pthread_attr_init(&attributes);
    if (pthread_attr_setstack(&attributes, stack, ROOM) != 0 || pthread_create(&thread, &attributes, run, NULL) != 0) {
        fprintf(stderr, "no thread\n");
        exit(1);
    }
    pthread_join(thread, NULL);
    while (untouched < ROOM && stack[untouched] == PATTERN)
        untouched++;
    free(stack);
    return ROOM - untouched;
}

/* A thread made with ZAMIATHEN_THREAD_BYTES has room for the call, and for frames of its own. */
static void *enter_below_frames(void *unused) {
    volatile uint8_t frame[65536];
    frame[0] = frame[sizeof frame - 1] = 0;
    return enter(unused);
}

static int thread_has_room(void) {
    pthread_t thread;
    pthread_attr_t attributes;
    pthread_attr_init(&attributes);
    return pthread_attr_setstacksize(&attributes, ZAMIATHEN_THREAD_BYTES) == 0 &&
           pthread_create(&thread, &attributes, enter_below_frames, NULL) == 0 && pthread_join(thread, NULL) == 0;
}

static void put(struct text *text, const char *hex) {
    for (unsigned byte; sscanf(hex, "%2x", &byte) == 1; hex += strlen(hex) > 2 ? 3 : 2)
        text->bytes[text->length++] = (uint8_t)byte;
}

static void put_number(struct text *text, size_t number) {
    text->bytes[text->length++] = (uint8_t)number;
}

static void put_many(struct text *text, const char *hex, size_t times) {
    while (times-- > 0)
        put(text, hex);
}

static void report(const char *what) {
    size_t bytes = changed_stack(enter) - changed_stack(nothing);
    printf("%-52s %02zu %05zu %8zu\n", what, answer.number, answer.place, bytes);
    int judged = answer.number == ZAMIATHEN_DONE || answer.number == ZAMIATHEN_RULE_BROKEN;
    if (judged && bytes <= ZAMIATHEN_STACK_BYTES && thread_has_room())
        passed++;
    else
        failed++;
}

/* The name 0 in a rule, carried through steps that put a chain of codes on it, ending in the next name: each step of 30
 * codes makes the rule 31 levels deeper. The last step is carried first. `step` and `name` are the codes of a step and of a
 * name; a chain has `open` before the name and `close` after it as often as 30 codes take, `levels` of them each time. */
static void chain(const char *what, const char *rule, const char *step, const char *name, const char *open,
                  const char *close, size_t levels) {
    size_t wanted = 255 - 2;
    book.length = edit.length = 0;
    put(&book, rule);
    for (size_t number = wanted / 31 + 1; number-- > 0;) {
        size_t depth = number == wanted / 31 ? wanted % 31 - 1 : 30;
        put(&edit, step);
        put_number(&edit, number);
        put_many(&edit, open, depth / levels);
        put(&edit, name);
        put_number(&edit, number + 1);
        put_many(&edit, close, depth / levels);
    }
    put(&edit, "30");
    report(what);
}

/* Branches inside one another, in their first way or their second. */
static void branches(const char *what, const char *open, const char *close) {
    book.length = edit.length = 0;
    put(&book, "21 03 00 01");
    put_many(&edit, open, 30);
    put(&edit, "30");
    put_many(&edit, close, 30);
    report(what);
}

/* The witness of a rule of 255 levels: 25s or 26s, or an expression, down to the last. */
static zamiathen_witnessed found;
static size_t rule_length;

static void *witness(void *unused) {
    found = zamiathen_witness(sheet, sizeof sheet, scratch, rule_length);
    return unused;
}

static void add(const char *hex, size_t times) {
    for (struct text text; times > 0; times--) {
        text.length = 0;
        put(&text, hex);
        memcpy(scratch + rule_length, text.bytes, text.length);
        rule_length += text.length;
    }
}

static void report_witness(const char *what, const char *open, size_t times, const char *rule, const char *close) {
    rule_length = 0;
    add(open, times);
    add(rule, 1);
    add(close, times);
    size_t bytes = changed_stack(witness) - changed_stack(nothing);
    printf("%-52s %02zu %05zu %8zu\n", what, found.number, found.place, bytes);
    if (found.number == ZAMIATHEN_DONE && found.kind == ZAMIATHEN_WITNESS_NODE && bytes <= ZAMIATHEN_STACK_BYTES)
        passed++;
    else
        failed++;
}

static void report_expression(const char *what, const char *open, size_t times, const char *node, const char *close) {
    rule_length = 0;
    add("21 01", 1);
    add(open, times);
    add(node, 1);
    add(close, times);
    size_t bytes = changed_stack(witness) - changed_stack(nothing);
    printf("%-52s %02zu %05zu %8zu\n", what, found.number, found.place, bytes);
    if (found.number == ZAMIATHEN_DONE && bytes <= ZAMIATHEN_STACK_BYTES)
        passed++;
    else
        failed++;
}

/* Words there and back: a rule of 255 levels printed, and a book of 32 levels read. */
static const char names[] = "label 0 train";
static uint8_t words[ZAMIATHEN_RULE_WORDS_BYTES], codes[ZAMIATHEN_TEXT_BYTES];
static size_t words_length;
static zamiathen_length done;

static void *print_words(void *unused) {
    done = zamiathen_rule_to_words((const uint8_t *)names, strlen(names), scratch, rule_length, words, sizeof words);
    words_length = done.length;
    return unused;
}

static void *read_words(void *unused) {
    done = zamiathen_book_from_words((const uint8_t *)names, strlen(names), words, words_length, codes, sizeof codes);
    return unused;
}

static void report_words(const char *what, void *(*call)(void *), size_t times) {
    rule_length = 0;
    add("27", times);
    add("21 03 00 01", 1);
    print_words(NULL);
    size_t bytes = changed_stack(call) - changed_stack(nothing);
    printf("%-52s %02zu %05zu %8zu\n", what, done.number, done.place, bytes);
    if (done.number == ZAMIATHEN_DONE && bytes <= ZAMIATHEN_STACK_BYTES)
        passed++;
    else
        failed++;
}

/* A game of six moves: the book is also the goal, and both sides have the edit. */
static uint8_t edits[2 * ZAMIATHEN_TEXT_BYTES];
static size_t lengths[2];
static zamiathen_played played;

static void *play(void *unused) {
    played = zamiathen_play(sheet, sizeof sheet, book.bytes, book.length, book.bytes, book.length, edits,
                            lengths[0] + lengths[1], lengths, 2, 1, ZAMIATHEN_MAX_MOVES);
    return unused;
}

static void report_game(const char *what) {
    lengths[0] = lengths[1] = edit.length;
    memcpy(edits, edit.bytes, edit.length);
    memcpy(edits + edit.length, edit.bytes, edit.length);
    size_t bytes = changed_stack(play) - changed_stack(nothing);
    printf("%-52s %02zu %05zu %8zu\n", what, played.number, played.place, bytes);
    if (played.number == ZAMIATHEN_DONE && bytes <= ZAMIATHEN_STACK_BYTES)
        passed++;
    else
        failed++;
}

/* A step and a rule whose expression goes down to level 32. */
static void deep_game(const char *what, const char *rule, const char *step, const char *open, const char *name,
                      const char *close, size_t times) {
    book.length = edit.length = 0;
    put(&book, rule);
    put(&edit, step);
    for (struct text *text = &book; text != NULL; text = text == &book ? &edit : NULL) {
        put_many(text, open, times);
        put(text, name);
        put_many(text, close, times);
    }
    put(&book, name);
    put(&edit, "30");
    report_game(what);
}

static void branching_game(const char *what, const char *open, const char *close) {
    book.length = edit.length = 0;
    put(&book, "21 03 00 01");
    put_many(&edit, open, 28);
    put(&edit, "33 00 12 11 00 30");
    put_many(&edit, close, 28);
    report_game(what);
}

int main(void) {
    zamiathen_blank(sheet, sizeof sheet, ZAMIATHEN_MAX_NODES);
    printf("%-52s %-8s %8s\n", "enter, a carried rule of 255 levels", "answer", "bytes");
    chain("12 below 12", "22 11 00 11 00", "33", "11", "12", "", 1);
    chain("13, second operand below", "22 11 00 11 00", "33", "11", "13 11 0F", "", 1);
    chain("13, first operand below", "22 11 00 11 00", "33", "11", "13", "11 0F", 1);
    chain("05 below 05", "21 03 00 01", "31", "03", "05", "", 1);
    chain("06, first operand below", "21 03 00 01", "31", "03", "06", "01", 1);
    chain("08 in the expression of a 16 in the arrow of an 08", "21 03 00 01", "31", "03", "08 16 11 0F", "01", 2);
    book.length = edit.length = 0;
    put(&book, "21 03 00 01");
    put_many(&edit, "31 00 02", 253);
    put(&edit, "30");
    report("253 steps on one label");
    branches("30 branches, each in the first way of another", "35 21 01 01", "30 30");
    branches("30 branches, each in the second way of another", "35 21 01 01 30", "30");
    printf("%-52s %-8s %8s\n", "witness, a rule of 255 levels", "answer", "bytes");
    report_witness("25, first rule below", "25", 253, "21 01 02", "21 01 01");
    report_witness("25, second rule below", "25 21 01 01", 253, "21 01 02", "");
    report_witness("26, second rule below", "26 21 01 02", 253, "21 01 02", "");
    report_expression("05 below 05", "05", 253, "01", "");
    report_expression("08 in the expression of a 16 in the arrow of an 08", "08 16 11 0F", 126, "02", "01");
    printf("%-52s %-8s %8s\n", "words", "answer", "bytes");
    report_words("a rule of 255 levels printed", print_words, 253);
    report_words("a book of 32 levels read", read_words, 30);
    printf("%-52s %-8s %8s\n", "play, six moves, 32 levels", "answer", "bytes");
    deep_game("12 below 12", "22", "33 00", "12", "11 00", "", 30);
    deep_game("13, second operand below", "22", "33 00", "13 11 0F", "11 00", "", 30);
    deep_game("13, first operand below", "22", "33 00", "13", "11 00", "11 0F", 30);
    deep_game("06, first operand below", "21", "31 00", "06", "03 00", "01", 30);
    deep_game("08 in the expression of a 16 in the arrow of an 08", "21", "31 00", "08 16 11 0F", "03 00", "01", 15);
    branching_game("28 branches, each in the first way of another", "35 21 01 01", "30 30");
    printf("%d passed, %d failed\n", passed, failed);
    return failed != 0;
}
