/* What the files of the command share: what was typed, files, texts, names, sheets, and how a refusal is said. */
#ifndef COMMAND_H
#define COMMAND_H

#define _XOPEN_SOURCE 700
#include "zamiathen.h"

#include <stdbool.h>
#include <stdio.h>

/* The exit status, and what most functions answer. */
enum { DONE = 0, REFUSED = 1, WRONG = 2 };

enum {
    LONGEST_FILE = 1 << 25, /* the longest log has 512 bytes less */
    LONGEST_NAME = 64,
    MOST_OPERANDS = 8,
    WINDOW = 100 /* bytes of a long line that are shown on either side of a mark */
};

/* What a game may have, for its help and for what is refused. */
#define GAME_LIMITS "A game has 1 to 6 MOVES, 1 to 4 edits of the dispatcher and 0 to 4 of the disruption."

/* A file's bytes. */
typedef struct {
    const char *path;
    uint8_t *bytes;
    size_t length;
} file;

/* Memory that is freed when the command is done. */
typedef struct kept {
    struct kept *next;
    void *bytes;
} kept;

/* What was typed, and what all commands share. */
typedef struct {
    const char *command; /* as it was called */
    const char *operands[MOST_OPERANDS];
    size_t count;
    const char *against[ZAMIATHEN_MAX_EDITS];
    size_t against_count;
    const char *names_path, *book_path, *edit_path, *picture_path, *closed_label, *who_label;
    bool only_try, colour;
    int lock; /* the file that is held, opened, or -1 */
    file names;
    kept *memory;
    /* names that the library has given: labels first, then arrows, then nodes */
    char said[ZAMIATHEN_LABELS + ZAMIATHEN_ARROWS + ZAMIATHEN_MAX_NODES][LONGEST_NAME + 1];
} request;

/*
 * files.c
 */

/* Memory that lasts as long as the command; where there is none left, the command ends. */
void *take(request *r, size_t size);
void give_back(request *r);

/* A copy, for a call that may change it. */
uint8_t *copy_of(request *r, const uint8_t *bytes, size_t length);

/* Says what is wrong with the usage or a file, and returns WRONG. */
int wrong(const char *format, ...);

/* A colour of the terminal, if the output goes there. */
const char *ink(const request *r, const char *code);

#define RED "\033[31m"
#define GREEN "\033[32m"
#define PLAIN "\033[0m"

/* A number as sentences write it: 4,096. */
const char *figure(request *r, size_t number);

/* Prints bytes of a file. Those that would steer a terminal become question marks. */
void print_bytes(FILE *to, const uint8_t *bytes, size_t length);

/* Does a character of UTF-8 begin with this byte? How many does a word have? */
bool begins_character(uint8_t byte);
size_t characters(const char *word);

/* Text that grows. */
typedef struct {
    request *r;
    char *bytes;
    size_t length, room;
} string;

string empty_string(request *r);
void add_bytes(string *s, const char *bytes, size_t length);
void add(string *s, const char *word);
void add_word(string *s, const char *word);
void add_format(string *s, const char *format, ...);

int read_file(request *r, const char *path, file *f);

/* Reads a stream to its end; the path is for messages. */
int read_stream(request *r, FILE *stream, file *f);

/* Replaces a file as a whole, or writes a new one. */
int write_file(request *r, const char *path, const uint8_t *bytes, size_t length);

/* Writes a new file as a whole, unless one is there by now. */
int create_file(request *r, const char *path, const uint8_t *bytes, size_t length, bool *is_there);

/* Waits until no other call holds a file, and holds it until this one is done: so a file that is read and then replaced loses
 * no change. A path that is not a plain file, does not exist or cannot be opened is not held. */
int lock_file(request *r, const char *path);

/*
 * words.c
 */

/* A book or an edit: its file, and its codes, which are the file's bytes or were read from its words. */
typedef struct {
    file source;
    bool in_words, is_edit;
    const uint8_t *codes;
    size_t length;
} text;

typedef struct {
    const uint8_t *bytes;
    size_t length;
} word;

bool ends_in(const char *path, const char *end);

/* Reads the table of names, by default station.names in the folder of a file. */
int read_names(request *r, const char *beside);

/* The number that a word names: of a label (sort l), an arrow (a) or a node (i); for a typed word, that number or a message. */
bool number_of(request *r, char sort, word name, size_t *number);
int typed_number(request *r, char sort, const char *name, size_t *number);

/* A number that was typed, or a message that it is not one, with what is wanted. */
int typed_count(const char *typed, const char *wanted, size_t *number);

const char *label_name(request *r, size_t label);
const char *arrow_name(request *r, size_t arrow);
const char *node_name(request *r, size_t node);

int read_text(request *r, const char *path, bool is_edit, text *t);

/* Says what is wrong with codes, 11 to 16 or 21 to 26, for a sheet of n nodes. */
int codes_fault(request *r, const text *t, size_t number, size_t place, size_t n);

typedef zamiathen_length (*printer)(const uint8_t *, size_t, const uint8_t *, size_t, uint8_t *, size_t);

/* Prints codes in words, into memory of the length needed. */
zamiathen_length to_words(request *r, printer print, const uint8_t *codes, size_t length, uint8_t **words);

/* Prints the first rule of codes on a line of its own; and where a rule stands, and its sentence. */
void print_rule(request *r, const char *margin, const uint8_t *codes, size_t length);
void print_place(request *r, const text *book, size_t rule, const char *before);

/*
 * sheets.c
 */

/* A sheet's labels and arrows, as sets of nodes. */
typedef struct {
    size_t n;
    uint64_t in_use, labels[ZAMIATHEN_LABELS], rows[ZAMIATHEN_ARROWS][ZAMIATHEN_MAX_NODES];
} graph;

bool has(uint64_t set, size_t node);
int read_sheet(request *r, const char *path, file *f);

/* Says what is wrong with a sheet, 1 to 4. */
int sheet_fault(request *r, const file *f, size_t number, size_t place);
graph *graph_of(request *r, const uint8_t *sheet);

/* Prints what one sheet has and the other does not, and returns how many lines that were. */
size_t print_changes(request *r, const uint8_t *old_sheet, const uint8_t *new_sheet);

/* Says which rule is broken and who breaks it, and returns REFUSED. */
int print_refusal(request *r, const text *book, size_t rule, const char *how, zamiathen_witnessed who);

/* Says what is wrong, from an answer of enter that is neither done nor 41. */
int answer_fault(request *r, const file *sheet, const text *book, const text *edit, zamiathen_answer answer);

/*
 * enter.c
 */

/* An edit on trial: the sheet that it would leave, the scratch of enter, its answer and who would break a rule. */
typedef struct {
    uint8_t *sheet, *scratch;
    zamiathen_answer answer;
    zamiathen_witnessed who;
} trial;

/* Reads the names, the sheet and the book that were typed first. */
int read_case(request *r, file *sheet, text *book);

/* Writes into the third file that was typed, or to the output. */
int put(request *r, const uint8_t *bytes, size_t length);
trial try_edit(request *r, const file *sheet, const text *book, const text *edit);

/*
 * The commands
 */

int run_new(request *r);
int run_make(request *r);
int run_codes(request *r);
int run_words(request *r);
int run_list(request *r);
int run_judge(request *r);
int run_enter(request *r);
int run_why(request *r);
int run_show(request *r);
int run_table(request *r);
int run_diff(request *r);
int run_close(request *r);
int run_open(request *r);
int run_keep(request *r);
int run_return(request *r);
int run_drop(request *r);
int run_join(request *r);
int run_convert(request *r);
int run_page(request *r);
int run_type(request *r);
int run_chain(request *r);
int run_count(request *r);
int run_play(request *r);
int run_log(request *r);
int run_replay(request *r);

#endif
