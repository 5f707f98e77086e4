/* Station sheets in SQLite: a loadable extension over the calls of zamiathen.h.
 *
 *   zamiathen_keeps(sheet, book)                   1 or 0, for a CHECK of a table
 *   zamiathen_judge(sheet, book)                   number, place and sentence, as in '00 00000: Done.'
 *   zamiathen_enter_answer(sheet, book, edit)      the same for the edit; nothing is changed
 *   zamiathen_entered(sheet, book, edit [, names]) the sheet after the edit, or an error that says why it is refused
 *   zamiathen_book_codes(names, words), zamiathen_edit_codes(names, words)
 *   zamiathen_book_words(names, book), zamiathen_edit_words(names, edit)
 *   zamiathen_arrows(sheet [, names])              a table: arrow, source, target
 *   zamiathen_labels(sheet [, names])              a table: label, node
 *
 * Sheets, books and edits are blobs, names and words are text or blobs. Any other value is an SQL error, NULL too: a CHECK
 * whose value is NULL would pass. What the library refuses is an error with the code SQLITE_CONSTRAINT_FUNCTION.
 *
 *   cc -std=c11 -shared -fPIC -Iinclude sql/sqlite.c target/staticlib/libsuite.a -Wl,--exclude-libs,ALL -o zamiathen_sqlite.so
 */
#include "zamiathen.h"

#include <sqlite3ext.h>
#include <stdbool.h>
#include <string.h>
SQLITE_EXTENSION_INIT1

enum { LONGEST_NAME = 64 };

/* A value's bytes, as long as the value is left alone. */
typedef struct {
    const uint8_t *bytes;
    size_t length;
} lent;

typedef enum { SHEET, BOOK, EDIT, NAMES, WORDS } sort;

static const char *const unlike[] = {
    [SHEET] = "the sheet is not a blob",
    [BOOK] = "the book is not a blob",
    [EDIT] = "the edit is not a blob",
    [NAMES] = "the names are neither text nor a blob",
    [WORDS] = "the words are neither text nor a blob",
};

/* The bytes of a value; says what is wrong with it, or NULL. */
static const char *lend(sqlite3_value *value, sort wanted, lent *out) {
    int type = sqlite3_value_type(value);
    if (type == SQLITE_TEXT && (wanted == NAMES || wanted == WORDS))
        out->bytes = sqlite3_value_text(value); /* in UTF-8, for every encoding of the database */
    else if (type == SQLITE_BLOB)
        out->bytes = sqlite3_value_blob(value);
    else
        return unlike[wanted];
    out->length = (size_t)sqlite3_value_bytes(value);
    return out->bytes == NULL && out->length > 0 ? "out of memory" : NULL;
}

static bool lend_all(sqlite3_context *context, int count, sqlite3_value **values, const sort *wanted, lent *out) {
    for (int i = 0; i < count; i++) {
        const char *fault = lend(values[i], wanted[i], &out[i]);
        if (fault != NULL) {
            sqlite3_result_error(context, fault, -1);
            return false;
        }
    }
    return true;
}

/*
 * Answers and names
 */

/* Number, place and sentence, in SQLite's memory; NULL where none is left. */
static char *said_answer(size_t number, size_t place) {
    return sqlite3_mprintf("%02llu %05llu: %s", (unsigned long long)number, (unsigned long long)place, zamiathen_text(number));
}

static void result_answer(sqlite3_context *context, size_t number, size_t place) {
    char *text = said_answer(number, place);
    if (text == NULL)
        sqlite3_result_error_nomem(context);
    else
        sqlite3_result_text(context, text, -1, sqlite3_free);
}

/* Reports a text as the error, and frees it. */
static void refuse(sqlite3_context *context, char *text) {
    if (text == NULL) {
        sqlite3_result_error_nomem(context);
        return;
    }
    sqlite3_result_error(context, text, -1);
    sqlite3_result_error_code(context, SQLITE_CONSTRAINT_FUNCTION);
    sqlite3_free(text);
}

/* A name, cut out of a rule that the library prints: it stands between this many bytes before and after. */
static void cut_name(lent names, const uint8_t *rule, size_t length, size_t before, size_t after, char name[LONGEST_NAME + 1]) {
    uint8_t printed[4 * LONGEST_NAME];
    zamiathen_length words = zamiathen_rule_to_words(names.bytes, names.length, rule, length, printed, sizeof printed);
    size_t bytes = words.length > before + after ? words.length - before - after : 0;
    if (bytes > LONGEST_NAME)
        bytes = 0;
    memcpy(name, printed + before, bytes);
    name[bytes] = 0;
}

static void label_name(lent names, size_t label, char name[LONGEST_NAME + 1]) {
    const uint8_t rule[] = {0x21, 0x03, (uint8_t)label, 0x01};
    cut_name(names, rule, sizeof rule, strlen("each("), strlen(", all)\n"), name);
}

static void arrow_name(lent names, size_t arrow, char name[LONGEST_NAME + 1]) {
    const uint8_t rule[] = {0x21, 0x08, 0x11, (uint8_t)arrow, 0x01, 0x01};
    cut_name(names, rule, sizeof rule, strlen("each(some("), strlen(", all), all)\n"), name);
}

static void node_name(lent names, size_t node, char name[LONGEST_NAME + 1]) {
    const uint8_t rule[] = {0x23, (uint8_t)node, 0x01};
    cut_name(names, rule, sizeof rule, strlen("is("), strlen(", all)\n"), name);
}

/*
 * Judging and entering
 */

static void keeps(sqlite3_context *context, int count, sqlite3_value **values) {
    static const sort wanted[] = {SHEET, BOOK};
    lent in[2];
    if (lend_all(context, count, values, wanted, in))
        sqlite3_result_int(context, zamiathen_judge(in[0].bytes, in[0].length, in[1].bytes, in[1].length).number == ZAMIATHEN_DONE);
}

static void judge(sqlite3_context *context, int count, sqlite3_value **values) {
    static const sort wanted[] = {SHEET, BOOK};
    lent in[2];
    if (!lend_all(context, count, values, wanted, in))
        return;
    zamiathen_judged judged = zamiathen_judge(in[0].bytes, in[0].length, in[1].bytes, in[1].length);
    result_answer(context, judged.number, judged.place);
}

/* What an edit is tried on: a copy of the sheet, since the value is SQLite's. */
typedef struct {
    uint8_t sheet[ZAMIATHEN_SHEET_BYTES + 1]; /* one byte more, so that a sheet that is too long is refused */
    uint8_t scratch[ZAMIATHEN_CARRIED_BYTES];
} trial;

static zamiathen_answer try_edit(trial *t, const lent in[3]) {
    size_t length = in[0].length < sizeof t->sheet ? in[0].length : sizeof t->sheet;
    if (length > 0)
        memcpy(t->sheet, in[0].bytes, length);
    return zamiathen_enter(t->sheet, length, in[1].bytes, in[1].length, in[2].bytes, in[2].length, t->scratch, sizeof t->scratch);
}

static void enter_answer(sqlite3_context *context, int count, sqlite3_value **values) {
    static const sort wanted[] = {SHEET, BOOK, EDIT};
    lent in[3];
    if (!lend_all(context, count, values, wanted, in))
        return;
    trial *t = sqlite3_malloc(sizeof *t);
    if (t == NULL) {
        sqlite3_result_error_nomem(context);
        return;
    }
    zamiathen_answer answer = try_edit(t, in);
    result_answer(context, answer.number, answer.place);
    sqlite3_free(t);
}

/* Who would break the rule after the edit: the witness of the carried rule in the scratch, on the sheet as it was. */
static void append_witness(sqlite3_str *text, const trial *t, lent names) {
    char name[LONGEST_NAME + 1];
    zamiathen_witnessed who = zamiathen_witness(t->sheet, ZAMIATHEN_SHEET_BYTES, t->scratch, sizeof t->scratch);
    if (who.kind == ZAMIATHEN_WITNESS_PAIR) {
        node_name(names, who.first, name);
        sqlite3_str_appendf(text, " Broken by %s", name);
        node_name(names, who.second, name);
        sqlite3_str_appendf(text, " and %s:", name);
    } else if (who.kind == ZAMIATHEN_WITNESS_NODE) {
        sqlite3_str_appendall(text, " Broken by");
        for (size_t node = 0; node < ZAMIATHEN_MAX_NODES; node++)
            if ((who.nodes >> node & 1) != 0) {
                node_name(names, node, name);
                sqlite3_str_appendf(text, " %s", name);
            }
        sqlite3_str_appendall(text, ":");
    }
}

/* The broken rule in words, without the line feed that ends them, after who breaks it. A wrong table of names is left out. */
static void append_broken(sqlite3_str *text, const trial *t, lent book, size_t rule, lent names) {
    size_t start = zamiathen_rule_start(book.bytes, book.length, ZAMIATHEN_MAX_NODES, rule), length = book.length - start;
    const uint8_t *codes = book.bytes + start;
    uint8_t *words = sqlite3_malloc(ZAMIATHEN_BOOK_WORDS_BYTES);
    if (words == NULL)
        return;
    zamiathen_length printed = zamiathen_rule_to_words(names.bytes, names.length, codes, length, words, ZAMIATHEN_BOOK_WORDS_BYTES);
    if (printed.number == ZAMIATHEN_NAMES) {
        names = (lent){NULL, 0};
        printed = zamiathen_rule_to_words(NULL, 0, codes, length, words, ZAMIATHEN_BOOK_WORDS_BYTES);
    }
    append_witness(text, t, names);
    if (printed.length > 0) {
        sqlite3_str_appendall(text, " ");
        sqlite3_str_append(text, (const char *)words, (int)printed.length - 1);
    }
    sqlite3_free(words);
}

static void refuse_edit(sqlite3_context *context, const trial *t, const lent in[4], zamiathen_answer answer) {
    sqlite3_str *text = sqlite3_str_new(sqlite3_context_db_handle(context));
    sqlite3_str_appendf(text, "%02d %05d: %s", (int)answer.number, (int)answer.place, zamiathen_text(answer.number));
    if (answer.number == ZAMIATHEN_RULE_BROKEN)
        append_broken(text, t, in[1], answer.place, in[3]);
    refuse(context, sqlite3_str_finish(text));
}

static void entered(sqlite3_context *context, int count, sqlite3_value **values) {
    static const sort wanted[] = {SHEET, BOOK, EDIT, NAMES};
    lent in[4] = {{NULL, 0}, {NULL, 0}, {NULL, 0}, {NULL, 0}};
    if (!lend_all(context, count, values, wanted, in))
        return;
    trial *t = sqlite3_malloc(sizeof *t);
    if (t == NULL) {
        sqlite3_result_error_nomem(context);
        return;
    }
    zamiathen_answer answer = try_edit(t, in);
    if (answer.number == ZAMIATHEN_DONE)
        sqlite3_result_blob(context, t->sheet, ZAMIATHEN_SHEET_BYTES, SQLITE_TRANSIENT);
    else
        refuse_edit(context, t, in, answer);
    sqlite3_free(t);
}

/*
 * Words
 */

typedef zamiathen_length translation(const uint8_t *names, size_t names_length, const uint8_t *text, size_t text_length,
                                     uint8_t *output, size_t output_length);

/* Asks for the length first, then for the text; a blob or a text becomes the result. */
static void translate(sqlite3_context *context, sqlite3_value **values, sort given, translation *call) {
    const sort wanted[] = {NAMES, given};
    lent in[2];
    if (!lend_all(context, 2, values, wanted, in))
        return;
    zamiathen_length asked = call(in[0].bytes, in[0].length, in[1].bytes, in[1].length, NULL, 0);
    size_t room = asked.number == ZAMIATHEN_ROOM ? asked.place : 0;
    uint8_t *output = sqlite3_malloc64(room + 1); /* an empty result is not NULL */
    if (output == NULL) {
        sqlite3_result_error_nomem(context);
        return;
    }
    asked = call(in[0].bytes, in[0].length, in[1].bytes, in[1].length, output, room);
    if (asked.number != ZAMIATHEN_DONE) {
        sqlite3_free(output);
        refuse(context, said_answer(asked.number, asked.place));
    } else if (given == WORDS) {
        sqlite3_result_blob64(context, output, asked.length, sqlite3_free);
    } else {
        sqlite3_result_text64(context, (char *)output, asked.length, sqlite3_free, SQLITE_UTF8);
    }
}

static void book_codes(sqlite3_context *context, int count, sqlite3_value **values) {
    (void)count;
    translate(context, values, WORDS, zamiathen_book_from_words);
}

static void edit_codes(sqlite3_context *context, int count, sqlite3_value **values) {
    (void)count;
    translate(context, values, WORDS, zamiathen_edit_from_words);
}

static void book_words(sqlite3_context *context, int count, sqlite3_value **values) {
    (void)count;
    translate(context, values, BOOK, zamiathen_book_to_words);
}

static void edit_words(sqlite3_context *context, int count, sqlite3_value **values) {
    (void)count;
    translate(context, values, EDIT, zamiathen_edit_to_words);
}

/*
 * Tables: a sheet is read line by line. A line is a label's set of nodes, or the set of nodes to which arrows of one kind go
 * from one node.
 */

typedef enum { ARROW_TABLE, LABEL_TABLE } table_kind;

/* The columns of both, and the hidden ones through which the arguments are passed. */
enum { ARROW_NAME, ARROW_SOURCE, ARROW_TARGET, ARROW_SHEET, ARROW_NAMES };
enum { LABEL_NAME, LABEL_NODE, LABEL_SHEET, LABEL_NAMES };

typedef struct {
    sqlite3_vtab base;
    table_kind kind;
} table;

typedef struct {
    sqlite3_vtab_cursor base;
    uint8_t sheet[ZAMIATHEN_SHEET_BYTES];
    uint8_t *names;
    size_t names_length, n, line, lines;
    uint64_t left; /* the nodes of this line that are still to come, the present one included */
    sqlite3_int64 row;
    struct {
        char labels[ZAMIATHEN_LABELS][LONGEST_NAME + 1], arrows[ZAMIATHEN_ARROWS][LONGEST_NAME + 1],
            nodes[ZAMIATHEN_MAX_NODES][LONGEST_NAME + 1];
    } said; /* names that the library has given */
} cursor;

static int table_connect(sqlite3 *db, void *kind, int count, const char *const *words, sqlite3_vtab **made, char **fault) {
    (void)count, (void)words, (void)fault;
    bool arrows = *(const table_kind *)kind == ARROW_TABLE;
    int status = sqlite3_declare_vtab(db, arrows ? "CREATE TABLE x(arrow TEXT, source TEXT, target TEXT, given_sheet HIDDEN, given_names HIDDEN)"
                                                 : "CREATE TABLE x(label TEXT, node TEXT, given_sheet HIDDEN, given_names HIDDEN)");
    if (status != SQLITE_OK)
        return status;
    table *t = sqlite3_malloc(sizeof *t);
    if (t == NULL)
        return SQLITE_NOMEM;
    memset(t, 0, sizeof *t);
    t->kind = *(const table_kind *)kind;
    sqlite3_vtab_config(db, SQLITE_VTAB_INNOCUOUS);
    *made = &t->base;
    return SQLITE_OK;
}

static int table_disconnect(sqlite3_vtab *base) {
    sqlite3_free(base);
    return SQLITE_OK;
}

/* The sheet must be given, the names may be. Waits for an argument whose value is not known yet. */
static int table_plan(sqlite3_vtab *base, sqlite3_index_info *info) {
    int sheet_column = ((table *)base)->kind == ARROW_TABLE ? ARROW_SHEET : LABEL_SHEET, found[2] = {-1, -1};
    for (int i = 0; i < info->nConstraint; i++) {
        int argument = info->aConstraint[i].iColumn - sheet_column;
        if (argument < 0 || info->aConstraint[i].op != SQLITE_INDEX_CONSTRAINT_EQ)
            continue;
        if (!info->aConstraint[i].usable)
            return SQLITE_CONSTRAINT;
        found[argument] = i;
    }
    if (found[0] < 0) {
        sqlite3_free(base->zErrMsg);
        base->zErrMsg = sqlite3_mprintf("the sheet is missing");
        return SQLITE_ERROR;
    }
    for (int argument = 0; argument < 2; argument++)
        if (found[argument] >= 0) {
            info->aConstraintUsage[found[argument]].argvIndex = argument + 1;
            info->aConstraintUsage[found[argument]].omit = 1;
        }
    info->estimatedCost = 100;
    info->estimatedRows = 100;
    return SQLITE_OK;
}

static int table_open(sqlite3_vtab *base, sqlite3_vtab_cursor **made) {
    (void)base;
    cursor *c = sqlite3_malloc(sizeof *c);
    if (c == NULL)
        return SQLITE_NOMEM;
    memset(c, 0, sizeof *c);
    *made = &c->base;
    return SQLITE_OK;
}

static int table_close(sqlite3_vtab_cursor *base) {
    sqlite3_free(((cursor *)base)->names);
    sqlite3_free(base);
    return SQLITE_OK;
}

static int table_fault(cursor *c, char *text) {
    sqlite3_free(c->base.pVtab->zErrMsg);
    c->base.pVtab->zErrMsg = text;
    return text == NULL ? SQLITE_NOMEM : SQLITE_ERROR;
}

/* Goes on to the first line from this one on that has a node. */
static void find_line(cursor *c) {
    bool arrows = ((table *)c->base.pVtab)->kind == ARROW_TABLE;
    for (; c->line < c->lines; c->line++) {
        zamiathen_node_set set = arrows ? zamiathen_row_set(c->sheet, sizeof c->sheet, c->line / c->n, c->line % c->n)
                                        : zamiathen_label_set(c->sheet, sizeof c->sheet, c->line);
        c->left = set.set;
        if (c->left != 0)
            return;
    }
}

/* Takes over a sheet and a table of names that were checked. */
static int take_over(cursor *c, const lent in[2], size_t n) {
    uint8_t *names = sqlite3_malloc64(in[1].length + 1);
    if (names == NULL)
        return SQLITE_NOMEM;
    if (in[1].length > 0)
        memcpy(names, in[1].bytes, in[1].length);
    sqlite3_free(c->names);
    memset(&c->said, 0, sizeof c->said);
    memcpy(c->sheet, in[0].bytes, sizeof c->sheet);
    c->names = names;
    c->names_length = in[1].length;
    c->n = n;
    c->lines = ((table *)c->base.pVtab)->kind == ARROW_TABLE ? ZAMIATHEN_ARROWS * n : ZAMIATHEN_LABELS;
    c->line = 0;
    c->row = 0;
    find_line(c);
    return SQLITE_OK;
}

static int table_filter(sqlite3_vtab_cursor *base, int plan, const char *text, int count, sqlite3_value **values) {
    (void)plan, (void)text;
    cursor *c = (cursor *)base;
    lent in[2] = {{NULL, 0}, {NULL, 0}};
    static const sort wanted[] = {SHEET, NAMES};
    c->lines = 0; /* no row after a fault */
    for (int i = 0; i < count; i++) {
        const char *fault = lend(values[i], wanted[i], &in[i]);
        if (fault != NULL)
            return table_fault(c, sqlite3_mprintf("%s", fault));
    }
    zamiathen_node_set nodes = zamiathen_nodes(in[0].bytes, in[0].length);
    if (nodes.number != ZAMIATHEN_DONE)
        return table_fault(c, said_answer(nodes.number, nodes.place));
    zamiathen_answer checked = zamiathen_check_names(in[1].bytes, in[1].length);
    if (checked.number != ZAMIATHEN_DONE)
        return table_fault(c, said_answer(checked.number, checked.place));
    return take_over(c, in, nodes.count);
}

static int table_next(sqlite3_vtab_cursor *base) {
    cursor *c = (cursor *)base;
    c->row++;
    c->left &= c->left - 1;
    if (c->left == 0) {
        c->line++;
        find_line(c);
    }
    return SQLITE_OK;
}

static int table_ended(sqlite3_vtab_cursor *base) {
    return ((cursor *)base)->line >= ((cursor *)base)->lines;
}

static size_t lowest(uint64_t set) {
    size_t node = 0;
    while ((set >> node & 1) == 0)
        node++;
    return node;
}

static void result_name(sqlite3_context *context, cursor *c, char name[LONGEST_NAME + 1], void say(lent, size_t, char *), size_t number) {
    if (name[0] == 0)
        say((lent){c->names, c->names_length}, number, name);
    sqlite3_result_text(context, name, -1, SQLITE_TRANSIENT);
}

static int table_column(sqlite3_vtab_cursor *base, sqlite3_context *context, int column) {
    cursor *c = (cursor *)base;
    bool arrows = ((table *)base->pVtab)->kind == ARROW_TABLE;
    size_t node = lowest(c->left);
    if (column == (arrows ? ARROW_SHEET : LABEL_SHEET))
        sqlite3_result_blob(context, c->sheet, sizeof c->sheet, SQLITE_TRANSIENT);
    else if (column == (arrows ? ARROW_NAMES : LABEL_NAMES))
        sqlite3_result_text64(context, (char *)c->names, c->names_length, SQLITE_TRANSIENT, SQLITE_UTF8);
    else if (column == (arrows ? ARROW_TARGET : LABEL_NODE))
        result_name(context, c, c->said.nodes[node], node_name, node);
    else if (!arrows)
        result_name(context, c, c->said.labels[c->line], label_name, c->line);
    else if (column == ARROW_NAME)
        result_name(context, c, c->said.arrows[c->line / c->n], arrow_name, c->line / c->n);
    else
        result_name(context, c, c->said.nodes[c->line % c->n], node_name, c->line % c->n);
    return SQLITE_OK;
}

static int table_row(sqlite3_vtab_cursor *base, sqlite3_int64 *row) {
    *row = ((cursor *)base)->row;
    return SQLITE_OK;
}

/*
 * What is registered
 */

static const sqlite3_module tables = {
    .xConnect = table_connect,
    .xBestIndex = table_plan,
    .xDisconnect = table_disconnect,
    .xOpen = table_open,
    .xClose = table_close,
    .xFilter = table_filter,
    .xNext = table_next,
    .xEof = table_ended,
    .xColumn = table_column,
    .xRowid = table_row,
};

static const struct {
    const char *name;
    int arguments;
    void (*call)(sqlite3_context *, int, sqlite3_value **);
} functions[] = {
    {"zamiathen_keeps", 2, keeps},
    {"zamiathen_judge", 2, judge},
    {"zamiathen_enter_answer", 3, enter_answer},
    {"zamiathen_entered", 3, entered},
    {"zamiathen_entered", 4, entered},
    {"zamiathen_book_codes", 2, book_codes},
    {"zamiathen_edit_codes", 2, edit_codes},
    {"zamiathen_book_words", 2, book_words},
    {"zamiathen_edit_words", 2, edit_words},
};

int sqlite3_zamiathensqlite_init(sqlite3 *db, char **fault, const sqlite3_api_routines *routines);

int sqlite3_zamiathensqlite_init(sqlite3 *db, char **fault, const sqlite3_api_routines *routines) {
    static table_kind arrows = ARROW_TABLE, labels = LABEL_TABLE;
    SQLITE_EXTENSION_INIT2(routines);
    (void)fault;
    int status = SQLITE_OK;
    for (size_t i = 0; i < sizeof functions / sizeof *functions && status == SQLITE_OK; i++)
        status = sqlite3_create_function_v2(db, functions[i].name, functions[i].arguments,
                                            SQLITE_UTF8 | SQLITE_DETERMINISTIC | SQLITE_INNOCUOUS, NULL, functions[i].call, NULL, NULL, NULL);
    if (status == SQLITE_OK)
        status = sqlite3_create_module(db, "zamiathen_arrows", &tables, &arrows);
    if (status == SQLITE_OK)
        status = sqlite3_create_module(db, "zamiathen_labels", &tables, &labels);
    return status;
}
