/* Clients of a database of stations (sql/schema.sql), for tests/database.
 *
 *   database client DB EXTENSION TAG SEED NOTES   enters random edits and writes the tables directly until SIGTERM
 *   database ways DB EXTENSION TAG SEED NOTES     writes the tables directly in all ways, and ends
 *   database apart DB EXTENSION TAG SEED NOTES    writes sheet and log in two transactions, against a schema that lets it
 *   database blocks                               edits on stdin, each after its length in two bytes: their blocks of a log
 *   database damaged COUNT                        calls every function with values of any sort; needs no file
 *
 * A client notes each edit before it is sent, and what was answered after that, one write for each line, so that what was
 * answered is known after a SIGKILL. Built with SQLITE_CORE the extension is linked in, for the sanitizers.
 */
#define _XOPEN_SOURCE 700
#include "zamiathen.h"

#include <fcntl.h>
#include <signal.h>
#include <sqlite3.h>
#include <stdarg.h>
#include <stdbool.h>
#include <stdio.h>
#include <stdlib.h>
#include <string.h>
#include <time.h>
#include <unistd.h>

enum { STATIONS = 3, ROUNDS = 4, LONGEST_EDIT = 5000, PATIENCE_MS = 20000 };

static uint64_t state;

/* splitmix64 */
static uint64_t random_bits(void) {
    uint64_t z = state += 0x9E3779B97F4A7C15u;
    z = (z ^ (z >> 30)) * 0xBF58476D1CE4E5B9u;
    z = (z ^ (z >> 27)) * 0x94D049BB133111EBu;
    return z ^ (z >> 31);
}

static size_t below(size_t limit) {
    return (size_t)(random_bits() % limit);
}

static void give_up(const char *what, sqlite3 *db) {
    fprintf(stderr, "%s: %s\n", what, db == NULL ? "no database" : sqlite3_errmsg(db));
    exit(1);
}

/*
 * Edits of the example station
 */

typedef struct {
    uint8_t bytes[LONGEST_EDIT];
    size_t length;
} edit;

static void add(edit *e, size_t count, ...) {
    va_list list;
    va_start(list, count);
    for (size_t i = 0; i < count; i++)
        e->bytes[e->length++] = (uint8_t)va_arg(list, int);
    va_end(list);
}

static int train(void) {
    return 34 + (int)below(20);
}

static int berth(void) {
    return 10 + (int)below(24);
}

/* The train leaves the berth that it has. */
static void leave(edit *e, int t) {
    add(e, 9, 0x34, 0, 0x12, 0x16, 0x12, 0x11, 0, 0x04, t);
}

static void move(edit *e, int t, int b) {
    leave(e, t);
    add(e, 9, 0x33, 0, 0x17, t, b, 0x31, 7, 0x04, t);
}

/* One or more steps, some of which break a rule on some sheets. */
static void add_steps(edit *e) {
    int t = train(), u = train(), b = berth(), crew = 54 + (int)below(4);
    switch (below(8)) {
    case 0: leave(e, t), add(e, 4, 0x32, 7, 0x04, t); break;                                  /* it stands nowhere */
    case 1: move(e, t, b), move(e, u, berth()); break;                                        /* two trains move */
    case 2: add(e, 10, 0x33, 3, 0x17, t, u, 0x33, 3, 0x17, u, t); break;                      /* they connect */
    case 3: add(e, 5, below(2) ? 0x33 : 0x34, 3, 0x17, t, u); break;                          /* one way only */
    case 4: add(e, 4, below(2) ? 0x31 : 0x32, 6, 0x04, b); break;                             /* a berth is closed, or not */
    case 5: add(e, 5, below(3) ? 0x33 : 0x34, 4, 0x17, crew, b); break;                       /* a crew serves it, or not */
    default: move(e, t, b); break;
    }
}

static void make_edit(edit *e) {
    e->length = 0;
    size_t kind = below(40);
    if (kind == 0) { /* any bytes */
        for (size_t left = below(60); left > 0; left--)
            add(e, 1, (int)below(256));
        return;
    }
    if (kind == 1) /* of several blocks of a log, and up to 4,096 bytes and more */
        for (size_t wanted = below(4200), t = (size_t)train(); e->length + 40 < wanted;)
            leave(e, (int)t), add(e, 4, 0x32, 7, 0x04, (int)t);
    add_steps(e);
    if (kind == 2)
        add(e, 4, 0x31, 7, 0x04, 60 + (int)below(9)); /* no such node */
    if (kind != 3)
        add(e, 1, 0x30);
}

/*
 * A client
 */

typedef struct {
    sqlite3 *db;
    sqlite3_stmt *one, *two, *beneath, *begin, *commit, *rollback;
    int notes;
    const char *tag;
    size_t count;
} client;

typedef struct {
    char who[40], station[8];
    edit text;
} attempt;

static volatile sig_atomic_t asked_to_end;

static void on_term(int number) {
    (void)number;
    asked_to_end = 1;
}

static void note(client *c, const char *line, size_t length) {
    if (write(c->notes, line, length) != (ssize_t)length)
        give_up("the notes are not written", NULL);
}

static void note_answer(client *c, const char *what, const attempt *a, const char *text) {
    char line[600];
    int length = snprintf(line, sizeof line - 1, "%s %s %s", what, a->who, text);
    size_t used = length < (int)sizeof line - 2 ? (size_t)length : sizeof line - 2;
    line[used] = '\n';
    note(c, line, used + 1);
}

static void make_attempt(client *c, attempt *a) {
    static char line[2 * LONGEST_EDIT + 100];
    snprintf(a->who, sizeof a->who, "%s-%zu", c->tag, c->count++);
    snprintf(a->station, sizeof a->station, "%c", (int)('A' + below(STATIONS)));
    make_edit(&a->text);
    int length = snprintf(line, sizeof line, "try %s %s ", a->who, a->station);
    for (size_t i = 0; i < a->text.length; i++)
        length += sprintf(line + length, "%02x", a->text.bytes[i]);
    line[length++] = '\n';
    note(c, line, (size_t)length);
}

static sqlite3_stmt *prepare(sqlite3 *db, const char *sql) {
    sqlite3_stmt *made = NULL;
    if (sqlite3_prepare_v2(db, sql, -1, &made, NULL) != SQLITE_OK)
        give_up(sql, db);
    return made;
}

static void bind(sqlite3_stmt *s, int from, const attempt *a) {
    sqlite3_bind_text(s, from, a->station, -1, SQLITE_STATIC);
    sqlite3_bind_blob(s, from + 1, a->text.bytes, (int)a->text.length, SQLITE_STATIC);
    if (a->text.length == 0)
        sqlite3_bind_zeroblob(s, from + 1, 0);
    sqlite3_bind_text(s, from + 2, a->who, -1, SQLITE_STATIC);
}

/* Runs a statement to its end: its code. The message stays that of the failure. */
static int run(sqlite3_stmt *s) {
    int status;
    do
        status = sqlite3_step(s);
    while (status == SQLITE_ROW);
    sqlite3_reset(s);
    return status == SQLITE_DONE ? SQLITE_OK : status;
}

/* What the failure of an edit is called: a refusal by the library, a file that stayed locked, or a fault. */
static const char *failure(int status) {
    return (status & 0xff) == SQLITE_CONSTRAINT ? "refused" : status == SQLITE_BUSY ? "busy" : "fault";
}

/* What the trigger does, without its transaction. */
static void enter_apart(client *c) {
    attempt a;
    make_attempt(c, &a);
    sqlite3_stmt *sheet = prepare(c->db, "UPDATE stations SET sheet = zamiathen_entered(sheet, book, ?2) WHERE name = ?1 AND ?3 <> ''");
    sqlite3_stmt *log = prepare(c->db, "INSERT INTO log SELECT ?1, 1 + coalesce(max(sequence), 0), ?2, 'now', ?3 FROM log WHERE station = ?1");
    bind(sheet, 1, &a);
    bind(log, 1, &a);
    int status = run(sheet);
    if (status == SQLITE_OK)
        status = run(log);
    note_answer(c, status == SQLITE_OK ? "entered" : failure(status), &a, "");
    sqlite3_finalize(sheet);
    sqlite3_finalize(log);
}

/* One edit, through the view or through the table under it, which comes to the same. */
static void enter_one(client *c) {
    attempt a;
    make_attempt(c, &a);
    sqlite3_stmt *s = below(8) == 0 ? c->beneath : c->one;
    bind(s, 1, &a);
    int status = run(s);
    note_answer(c, status == SQLITE_OK ? "entered" : failure(status), &a, status == SQLITE_OK ? "" : sqlite3_errmsg(c->db));
}

/* Two edits in one statement: both or neither. */
static void enter_two(client *c) {
    attempt a[2];
    make_attempt(c, &a[0]);
    make_attempt(c, &a[1]);
    bind(c->two, 1, &a[0]);
    bind(c->two, 4, &a[1]);
    int status = run(c->two);
    for (int i = 0; i < 2; i++)
        note_answer(c, status == SQLITE_OK ? "entered" : failure(status), &a[i], status == SQLITE_OK ? "" : sqlite3_errmsg(c->db));
}

/* Some edits in a transaction, which is committed or not; a refused one is left out of it. */
static void enter_some(client *c) {
    attempt a[4];
    bool inside[4];
    size_t count = 1 + below(4);
    if (run(c->begin) != SQLITE_OK)
        return;
    for (size_t i = 0; i < count; i++) {
        make_attempt(c, &a[i]);
        bind(c->one, 1, &a[i]);
        int status = run(c->one);
        inside[i] = status == SQLITE_OK;
        if (!inside[i])
            note_answer(c, failure(status), &a[i], sqlite3_errmsg(c->db));
    }
    bool wanted = below(4) != 0, committed = wanted && run(c->commit) == SQLITE_OK;
    if (!committed && run(c->rollback) != SQLITE_OK)
        give_up("rollback", c->db);
    for (size_t i = 0; i < count; i++)
        if (inside[i])
            note_answer(c, committed ? "entered" : "refused", &a[i], committed ? "" : "rolled back");
}

/* Writes of the tables, and of the view, that must all fail. ?1 is a station, ?2 another one, ?3 any bytes or a sheet that
 * keeps the book but is not what the log gives, ?4 any bytes. */
static const char *const direct[] = {
    "UPDATE stations SET sheet = opening WHERE name = ?1",
    "UPDATE stations SET sheet = sheet WHERE name = ?1",
    "UPDATE OR IGNORE stations SET sheet = (SELECT sheet FROM stations WHERE name = ?2) WHERE name = ?1",
    "UPDATE OR REPLACE stations SET sheet = ?3 WHERE name = ?1",
    "UPDATE OR FAIL stations SET sheet = zamiathen_entered(sheet, book, x'30') WHERE name = ?1",
    "UPDATE stations SET book = x'' WHERE name = ?1",
    "UPDATE stations SET book = x'', sheet = ?3 WHERE name = ?1",
    "UPDATE stations SET opening = sheet WHERE name = ?1",
    "UPDATE stations SET name = name || '2' WHERE name = ?1",
    "UPDATE OR REPLACE stations SET name = 'B' WHERE name = 'A'",
    "UPDATE stations SET names = 'label 0' WHERE name = ?1",
    "UPDATE stations SET sheet = NULL",
    "DELETE FROM stations WHERE name = ?1",
    "DELETE FROM stations",
    "REPLACE INTO stations SELECT name, names, book, opening, opening FROM stations WHERE name = ?1",
    "INSERT OR REPLACE INTO stations SELECT name, names, x'', ?3, ?3 FROM stations WHERE name = ?1",
    "INSERT INTO stations SELECT * FROM stations WHERE name = ?1 ON CONFLICT (name) DO UPDATE SET sheet = opening",
    "INSERT INTO stations SELECT 'D', names, book, opening, ?3 FROM stations WHERE name = ?1",
    "INSERT INTO stations SELECT 'D', names, book, ?4, ?4 FROM stations WHERE name = ?1",
    "INSERT OR IGNORE INTO stations SELECT 'D', names, book, NULL, NULL FROM stations WHERE name = ?1",
    "INSERT INTO stations SELECT 'D', names, ?4, opening, opening FROM stations WHERE name = ?1",
    "INSERT INTO log VALUES (?1, 1000000000, x'30', 'now', 'direct')",
    "INSERT INTO log SELECT ?1, 1 + max(sequence), x'30', 'now', 'direct' FROM log WHERE station = ?1",
    "REPLACE INTO log SELECT station, sequence, x'30', at, 'direct' FROM log WHERE station = ?1 ORDER BY sequence DESC LIMIT 1",
    "INSERT OR REPLACE INTO log VALUES (?1, 1, x'30', 'now', 'direct')",
    "UPDATE log SET edit = x'30', who = 'direct'",
    "UPDATE log SET sequence = sequence + 1000000000 WHERE station = ?1",
    "DELETE FROM log WHERE station = ?1",
    "DELETE FROM log",
    "INSERT OR FAIL INTO edits (station, edit, who) VALUES (?1, x'30', NULL)",
    "INSERT OR IGNORE INTO edits (station, edit, who) VALUES (?1, x'30', NULL)",
    "INSERT OR REPLACE INTO edits (station, edit, who) VALUES (NULL, x'30', 'direct')",
    "INSERT INTO edits (station, edit, who) VALUES ('D', x'30', 'direct')",
    "INSERT INTO edits (station, edit, who) VALUES (?1, '0', 'direct')",
    "INSERT INTO edits (station, sequence, edit, who) VALUES (?1, 1, x'30', 'direct')",
    "INSERT OR FAIL INTO edits (station, edit, who) VALUES (?1, x'30', 'direct'), (?1, x'', 'direct')",
    "INSERT OR IGNORE INTO edits (station, edit, who) VALUES (?1, x'30', 'direct'), (?1, x'21', 'direct')",
    "INSERT OR FAIL INTO entering VALUES (?1, x'30', 'direct'), (?1, NULL, 'direct')",
    "INSERT OR IGNORE INTO entering VALUES (?1, x'30', NULL)",
    "UPDATE edits SET edit = x'30'",
    "DELETE FROM edits",
};

/* Bytes of a sheet written in place, which no CHECK and no trigger would see. */
static void write_in_place(client *c) {
    sqlite3_blob *blob = NULL;
    bool stored = sqlite3_blob_open(c->db, "main", "stations", "sheet", 1 + (sqlite3_int64)below(3), 1, &blob) == SQLITE_OK &&
        sqlite3_blob_write(blob, "", 1, (int)below(ZAMIATHEN_SHEET_BYTES)) == SQLITE_OK;
    sqlite3_blob_close(blob);
    char line[40];
    note(c, line, (size_t)snprintf(line, sizeof line, "direct in-place %s\n", stored ? "stored" : "failed"));
}

/* A statement that cannot be prepared has failed as well. One that changes no row because the log is empty counts as failed. */
static void write_directly(client *c, size_t which) {
    sqlite3_stmt *s = NULL;
    uint8_t any[ZAMIATHEN_SHEET_BYTES], sheet[ZAMIATHEN_SHEET_BYTES];
    char station[2] = {(char)('A' + below(STATIONS)), 0}, other[2] = {(char)('A' + below(STATIONS)), 0}, line[20];
    for (size_t i = 0; i < sizeof any; i++)
        any[i] = (uint8_t)below(256);
    memcpy(sheet, any, sizeof sheet);
    if (below(2) == 0)
        zamiathen_blank(sheet, sizeof sheet, 60);
    int before = sqlite3_total_changes(c->db), status = sqlite3_prepare_v2(c->db, direct[which], -1, &s, NULL);
    if (status == SQLITE_OK) {
        sqlite3_bind_text(s, 1, station, -1, SQLITE_STATIC);
        sqlite3_bind_text(s, 2, other, -1, SQLITE_STATIC);
        sqlite3_bind_blob(s, 3, sheet, (int)sizeof sheet, SQLITE_STATIC);
        sqlite3_bind_blob(s, 4, any, (int)sizeof any, SQLITE_STATIC);
        status = run(s);
    }
    bool stored = status == SQLITE_OK && sqlite3_total_changes(c->db) != before;
    sqlite3_finalize(s);
    note(c, line, (size_t)snprintf(line, sizeof line, "direct %zu %s\n", which, stored ? "stored" : "failed"));
}

/* Waits for the file a millisecond at a time, unless the client must end. */
static int wait_for_file(void *unused, int count) {
    (void)unused;
    if (asked_to_end || count > PATIENCE_MS)
        return 0;
    nanosleep(&(struct timespec){.tv_nsec = 1000000}, NULL);
    return 1;
}

#ifdef SQLITE_CORE
int sqlite3_zamiathensqlite_init(sqlite3 *db, char **fault, const void *routines);
#endif

static sqlite3 *open_database(const char *path, const char *extension) {
    sqlite3 *db = NULL;
    if (sqlite3_open(path, &db) != SQLITE_OK)
        give_up(path, db);
    sqlite3_busy_handler(db, wait_for_file, NULL);
#ifdef SQLITE_CORE
    (void)extension;
    if (sqlite3_zamiathensqlite_init(db, NULL, NULL) != SQLITE_OK)
        give_up("the functions are not registered", db);
#else
    sqlite3_enable_load_extension(db, 1);
    if (sqlite3_load_extension(db, extension, NULL, NULL) != SQLITE_OK)
        give_up(extension, db);
    sqlite3_enable_load_extension(db, 0);
#endif
    return db;
}

/* Edits of all sorts, and now and then a direct write. */
static void work(client *c) {
    while (!asked_to_end)
        switch (below(10)) {
        case 0: enter_some(c); break;
        case 1: enter_two(c); break;
        case 2: write_directly(c, below(sizeof direct / sizeof *direct)); break;
        default: enter_one(c); break;
        }
}

/* Each direct write some times. */
static void try_all_ways(client *c) {
    for (size_t round = 0; round < ROUNDS; round++) {
        for (size_t which = 0; which < sizeof direct / sizeof *direct; which++)
            write_directly(c, which);
        write_in_place(c);
    }
}

static int run_client(const char *mode, char **words) {
    client c = {.db = open_database(words[0], words[1]), .tag = words[2]};
    state = strtoull(words[3], NULL, 10);
    c.notes = open(words[4], O_WRONLY | O_CREAT | O_APPEND, 0644);
    signal(SIGTERM, on_term);
    c.one = prepare(c.db, "INSERT INTO edits (station, edit, who) VALUES (?1, ?2, ?3)");
    c.two = prepare(c.db, "INSERT INTO edits (station, edit, who) VALUES (?1, ?2, ?3), (?4, ?5, ?6)");
    c.beneath = prepare(c.db, "INSERT OR IGNORE INTO entering (station, edit, who) VALUES (?1, ?2, ?3)");
    c.begin = prepare(c.db, "BEGIN IMMEDIATE");
    c.commit = prepare(c.db, "COMMIT");
    c.rollback = prepare(c.db, "ROLLBACK");
    if (strcmp(mode, "ways") == 0)
        try_all_ways(&c);
    else if (strcmp(mode, "apart") == 0)
        while (!asked_to_end)
            enter_apart(&c);
    else
        work(&c);
    sqlite3_stmt *all[] = {c.one, c.two, c.beneath, c.begin, c.commit, c.rollback};
    for (size_t i = 0; i < sizeof all / sizeof *all; i++)
        sqlite3_finalize(all[i]);
    return sqlite3_close(c.db) != SQLITE_OK;
}

/*
 * Blocks of a log
 */

static int write_blocks(void) {
    static uint8_t text[ZAMIATHEN_TEXT_BYTES], blocks[ZAMIATHEN_LOG_BYTES];
    uint8_t head[2];
    while (fread(head, 1, sizeof head, stdin) == sizeof head) {
        size_t length = head[0] + 256u * head[1];
        if (length > sizeof text || fread(text, 1, length, stdin) != length)
            return 1;
        zamiathen_length cut = zamiathen_log_edit(text, length, blocks, sizeof blocks);
        if (cut.number != ZAMIATHEN_DONE || fwrite(blocks, 1, cut.length, stdout) != cut.length)
            return 1;
    }
    return fflush(stdout) != 0;
}

/*
 * Damaged values
 */

/* Each function and table with its arguments, in sound cases a sheet, a book, an edit, names or words. */
static const struct {
    const char *sql, *sorts;
} calls[] = {
    {"SELECT zamiathen_keeps(?1, ?2)", "sb"},
    {"SELECT zamiathen_judge(?1, ?2)", "sb"},
    {"SELECT zamiathen_enter_answer(?1, ?2, ?3)", "sbe"},
    {"SELECT zamiathen_entered(?1, ?2, ?3)", "sbe"},
    {"SELECT zamiathen_entered(?1, ?2, ?3, ?4)", "sben"},
    {"SELECT zamiathen_book_codes(?1, ?2)", "nB"},
    {"SELECT zamiathen_edit_codes(?1, ?2)", "nE"},
    {"SELECT zamiathen_book_words(?1, ?2)", "nb"},
    {"SELECT zamiathen_edit_words(?1, ?2)", "ne"},
    {"SELECT * FROM zamiathen_arrows(?1, ?2)", "sn"},
    {"SELECT arrow, source, target, given_sheet, given_names FROM zamiathen_arrows(?1)", "s"},
    {"SELECT label, node, given_sheet, given_names FROM zamiathen_labels(?1, ?2)", "sn"},
    {"SELECT * FROM zamiathen_arrows(?1, ?2) a JOIN zamiathen_labels(a.given_sheet, a.given_names) b ON b.node = a.source LIMIT 20", "sn"},
};

typedef struct {
    char sort;
    const char *path;
    uint8_t bytes[20000];
    size_t length;
} source;

static source sources[] = {
    {.sort = 's', .path = "sheet.bin"}, {.sort = 'b', .path = "book.bin"},    {.sort = 'e', .path = "crowd.bin"},
    {.sort = 'n', .path = "station.names"}, {.sort = 'B', .path = "book.words"}, {.sort = 'E', .path = "move.words"},
};

static void read_sources(void) {
    for (size_t i = 0; i < sizeof sources / sizeof *sources; i++) {
        char path[200];
        snprintf(path, sizeof path, "examples/station/%s", sources[i].path);
        FILE *file = fopen(path, "rb");
        if (file == NULL)
            give_up(path, NULL);
        sources[i].length = fread(sources[i].bytes, 1, sizeof sources[i].bytes, file);
        fclose(file);
    }
}

/* A value: what is wanted, the same with damage, something wanted elsewhere, or none of them. */
static void bind_any(sqlite3_stmt *s, int at, char sort) {
    static uint8_t bytes[sizeof sources[0].bytes];
    size_t which = 0, kind = below(12);
    while (sources[which].sort != sort)
        which++;
    if (kind == 0)
        which = below(sizeof sources / sizeof *sources);
    size_t length = sources[which].length;
    memcpy(bytes, sources[which].bytes, length);
    if (kind == 1)
        bytes[below(length)] = (uint8_t)below(256);
    if (kind == 2)
        length = below(length + 1);
    if (kind == 3)
        sqlite3_bind_null(s, at);
    else if (kind == 4)
        sqlite3_bind_int64(s, at, (sqlite3_int64)random_bits());
    else if (kind == 5)
        sqlite3_bind_double(s, at, 8704.5);
    else if (kind == 6)
        sqlite3_bind_zeroblob(s, at, (int)below(20000));
    else if (kind == 7 || ((sort == 'n' || sort == 'B' || sort == 'E') && below(2) == 0))
        sqlite3_bind_text(s, at, (const char *)bytes, (int)length, SQLITE_TRANSIENT);
    else
        sqlite3_bind_blob(s, at, bytes, (int)length, SQLITE_TRANSIENT);
}

/* Runs a statement, now and then with little memory left to SQLite; returns whether it ended as it may. */
static bool run_any(sqlite3_stmt *s, bool *answered) {
    bool little = below(8) == 0;
    if (little)
        sqlite3_hard_heap_limit64(sqlite3_memory_used() + (sqlite3_int64)below(60000));
    int status = run(s);
    sqlite3_hard_heap_limit64(0);
    *answered = status == SQLITE_OK;
    return status == SQLITE_OK || status == SQLITE_ERROR || (status & 0xff) == SQLITE_CONSTRAINT || (little && status == SQLITE_NOMEM);
}

/* Each call ends with rows or with an error. */
static int run_damaged(char **words) {
    size_t count = strtoull(words[0], NULL, 10), answered = 0, refused = 0;
    for (int wide = 0; wide < 2; wide++) { /* a database in UTF-8, then one in UTF-16 */
        sqlite3 *db = open_database(":memory:", words[1]);
        sqlite3_exec(db, wide ? "PRAGMA encoding = 'UTF-16'; CREATE TABLE t(x)" : "CREATE TABLE t(x)", NULL, NULL, NULL);
        state = 1;
        for (size_t i = 0; i < count; i++) {
            size_t which = below(sizeof calls / sizeof *calls);
            sqlite3_stmt *s = prepare(db, calls[which].sql);
            for (int at = 0; calls[which].sorts[at] != 0; at++)
                bind_any(s, at + 1, calls[which].sorts[at]);
            bool done;
            if (!run_any(s, &done))
                give_up(calls[which].sql, db);
            *(done ? &answered : &refused) += 1;
            sqlite3_finalize(s);
        }
        sqlite3_close(db);
    }
    printf("%zu answered, %zu refused\n", answered, refused);
    return answered == 0 || refused == 0;
}

int main(int count, char **words) {
    if (count == 7)
        return run_client(words[1], words + 2);
    if (count == 2 && strcmp(words[1], "blocks") == 0)
        return write_blocks();
    if (count >= 3 && strcmp(words[1], "damaged") == 0) {
        read_sources();
        return run_damaged(words + 2);
    }
    fprintf(stderr, "usage: see tests/c/database.c\n");
    return 2;
}
