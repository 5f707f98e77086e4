/* The edit `move` of examples/station, entered by the library and made by two typed schemas of SQLite (bench/typed), in memory
 * with prepared statements: medians of rounds in which all three take turns. Before that, the same moves of trains must be entered
 * and refused by all three, and leave the same trains at the same berths.
 *
 *   typed [ROUNDS]     in the repository's folder
 */
#define _XOPEN_SOURCE 700
#include "zamiathen.h"
#include <sqlite3.h>
#include <stdbool.h>
#include <stdio.h>
#include <stdlib.h>
#include <string.h>
#include <time.h>

enum { FIRST_BERTH = 10, BERTHS = 24, FIRST_TRAIN = 34, TRAINS = 20, MOVES = 5000 };
enum { PLATFORM, SLOT, BERTH, TRAIN, LONG_PLATFORM, LONG_TRAIN, CLOSED, PLACED, CREW };
enum { STANDS_AT, HAS_PLATFORM, HAS_SLOT, CONNECTS_TO, SERVES };

struct schema {
    const char *file, *name;
    sqlite3 *db;
    sqlite3_stmt *begin, *commit, *rollback, *leave, *take, *unmark, *mark, *stands; /* unmark and mark: NULL where `placed` is generated */
};

static uint8_t sheet[ZAMIATHEN_SHEET_BYTES], opening[ZAMIATHEN_SHEET_BYTES], book[ZAMIATHEN_TEXT_BYTES], scratch[ZAMIATHEN_CARRIED_BYTES];
static size_t book_length;

static void give_up(const char *what, const char *why) {
    fprintf(stderr, "%s: %s\n", what, why);
    exit(1);
}

static size_t load(const char *path, void *bytes, size_t room) {
    FILE *file = fopen(path, "rb");
    if (file == NULL)
        give_up(path, "it cannot be read");
    size_t length = fread(bytes, 1, room, file);
    fclose(file);
    return length;
}

static bool has(uint64_t set, size_t node) {
    return set >> node & 1;
}

static uint64_t labelled(size_t label) {
    return zamiathen_label_set(opening, sizeof opening, label).set;
}

static uint64_t ends(size_t arrow, size_t node) {
    return zamiathen_row_set(opening, sizeof opening, arrow, node).set;
}

/* The lowest end of an arrow; 64 if there is none. */
static size_t end(size_t arrow, size_t node) {
    size_t i = 0;
    while (i < 64 && !has(ends(arrow, node), i))
        i++;
    return i;
}

/* A crew that serves a berth, or none. */
static const char *crew_of(size_t berth) {
    static char text[8];
    for (size_t crew = 0; crew < 60; crew++)
        if (has(labelled(CREW), crew) && has(ends(SERVES, crew), berth)) {
            snprintf(text, sizeof text, "%zu", crew);
            return text;
        }
    return "NULL";
}

static void run(sqlite3 *db, const char *sql) {
    char *error = NULL;
    if (sqlite3_exec(db, sql, NULL, NULL, &error) != SQLITE_OK)
        give_up(sql, error);
}

static void run_file(sqlite3 *db, const char *name) {
    static char path[100], sql[1 << 16];
    snprintf(path, sizeof path, "bench/typed/%s", name);
    sql[load(path, sql, sizeof sql - 1)] = 0;
    run(db, sql);
}

/* The rows of the station, read off its sheet. */
static void fill(sqlite3 *db, bool placed) {
    char sql[200];
    for (size_t node = 0; node < 60; node++) {
        sql[0] = 0;
        if (has(labelled(PLATFORM), node))
            snprintf(sql, sizeof sql, "INSERT INTO platform VALUES (%zu, %d)", node, has(labelled(LONG_PLATFORM), node));
        else if (has(labelled(SLOT), node))
            snprintf(sql, sizeof sql, "INSERT INTO slot VALUES (%zu)", node);
        else if (has(labelled(CREW), node))
            snprintf(sql, sizeof sql, "INSERT INTO crew VALUES (%zu)", node);
        run(db, sql);
    }
    for (size_t node = 0; node < 60; node++) {
        sql[0] = 0;
        if (has(labelled(BERTH), node))
            snprintf(sql, sizeof sql, "INSERT INTO berth (id, platform, is_long, slot, closed, crew) VALUES (%zu, %zu, %d, %zu, %d, %s)", node,
                     end(HAS_PLATFORM, node), has(labelled(LONG_PLATFORM), end(HAS_PLATFORM, node)), end(HAS_SLOT, node), has(labelled(CLOSED), node), crew_of(node));
        run(db, sql);
    }
    for (size_t node = FIRST_TRAIN; node < FIRST_TRAIN + TRAINS; node++) {
        char berth[8] = "NULL";
        if (ends(STANDS_AT, node) != 0)
            snprintf(berth, sizeof berth, "%zu", end(STANDS_AT, node));
        snprintf(sql, sizeof sql, "INSERT INTO train (id, is_long, berth%s) VALUES (%zu, %d, %s%s)", placed ? ", placed" : "", node,
                 has(labelled(LONG_TRAIN), node), berth, placed ? has(labelled(PLACED), node) ? ", 1" : ", 0" : "");
        run(db, sql);
        for (size_t other = node + 1; other < FIRST_TRAIN + TRAINS; other++)
            if (has(ends(CONNECTS_TO, node), other)) {
                snprintf(sql, sizeof sql, "INSERT INTO connects_to VALUES (%zu, %zu)", node, other);
                run(db, sql);
            }
    }
}

static sqlite3_stmt *prepared(sqlite3 *db, const char *sql) {
    sqlite3_stmt *s = NULL;
    if (sqlite3_prepare_v3(db, sql, -1, SQLITE_PREPARE_PERSISTENT, &s, NULL) != SQLITE_OK)
        give_up(sql, sqlite3_errmsg(db));
    return s;
}

static void open_schema(struct schema *s, bool placed) {
    if (sqlite3_open(":memory:", &s->db) != SQLITE_OK)
        give_up(s->file, sqlite3_errmsg(s->db));
    run_file(s->db, "station.sql");
    run_file(s->db, s->file);
    run(s->db, "BEGIN");
    fill(s->db, placed);
    run(s->db, "COMMIT");
    s->begin = prepared(s->db, "BEGIN");
    s->commit = prepared(s->db, "COMMIT");
    s->rollback = prepared(s->db, "ROLLBACK");
    s->leave = prepared(s->db, "UPDATE train SET berth = NULL WHERE id = ?1 AND berth = ?2");
    s->take = prepared(s->db, "UPDATE train SET berth = CASE WHEN ?4 AND (SELECT closed FROM berth WHERE id = ?3) THEN ?2 "
                              "WHEN ?4 AND EXISTS (SELECT 1 FROM train WHERE berth = ?3) THEN ?2 ELSE ?3 END WHERE id = ?1");
    if (placed) {
        s->unmark = prepared(s->db, "UPDATE train SET placed = 0 WHERE placed AND berth IS NULL");
        s->mark = prepared(s->db, "UPDATE train SET placed = 1 WHERE NOT placed AND berth IS NOT NULL");
    }
    s->stands = prepared(s->db, "SELECT id, berth FROM train WHERE berth IS NOT NULL ORDER BY id");
}

/* A move of a train from the berth it has to another; `asked`: only where that one is free and open. */
struct move {
    int train, from, to;
    bool asked;
};

static bool stepped(sqlite3_stmt *s) {
    int status = sqlite3_step(s);
    sqlite3_reset(s);
    return status == SQLITE_DONE;
}

static bool make_move(struct schema *s, struct move m) {
    int values[] = {m.train, m.from, m.to, m.asked};
    for (int i = 0; i < 4; i++) {
        if (i < 2)
            sqlite3_bind_int(s->leave, i + 1, values[i]);
        sqlite3_bind_int(s->take, i + 1, values[i]);
    }
    stepped(s->begin);
    bool made = stepped(s->leave) && stepped(s->take) && (s->mark == NULL || (stepped(s->unmark) && stepped(s->mark))) && stepped(s->commit);
    if (!made)
        stepped(s->rollback);
    return made;
}

/* The edit of a move in codes: that of move.words, with other nodes, or without its question. */
static size_t edit_of(struct move m, uint8_t *edit) {
    char question[200] = "", otherwise[100] = "", words[500];
    if (m.asked) {
        snprintf(question, sizeof question, "if(is(node:%d, not(or(label:6, some(reversed(arrow:0), all)))))", m.to);
        snprintf(otherwise, sizeof otherwise, "else add(arrow:0, pair(node:%d, node:%d)) end", m.train, m.from);
    }
    int length = snprintf(words, sizeof words,
                          "take(arrow:0, pair(node:%d, node:%d)) %s add(arrow:0, pair(node:%d, node:%d)) %s "
                          "unmark(label:7, not(some(arrow:0, all))) mark(label:7, some(arrow:0, all))",
                          m.train, m.from, question, m.train, m.to, otherwise);
    zamiathen_length codes = zamiathen_edit_from_words((const uint8_t *)"", 0, (const uint8_t *)words, (size_t)length, edit, ZAMIATHEN_TEXT_BYTES);
    if (codes.number != ZAMIATHEN_DONE)
        give_up(words, zamiathen_text(codes.number));
    return codes.length;
}

static bool enter_move(const uint8_t *edit, size_t length) {
    return zamiathen_enter(sheet, sizeof sheet, book, book_length, edit, length, scratch, sizeof scratch).number == ZAMIATHEN_DONE;
}

static bool same_trains(struct schema *s) {
    bool same = true;
    for (size_t train = FIRST_TRAIN; train < FIRST_TRAIN + TRAINS; train++) {
        uint64_t berths = zamiathen_row_set(sheet, sizeof sheet, STANDS_AT, train).set;
        if (berths == 0)
            continue;
        same = same && sqlite3_step(s->stands) == SQLITE_ROW && (size_t)sqlite3_column_int(s->stands, 0) == train && has(berths, (size_t)sqlite3_column_int(s->stands, 1));
    }
    same = same && sqlite3_step(s->stands) == SQLITE_DONE;
    sqlite3_reset(s->stands);
    return same;
}

/* The same moves on the sheet and in both schemas. */
static void compare(struct schema *schemas) {
    size_t entered = 0, refused = 0;
    srand(1);
    for (int i = 0; i < MOVES; i++) {
        struct move m = {FIRST_TRAIN + rand() % TRAINS, 0, FIRST_BERTH + rand() % BERTHS, rand() % 2};
        uint64_t berths = zamiathen_row_set(sheet, sizeof sheet, STANDS_AT, (size_t)m.train).set;
        if (berths == 0)
            continue;
        while (!has(berths, (size_t)m.from))
            m.from++;
        uint8_t edit[ZAMIATHEN_TEXT_BYTES];
        bool made = enter_move(edit, edit_of(m, edit));
        *(made ? &entered : &refused) += 1;
        for (int k = 0; k < 2; k++)
            if (make_move(&schemas[k], m) != made || !same_trains(&schemas[k]))
                give_up(schemas[k].name, "it does not do what the sheet does");
    }
    printf("The same moves leave the same trains at the same berths, on the sheet and in both schemas: %zu entered, %zu refused.\n", entered, refused);
}

static int by_size(const void *a, const void *b) {
    double x = *(const double *)a, y = *(const double *)b;
    return (x > y) - (x < y);
}

static double median(double *times, size_t count) {
    qsort(times, count, sizeof *times, by_size);
    return times[count / 2];
}

static double now(void) {
    struct timespec t;
    clock_gettime(CLOCK_MONOTONIC, &t);
    return (double)t.tv_sec * 1e6 + (double)t.tv_nsec / 1e3;
}

int main(int count, char **words) {
    size_t rounds = count > 1 ? strtoull(words[1], NULL, 10) : 5000;
    struct schema schemas[] = {{.file = "steps.sql", .name = "all steps"}, {.file = "column.sql", .name = "placed generated"}};
    load("examples/station/sheet.bin", opening, sizeof opening);
    book_length = load("examples/station/book.bin", book, sizeof book);
    memcpy(sheet, opening, sizeof sheet);
    for (int k = 0; k < 2; k++)
        open_schema(&schemas[k], k == 0);
    compare(schemas);
    for (int k = 0; k < 2; k++) { /* anew */
        sqlite3_close_v2(schemas[k].db);
        schemas[k].mark = schemas[k].unmark = NULL;
        open_schema(&schemas[k], k == 0);
    }
    struct move there = {34, 10, 11, true}, back = {34, 11, 10, true};
    uint8_t edit[ZAMIATHEN_TEXT_BYTES];
    size_t length = load("examples/station/move.bin", edit, sizeof edit);
    double *times[3];
    for (int k = 0; k < 3; k++)
        times[k] = malloc(rounds * sizeof **times);
    for (size_t i = 0; i < rounds; i++) {
        memcpy(sheet, opening, sizeof sheet);
        double start = now();
        bool made = enter_move(edit, length);
        times[0][i] = now() - start;
        for (int k = 0; k < 2; k++) {
            start = now();
            made = make_move(&schemas[k], there) && made;
            times[k + 1][i] = now() - start;
            made = make_move(&schemas[k], back) && made;
        }
        if (!made)
            give_up("a round", "the move is refused");
    }
    double enter = median(times[0], rounds);
    printf("%-36s | %10.2f microseconds\n", "enter, done", enter);
    for (int k = 0; k < 2; k++) {
        double other = median(times[k + 1], rounds);
        printf("SQLite, typed, %-21s | %10.2f microseconds; enter takes %.2f of it\n", schemas[k].name, other, enter / other);
    }
    return 0;
}
