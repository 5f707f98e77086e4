/* One writer of bench/database: moves trains for some seconds, or so many times, and prints how many moves were entered and how
 * many refused.
 *
 *   database sheet DB EXTENSION SYNCHRONOUS SECONDS MOVES SEED     by edits, into sql/schema.sql
 *   database typed DB EXTENSION SYNCHRONOUS SECONDS MOVES SEED     by rows, into sql/typed.sql
 *
 * With the same seed both are asked to make the same moves: a third of them to no berth.
 */
#define _XOPEN_SOURCE 700
#include <sqlite3.h>
#include <stdbool.h>
#include <stdint.h>
#include <stdio.h>
#include <stdlib.h>
#include <string.h>
#include <time.h>

static uint64_t state;

/* splitmix64 */
static size_t below(size_t limit) {
    uint64_t z = state += 0x9E3779B97F4A7C15u;
    z = (z ^ (z >> 30)) * 0xBF58476D1CE4E5B9u;
    z = (z ^ (z >> 27)) * 0x94D049BB133111EBu;
    return (size_t)((z ^ (z >> 31)) % limit);
}

static void give_up(const char *what, sqlite3 *db) {
    fprintf(stderr, "%s: %s\n", what, sqlite3_errmsg(db));
    exit(1);
}

/* words: mode, file, extension, synchronous. */
static sqlite3 *open_database(char **words) {
    sqlite3 *db = NULL;
    char settings[100];
    snprintf(settings, sizeof settings, "PRAGMA foreign_keys = ON; PRAGMA synchronous = %s", words[3]);
    if (sqlite3_open(words[1], &db) != SQLITE_OK)
        give_up(words[1], db);
    sqlite3_busy_timeout(db, 60000);
    sqlite3_enable_load_extension(db, 1);
    if (sqlite3_load_extension(db, words[2], NULL, NULL) != SQLITE_OK)
        give_up(words[2], db);
    if (sqlite3_exec(db, settings, NULL, NULL, NULL) != SQLITE_OK)
        give_up(settings, db);
    return db;
}

/* The edit of a move: the train leaves the berth that it has, and "placed" goes with it. */
static size_t edit_of(uint8_t *edit, uint8_t train, uint8_t berth) {
    const uint8_t leave[] = {0x34, 0, 0x12, 0x16, 0x12, 0x11, 0, 0x04, train};
    const uint8_t none[] = {0x32, 7, 0x04, train, 0x30}, other[] = {0x33, 0, 0x17, train, berth, 0x31, 7, 0x04, train, 0x30};
    size_t more = berth == 0 ? sizeof none : sizeof other;
    memcpy(edit, leave, sizeof leave);
    memcpy(edit + sizeof leave, berth == 0 ? none : other, more);
    return sizeof leave + more;
}

/* One move: entered or not. */
static bool move(sqlite3 *db, sqlite3_stmt *s, bool typed) {
    const char *stations[] = {"A", "B", "C"};
    uint8_t edit[40], train = (uint8_t)(34 + below(20)), berth = below(3) == 0 ? 0 : (uint8_t)(10 + below(24));
    sqlite3_bind_text(s, 1, stations[below(3)], -1, SQLITE_STATIC);
    if (typed) {
        sqlite3_bind_int(s, 2, train);
        berth == 0 ? sqlite3_bind_null(s, 3) : sqlite3_bind_int(s, 3, berth);
    } else {
        sqlite3_bind_blob(s, 2, edit, (int)edit_of(edit, train, berth), SQLITE_STATIC);
    }
    int status = sqlite3_step(s);
    sqlite3_reset(s);
    if (status != SQLITE_DONE && (status & 0xff) != SQLITE_CONSTRAINT)
        give_up("a move", db);
    return status == SQLITE_DONE;
}

int main(int count, char **words) {
    if (count != 8) {
        fprintf(stderr, "usage: database sheet|typed DB EXTENSION SYNCHRONOUS SECONDS MOVES SEED\n");
        return 2;
    }
    bool typed = strcmp(words[1], "typed") == 0;
    sqlite3 *db = open_database(words + 1);
    sqlite3_stmt *s = NULL;
    const char *sql = typed ? "INSERT INTO moves (station, train, berth, who) VALUES (?1, ?2, ?3, 'planner')"
                            : "INSERT INTO edits (station, edit, who) VALUES (?1, ?2, 'planner')";
    if (sqlite3_prepare_v2(db, sql, -1, &s, NULL) != SQLITE_OK)
        give_up(sql, db);
    state = strtoull(words[7], NULL, 10);
    size_t entered = 0, refused = 0, moves = strtoull(words[6], NULL, 10);
    for (time_t until = time(NULL) + atoi(words[5]); time(NULL) < until && entered + refused < moves;)
        *(move(db, s, typed) ? &entered : &refused) += 1;
    printf("%zu %zu\n", entered, refused);
    sqlite3_finalize(s);
    return sqlite3_close(db) != SQLITE_OK;
}
