/* Damaged inputs for the command: its functions, called in one process under the sanitizers, the same inputs in each run.
 *
 * Words, codes, tables of names, sheets, cards, pages, stores and logs of the station are damaged and passed to the commands in
 * files of a folder of its own. Each call must end with status 0, 1 or 2. A sheet on disk must be sound after each command that
 * changes it, and as it was after each refusal and each trial; a damaged sheet, store or log that a command does not take must
 * be as it was, too. What the command prints is thrown away; the last line counts.
 *
 *   damaged [COUNT]      in the repository's folder; 100,000 by default
 */
#define _XOPEN_SOURCE 700
#include <stdio.h>

/* the command's messages go here; those of the sanitizers, to the file 2 itself, are seen */
static FILE *thrown;
#undef stderr
#define stderr thrown

#define ZAMIATHEN_NO_MAIN
#include "../../tools/edits.c"
#include "../../tools/enter.c"
#include "../../tools/files.c"
#include "../../tools/logs.c"
#include "../../tools/pages.c"
#include "../../tools/plans.c"
#include "../../tools/sheets.c"
#include "../../tools/tables.c"
#include "../../tools/why.c"
#include "../../tools/words.c"
#include "../../tools/zamiathen.c"

#include <dirent.h>

/* many small requests for memory: a short stack for each, and little kept back after it is freed */
const char *__asan_default_options(void);

const char *__asan_default_options(void) {
    return "malloc_context_size=3:quarantine_size_mb=16";
}

enum { LONGEST = 70000, WORDS_MOST = 16 };

typedef struct {
    uint8_t bytes[LONGEST];
    size_t length;
} input;

static uint64_t state = 38;

static size_t below(size_t limit) {
    state ^= state << 13;
    state ^= state >> 7;
    state ^= state << 17;
    return (size_t)(state >> 16) % limit;
}

static const char *const pieces[] = {
    "(", ")", ",", "#", "\n", " ", "\t", "\r\n", "each", "each-arrow", "is", "joined", "and", "or", "not", "some", "every",
    "at-least", "at-most", "all", "none", "reversed", "without", "to", "pair", "mark", "unmark", "add", "take", "if", "else",
    "end", "label", "arrow", "node", "label:3", "arrow:9", "node:7", "node:60", "label:", "0", "1", "59", "60", "01", "train",
    "stands-at", "T34", "P1-S3", "closed", "\xC3\xA4", "\xFF", "\x1B[31m", "\x7F", "# a comment", "##", "((((((((", "))))))",
    ",,,", "not(not(not(not(not(not(not(not(", "if(is(T34, all)) ", "each(train, all) each(train, all)\n",
};

static void insert(input *in, size_t at, const void *bytes, size_t length) {
    if (in->length + length > LONGEST)
        return;
    memmove(in->bytes + at + length, in->bytes + at, in->length - at);
    memcpy(in->bytes + at, bytes, length);
    in->length += length;
}

static void cut(input *in, size_t at, size_t length) {
    if (length > in->length - at)
        length = in->length - at;
    memmove(in->bytes + at, in->bytes + at + length, in->length - at - length);
    in->length -= length;
}

/* One change: a byte, a cut, a part doubled, a piece of the notation, the end gone. */
static void damage(input *in) {
    uint8_t part[64];
    size_t at = below(in->length + 1), length = 1 + below(40);
    const char *piece = pieces[below(sizeof pieces / sizeof *pieces)];
    switch (below(8)) {
    case 0:
        if (at < in->length)
            in->bytes[at] = (uint8_t)below(256);
        break;
    case 1: cut(in, at, 1 + below(3)); break;
    case 2: cut(in, at, length); break;
    case 3:
        length = at + length <= in->length ? length : 0;
        memcpy(part, in->bytes + at, length);
        insert(in, below(in->length + 1), part, length);
        break;
    case 4:
        if (below(8) == 0)
            in->length = at;
        break;
    case 5: cut(in, at, strlen(piece)); insert(in, at < in->length ? at : in->length, piece, strlen(piece)); break;
    default: insert(in, at, piece, strlen(piece));
    }
}

/* The check bytes of each block, made right. */
static void mend(input *in) {
    for (size_t block = 0; 512 * (block + 1) <= in->length; block++) {
        uint8_t *bytes = in->bytes + 512 * block;
        unsigned s = 0, t = 0;
        for (size_t i = 0; i < 508; i++) {
            s = (s + bytes[i]) % 257;
            t = (t + s) % 257;
        }
        bytes[508] = (uint8_t)(s & 255), bytes[509] = (uint8_t)(s >> 8);
        bytes[510] = (uint8_t)(t & 255), bytes[511] = (uint8_t)(t >> 8);
    }
}

static void damage_sheet(input *in) {
    for (size_t i = 0; i < 1 + below(3) && in->length > 0; i++) {
        size_t place = below(4) == 0 ? below(in->length) : 512 * below(in->length / 512 + 1) + 16 + below(480);
        in->bytes[place % in->length] ^= (uint8_t)(1u << below(8));
    }
    if (below(16) == 0)
        in->length = below(in->length + 1);
    if (below(4) != 0)
        mend(in);
}

/* Other squares, and other bytes in place of squares; the length stays. */
static void damage_page(input *in) {
    static const char bytes[] = "##..  0aLA\n\r";
    for (size_t i = 0, many = 1 + below(4); i < many; i++)
        in->bytes[below(in->length)] = (uint8_t)bytes[below(sizeof bytes)];
}

static char folder[256];

/* The path of a file in the folder. */
static const char *path_of(char *path, const char *name) {
    snprintf(path, 512, "%s/%s", folder, name);
    return path;
}

static void store(const char *name, const input *in) {
    char path[512];
    FILE *to = fopen(path_of(path, name), "wb");
    if (to == NULL || fwrite(in->bytes, 1, in->length, to) != in->length || fclose(to) != 0)
        exit(WRONG);
}

static void load(const char *path, input *in) {
    FILE *from = fopen(path, "rb");
    if (from == NULL) {
        dprintf(STDERR_FILENO, "%s cannot be read\n", path);
        exit(WRONG);
    }
    in->length = fread(in->bytes, 1, LONGEST, from);
    fclose(from);
}

/* Loads a file of the station, or one of the folder, written %NAME. */
static void load_station(const char *name, input *in) {
    char path[512];
    if (name[0] == '%')
        path_of(path, name + 1);
    else
        snprintf(path, sizeof path, "examples/station/%s", name);
    load(path, in);
}

/* Calls the command with a line of words; files of the folder are written %NAME. */
static int call(const char *line) {
    static char paths[WORDS_MOST][512];
    char copy[512], *words[WORDS_MOST + 2], program[] = "zamiathen";
    int count = 0;
    snprintf(copy, sizeof copy, "%s", line);
    words[count++] = program;
    for (char *word = strtok(copy, " "); word != NULL && count <= WORDS_MOST; word = strtok(NULL, " ")) {
        if (word[0] == '%') {
            path_of(paths[count - 1], word + 1);
            word = paths[count - 1];
        }
        words[count++] = word;
    }
    words[count] = NULL;
    return zamiathen_tool(count, words);
}

/* What is damaged, into which file, and the commands that read it. A sheet on disk is sheet.bin, which enter may change. */
typedef struct {
    char sort; /* w words or codes, n names, s sheet, p page */
    const char *source, *target;
    unsigned weight;
    const char *lines[6];
} plan;

static const plan plans[] = {
    {'w', "book.words", "bad.words", 40, {"list %bad.words", "codes book %bad.words %out.bin", "words rule %bad.words"}},
    {'w', "move.words", "bad.words", 40, {"words edit %bad.words", "codes edit %bad.words", "make 60 %bad.words %made.bin"}},
    {'w', "swap.words", "bad.words", 3, {"enter %sheet.bin %book.words %bad.words --try", "why %sheet.bin %book.bin %bad.words",
        "enter %sheet.bin %book.words %bad.words", "table %sheet.bin berth has-platform has-slot stands-at --try %bad.words --book %book.words --svg %out.svg"}},
    {'w', "book.bin", "bad.bin", 8, {"list %bad.bin", "words book %bad.bin", "words rule %bad.bin", "judge %sheet.bin %bad.bin", "codes book %bad.bin"}},
    {'w', "move.bin", "bad.bin", 8, {"words edit %bad.bin", "enter %sheet.bin %book.bin %bad.bin", "enter %sheet.bin %book.words %bad.bin --try",
        "why %sheet.bin %book.words %bad.bin"}},
    {'w', "carried.bin", "bad.bin", 4, {"words rule %bad.bin"}},
    {'n', "station.names", "bad.names", 4, {"list %book.words --names %bad.names", "words edit %move.bin --names %bad.names",
        "judge --names %bad.names %clash.bin %book.bin", "show --names %bad.names %sheet.bin stands-at --svg %out.svg"}},
    {'s', "sheet.bin", "bad.bin", 3, {"judge %bad.bin %book.words", "show %bad.bin", "diff %sheet.bin %bad.bin", "show %bad.bin serves --svg %out.svg",
        "table %bad.bin berth has-platform has-slot stands-at --svg %out.svg", "enter %bad.bin %book.words %move.words --try"}},
    {'s', "sheet.bin", "bad.bin", 3, {"close %bad.bin %book.words P1-S1", "open %bad.bin %book.bin T34", "keep %bad.bin %plans.bin 2", "return %bad.bin %store.bin 1 %book.words"}},
    {'s', "sheet.bin", "bad.bin", 3, {"join %bad.bin %clash.bin %out.bin", "convert %bad.bin %out.bin", "page %bad.bin stands-at", "page %bad.bin labels %out.page", "type %bad.bin %stands_at.page"}},
    {'s', "card_257.bin", "bad.bin", 2, {"convert %bad.bin %out.bin"}},
    {'p', "stands_at.page", "bad.page", 3, {"type %sheet.bin %bad.page"}},
    {'p', "%labels.page", "bad.page", 2, {"type %sheet.bin %bad.page"}},
    {'w', "swap.words", "bad.words", 6, {"chain %bad.words %move.bin %out.words", "chain %move.words %bad.words %out.bin", "count 1 %goal.words %bad.words",
        "play %sheet.bin %book.words %goal.words 2 %bad.words --against %swap.words"}},
    {'w', "swap.bin", "bad.bin", 6, {"chain %bad.bin %bad.bin %out.words", "play %sheet.bin %book.words %goal.words 3 %swap.words --against %bad.bin %move.bin"}},
    {'w', "../small/edit.bin", "bad.bin", 3, {"count 2 %small.words %bad.bin"}},
    {'w', "../small/book.bin", "bad.bin", 3, {"count 2 %bad.bin %bad.bin", "count 1 %bad.bin %step.words"}},
    {'w', "goal.bin", "bad.bin", 4, {"count 2 %bad.bin %swap.words", "play %sheet.bin %book.bin %bad.bin 1 %swap.words", "play %sheet.bin %bad.bin %goal.words 2 %move.words"}},
    {'w', "swap.bin", "bad.bin", 3, {"log %bad.bin %new.log", "log %move.words %bad.bin"}},
    {'s', "week.bin", "bad.bin", 1, {"replay %sheet.bin %book.bin %bad.bin", "replay %sheet.bin %book.words %bad.bin %out.bin", "log %move.bin %bad.bin", "log %swap.words %bad.bin",
        "log %bad.bin %bad.bin"}},
    {'w', "book.bin", "bad.bin", 4, {"close %sheet.bin %bad.bin P1-S2", "open %sheet.bin %bad.bin node:59", "return %sheet.bin %store.bin 2 %bad.bin"}},
    {'s', "%store.bin", "bad.bin", 3, {"keep %sheet.bin %bad.bin 3", "return %sheet.bin %bad.bin 1 %book.words", "return %sheet.bin %bad.bin 2 %book.bin", "drop %bad.bin 1"}},
};

enum { PLANS = sizeof plans / sizeof *plans };

static input seeds[PLANS], sheet_before;

static const plan *choose(size_t *index) {
    size_t total = 0;
    for (size_t i = 0; i < PLANS; i++)
        total += plans[i].weight;
    size_t left = below(total);
    for (*index = 0; left >= plans[*index].weight; ++*index)
        left -= plans[*index].weight;
    return &plans[*index];
}

/* A line of words taken at random, in no order. */
static int call_odd(void) {
    static const char *const words[] = {
        "book", "edit", "rule", "enter", "%store.bin", "labels", "P6", "%swap.words", "%goal.words",
        "--names", "--try", "--book", "--svg", "--closed", "--who", "--", "--against", "--no", "-1", "0", "1", "60", "61", "99999999999999999999",
        "%sheet.bin", "%book.words", "%move.words", "%book.bin", "%move.bin", "%out.bin", "%none", "%", "berth", "has-slot",
        "has-platform", "stands-at", "train", "T34", "T34,all)#", "", "is(", "closed",
    };
    char line[512] = "";
    size_t count = below(9);
    for (size_t i = 0; i < count; i++) {
        const char *word = i == 0 ? commands[below(COMMANDS)].name : words[below(sizeof words / sizeof *words)];
        strcat(line, strcmp(word, "%sheet.bin") == 0 && i > 0 && below(2) == 0 ? "%clash.bin" : word);
        strcat(line, " ");
    }
    return call(line);
}

/* Is this a command that changes the sheet on disk if it is done? */
static bool changes_sheet(const char *line) {
    static const char *const changing[] = {"enter %sheet", "close %sheet", "open %sheet", "return %sheet", "type %sheet"};
    bool found = false;
    for (size_t i = 0; i < sizeof changing / sizeof *changing; i++)
        found |= strncmp(line, changing[i], strlen(changing[i])) == 0;
    return found;
}

/* Is the sheet on disk sound, and as it was unless the command was done? Then it is put back. */
static bool sheet_kept(int status, const char *line) {
    char path[512];
    static input now;
    load(path_of(path, "sheet.bin"), &now);
    bool same = now.length == sheet_before.length && memcmp(now.bytes, sheet_before.bytes, now.length) == 0;
    bool may_change = status == DONE && strstr(line, "--try") == NULL;
    bool sound = zamiathen_check(now.bytes, now.length).number == ZAMIATHEN_DONE;
    if (!same)
        store("sheet.bin", &sheet_before);
    return sound && (same || may_change);
}

/* The files that are not damaged, as they were; the last is made by the command. */
typedef struct {
    const char *name;
    input content;
} original;

static original originals[] = {
    {"station.names", {{0}, 0}}, {"book.words", {{0}, 0}}, {"book.bin", {{0}, 0}},  {"move.words", {{0}, 0}}, {"move.bin", {{0}, 0}},
    {"clash.bin", {{0}, 0}},     {"sheet.bin", {{0}, 0}},  {"swap.words", {{0}, 0}}, {"goal.words", {{0}, 0}}, {"stands_at.page", {{0}, 0}},
    {"store.bin", {{0}, 0}},
};

enum { ORIGINALS = sizeof originals / sizeof *originals };

static void lay_out_files(void) {
    for (size_t i = 0; i < ORIGINALS; i++)
        store(originals[i].name, &originals[i].content);
}

/* Is the damaged file as it was? */
static bool target_kept(const char *name, const input *in) {
    char path[512];
    static input now;
    load(path_of(path, name), &now);
    return now.length == in->length && memcmp(now.bytes, in->bytes, now.length) == 0;
}

static bool one(void) {
    static input in;
    size_t index, lines = 0;
    const plan *p = choose(&index);
    if (below(40) == 0) {
        int status = call_odd();
        lay_out_files(); /* new and others may have written them */
        return status >= DONE && status <= WRONG;
    }
    in.length = seeds[index].length;
    memcpy(in.bytes, seeds[index].bytes, in.length);
    if (p->sort == 's')
        damage_sheet(&in);
    else if (p->sort == 'p' && below(4) != 0)
        damage_page(&in);
    else
        for (size_t i = 0, many = 1 + below(below(8) == 0 ? 12 : 2); i < many; i++)
            damage(&in);
    store(p->target, &in);
    while (lines < 6 && p->lines[lines] != NULL)
        lines++;
    const char *line = p->lines[below(lines)];
    int status = call(line);
    bool kept = !changes_sheet(line) || sheet_kept(status, line);
    if (status != DONE && (p->sort == 's' || strncmp(line, "log", 3) == 0))
        kept &= target_kept(p->target, &in);
    return status >= DONE && status <= WRONG && kept;
}

/* A short table of names, all that the texts here use, for the calls that are not about names: reading it takes most of the time. */
static void shorten_names(input *in) {
    static const char *const nodes[] = {" T34\n", " T35\n", " P1-S1\n", " P1-S2\n", " P1-S3\n"};
    size_t end = 0;
    for (size_t at = 0; at < in->length;) {
        uint8_t *feed = memchr(in->bytes + at, '\n', in->length - at);
        size_t length = feed == NULL ? in->length - at : (size_t)(feed - in->bytes) + 1 - at;
        bool kept = memcmp(in->bytes + at, "node ", 5) != 0;
        for (size_t i = 0; i < sizeof nodes / sizeof *nodes; i++)
            kept |= length > strlen(nodes[i]) && memcmp(in->bytes + at + length - strlen(nodes[i]), nodes[i], strlen(nodes[i])) == 0;
        if (kept) {
            memmove(in->bytes + end, in->bytes + at, length);
            end += length;
        }
        at += length;
    }
    in->length = end;
}

static void store_words(const char *name, const char *words) {
    static input in;
    in.length = strlen(words);
    memcpy(in.bytes, words, in.length);
    store(name, &in);
}

/* The program replay is that of the repository, if it is built. */
static void set_path(void) {
    char here[512], path[600];
    if (getcwd(here, sizeof here) == NULL)
        exit(WRONG);
    snprintf(path, sizeof path, "%s/target/bin", here);
    setenv("PATH", path, 1);
}

static void set_up(void) {
    set_path();
    snprintf(folder, sizeof folder, "%s/damaged.XXXXXX", access("/dev/shm", W_OK) == 0 ? "/dev/shm" : "/tmp");
    if (mkdtemp(folder) == NULL)
        exit(WRONG);
    for (size_t i = 0; i + 1 < ORIGINALS; i++)
        load_station(originals[i].name, &originals[i].content);
    shorten_names(&originals[0].content);
    originals[ORIGINALS - 1].content.length = ZAMIATHEN_STORE_BYTES;
    zamiathen_store_blank(originals[ORIGINALS - 1].content.bytes, ZAMIATHEN_STORE_BYTES);
    lay_out_files();
    if (call("keep %sheet.bin %store.bin 1") != DONE || call("keep %clash.bin %store.bin 2") != DONE)
        exit(WRONG);
    load_station("%store.bin", &originals[ORIGINALS - 1].content);
    load_station("sheet.bin", &sheet_before);
    store_words("small.words", "each(platform, some(stands-at, platform))");
    store_words("step.words", "mark(platform, some(stands-at, all))");
    if (call("page %sheet.bin labels %labels.page") != DONE)
        exit(WRONG);
    for (size_t i = 0; i < PLANS; i++)
        load_station(plans[i].source, &seeds[i]);
}

/* Removes the folder and the files in it: odd lines of words leave some under odd names. */
static void clear_up(void) {
    char path[512];
    DIR *opened = opendir(folder);
    if (opened == NULL)
        return;
    for (struct dirent *entry = readdir(opened); entry != NULL; entry = readdir(opened))
        if (strcmp(entry->d_name, ".") != 0 && strcmp(entry->d_name, "..") != 0)
            unlink(path_of(path, entry->d_name));
    closedir(opened);
    if (rmdir(folder) != 0)
        dprintf(STDERR_FILENO, "%s is not empty\n", folder);
}

int main(int count, char **words) {
    size_t many = count > 1 ? strtoul(words[1], NULL, 10) : 100000, passed = 0;
    int output = dup(STDOUT_FILENO);
    thrown = fopen("/dev/null", "w");
    if (thrown == NULL || freopen("/dev/null", "w", stdout) == NULL)
        return WRONG;
    set_up();
    if (chdir(folder) != 0)
        return WRONG;
    for (size_t i = 0; i < many; i++) {
        bool fine = one();
        passed += fine;
        if (!fine)
            dprintf(STDERR_FILENO, "input %zu: a wrong status, or a sheet that is not as it should be\n", i);
    }
    clear_up();
    dprintf(output, "%zu passed, %zu failed\n", passed, many - passed);
    return passed == many ? 0 : 1;
}
