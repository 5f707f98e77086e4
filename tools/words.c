/* Books, edits and tables of names in words: where a fault stands and what is wanted there, names and numbers, a rule's line and
 * its sentence. */
#include "command.h"

#include <errno.h>
#include <stdlib.h>
#include <string.h>
#include <unistd.h>

enum { DEEPEST = 64 }; /* brackets, and ifs: readable words have at most 32 levels */

/*
 * Tokens, and where they stand
 */

typedef struct {
    size_t start, end;
} token;

static bool is_mark(uint8_t byte) {
    return byte == '(' || byte == ')' || byte == ',';
}

static bool is_blank(uint8_t byte) {
    return byte == ' ' || byte == '\t' || byte == '\n' || byte == '\r';
}

static bool ends_word(uint8_t byte) {
    return is_mark(byte) || is_blank(byte) || byte == '#';
}

/* The first token from a place on, if there is one. */
static bool next_token(const file *f, size_t at, token *found) {
    while (at < f->length && (is_blank(f->bytes[at]) || f->bytes[at] == '#')) {
        if (f->bytes[at] == '#')
            while (at < f->length && f->bytes[at] != '\n')
                at++;
        else
            at++;
    }
    if (at >= f->length)
        return false;
    found->start = at++;
    if (!is_mark(f->bytes[found->start]))
        while (at < f->length && !ends_word(f->bytes[at]))
            at++;
    found->end = at;
    return true;
}

static bool token_is(const file *f, token t, const char *word) {
    return t.end - t.start == strlen(word) && memcmp(f->bytes + t.start, word, t.end - t.start) == 0;
}

static bool same_token(const file *f, token t, token u) {
    return t.end - t.start == u.end - u.start && memcmp(f->bytes + t.start, f->bytes + u.start, t.end - t.start) == 0;
}

/* A line, without its line feed, and where a place stands in it; lines and columns count from 1. */
typedef struct {
    size_t start, end, line, column;
} spot;

static spot spot_of(const file *f, size_t place) {
    spot s = {0, 0, 1, 1};
    for (size_t i = 0; i < place; i++)
        if (f->bytes[i] == '\n') {
            s.start = i + 1;
            s.line++;
        }
    for (size_t i = s.start; i < place; i++)
        s.column += begins_character(f->bytes[i]);
    s.end = place;
    while (s.end < f->length && f->bytes[s.end] != '\n')
        s.end++;
    if (s.end > s.start && s.end > place && f->bytes[s.end - 1] == '\r')
        s.end--;
    return s;
}

/* Says what is wrong at a token: file, line, column, number and sentence, then the line with a mark under the token. */
static void point_at(const file *f, token t, size_t number) {
    spot s = spot_of(f, t.start);
    size_t from = t.start - s.start > WINDOW ? t.start - WINDOW : s.start;
    size_t to = s.end > t.start && s.end - t.start > WINDOW ? t.start + WINDOW : s.end;
    while (from > s.start && !begins_character(f->bytes[from]))
        from--;
    while (to < s.end && !begins_character(f->bytes[to]))
        to++;
    fprintf(stderr, "%s:%zu:%zu: %zu: %s\n", f->path, s.line, s.column, number, zamiathen_text(number));
    fputs(from > s.start ? "…" : "", stderr);
    print_bytes(stderr, f->bytes + from, to - from);
    fputs(to < s.end ? "…\n" : "\n", stderr);
    fputs(from > s.start ? " " : "", stderr);
    for (size_t i = from; i < t.start; i++)
        if (begins_character(f->bytes[i]))
            fputc(f->bytes[i] == '\t' ? '\t' : ' ', stderr);
    fputc('^', stderr);
    for (size_t i = t.start + 1; i < t.end && i < to; i++)
        if (begins_character(f->bytes[i]))
            fputc('^', stderr);
    fputc('\n', stderr);
}

/*
 * What is wanted at a place of words
 */

/* The words of the notation: what they begin, and their operands. E is nodes, R arrows, K a rule, Z a step, i a node's name,
 * l a label's, a an arrow's, m a count from 1 on, c one from 0 on; = is each of E, R and K, the same for word and operand. */
typedef struct {
    const char *word;
    char begins;
    const char *operands;
} shape;

static const shape shapes[] = {
    {"each", 'K', "EE"},     {"each-arrow", 'K', "RR"}, {"is", 'K', "iE"},        {"joined", 'K', "iiR"},   {"mark", 'Z', "lE"},
    {"unmark", 'Z', "lE"},   {"add", 'Z', "aR"},        {"take", 'Z', "aR"},      {"if", 'Z', "K"},         {"some", 'E', "RE"},
    {"every", 'E', "RE"},    {"at-least", 'E', "mRE"},  {"at-most", 'E', "cRE"},  {"not", '=', "="},        {"and", '=', "=="},
    {"or", '=', "=="},       {"reversed", 'R', "R"},    {"without", 'R', "RR"},   {"to", 'R', "RE"},        {"pair", 'R', "ii"},
    {"all", 'E', ""},        {"none", 'E', ""},         {"else", '=', ""},        {"end", '=', ""},
};

static const shape *shape_of(const file *f, token t) {
    for (size_t i = 0; i < sizeof shapes / sizeof *shapes; i++)
        if (token_is(f, t, shapes[i].word))
            return &shapes[i];
    return NULL;
}

/* A word whose brackets are open, or an if whose branches are. */
typedef struct {
    const shape *shape;
    size_t place, operand;
    char sort;
} frame;

enum state { AT_TOP, AT_BRACKET, AT_OPERAND, AFTER_OPERAND };

typedef struct {
    frame open[DEEPEST], branches[DEEPEST]; /* the operand of a branch is 0 before its else, then 1 */
    size_t depth, ifs, last_end;            /* last_end: where the last token ends */
    enum state state;
    bool is_edit;
} context;

/* The sort of an operand. */
static char operand_sort(const frame *f, size_t operand) {
    char sort = operand < strlen(f->shape->operands) ? f->shape->operands[operand] : '=';
    return sort == '=' ? f->sort : sort;
}

/* The sort that is wanted now. */
static char wanted_sort(const context *c) {
    if (c->depth == 0)
        return c->is_edit ? 'Z' : 'K';
    const frame *last = &c->open[c->depth - 1];
    return operand_sort(last, last->operand);
}

static void pass_mark(context *c, uint8_t mark) {
    if (c->depth == 0)
        return;
    frame *last = &c->open[c->depth - 1];
    if (mark == '(') {
        c->state = AT_OPERAND;
    } else if (mark == ',') {
        last->operand++;
        c->state = AT_OPERAND;
    } else {
        c->depth--;
        c->state = c->depth > 0 ? AFTER_OPERAND : AT_TOP;
        if (c->depth == 0 && c->ifs < DEEPEST && strcmp(last->shape->word, "if") == 0)
            c->branches[c->ifs++] = (frame){last->shape, last->place, 0, 'Z'};
    }
}

static void pass_word(context *c, const file *f, token t) {
    const shape *found = shape_of(f, t);
    if (c->depth == 0 && c->ifs > 0 && token_is(f, t, "else")) {
        c->branches[c->ifs - 1].operand = 1;
    } else if (c->depth == 0 && c->ifs > 0 && token_is(f, t, "end")) {
        c->ifs--;
    } else if (found != NULL && found->operands[0] != 0 && c->depth < DEEPEST) {
        c->open[c->depth] = (frame){found, t.start, 0, wanted_sort(c)};
        c->depth++;
        c->state = AT_BRACKET;
    } else {
        c->state = c->depth > 0 ? AFTER_OPERAND : AT_TOP;
    }
}

/* Passes the tokens before a place, which begin the words of some book or edit. */
static void pass_tokens(context *c, const file *f, size_t place) {
    token t;
    for (size_t at = 0; next_token(f, at, &t) && t.start < place; at = t.end) {
        if (is_mark(f->bytes[t.start]))
            pass_mark(c, f->bytes[t.start]);
        else
            pass_word(c, f, t);
        c->last_end = t.end;
    }
}

static const char *sort_text(char sort) {
    switch (sort) {
    case 'E': return "an expression of nodes";
    case 'R': return "an expression of arrows";
    case 'K': return "a rule";
    case 'i': return "a node's name";
    case 'l': return "a label's name";
    case 'a': return "an arrow's name";
    case 'm': return "a count from 1 to 60";
    case 'c': return "a count from 0 to 59";
    default: return "a step";
    }
}

static const char *ordinal(const frame *f, size_t operand) {
    static const char *const ordinals[] = {"first ", "second ", "third "};
    return f->shape->operands[1] == 0 || operand > 2 ? "" : ordinals[operand];
}

/* Ends a line about a word: where it stands, if that is another line than the one shown. */
static void say_line(const file *f, size_t place, size_t shown) {
    size_t line = spot_of(f, place).line;
    if (line != spot_of(f, shown).line)
        fprintf(stderr, " in line %zu", line);
    fputc('\n', stderr);
}

static void say_wanted_step(const context *c, const file *f, size_t shown) {
    fputs("wanted: a step", stderr);
    if (c->ifs > 0) {
        const frame *branch = &c->branches[c->ifs - 1];
        fprintf(stderr, ", or the %s of if(…)", branch->operand == 0 ? "else" : "end");
        say_line(f, branch->place, shown);
    } else {
        fputc('\n', stderr);
    }
}

static void say_wanted(const context *c, const file *f, size_t shown) {
    if (c->depth == 0) {
        if (c->is_edit)
            say_wanted_step(c, f, shown);
        else
            fputs("wanted: a rule\n", stderr);
        return;
    }
    const frame *last = &c->open[c->depth - 1];
    const char *word = last->shape->word;
    size_t count = strlen(last->shape->operands);
    if (c->state == AT_BRACKET)
        fprintf(stderr, "wanted: ( after %s", word);
    else if (c->state == AT_OPERAND)
        fprintf(stderr, "wanted: %s, the %soperand of %s(…)", sort_text(wanted_sort(c)), ordinal(last, last->operand), word);
    else if (last->operand + 1 < count)
        fprintf(stderr, "wanted: a comma, and then %s, the %soperand of %s(…)", sort_text(operand_sort(last, last->operand + 1)),
                ordinal(last, last->operand + 1), word);
    else
        fprintf(stderr, "wanted: ) after the %soperand of %s(…)", count > 1 ? "last " : "", word);
    say_line(f, last->place, shown);
}

/*
 * Names
 */

/* The number that a word names: of a label (sort l), an arrow (a) or a node (i). The library reads it in a rule. */
bool number_of(request *r, char sort, word name, size_t *number) {
    uint8_t codes[8];
    string rule = empty_string(r);
    for (size_t i = 0; i < name.length; i++)
        if (ends_word(name.bytes[i]))
            return false;
    add(&rule, sort == 'a' ? "each-arrow(" : sort == 'i' ? "is(" : "each(");
    add_bytes(&rule, (const char *)name.bytes, name.length);
    add(&rule, ", ");
    if (sort == 'a')
        add_bytes(&rule, (const char *)name.bytes, name.length);
    else
        add(&rule, "all");
    add(&rule, ")");
    zamiathen_length read = zamiathen_book_from_words(r->names.bytes, r->names.length, (const uint8_t *)rule.bytes,
                                                      rule.length, codes, sizeof codes);
    if (read.number != ZAMIATHEN_DONE)
        return false;
    *number = sort == 'i' ? codes[1] : codes[2];
    return sort == 'i' || codes[1] == (sort == 'a' ? 0x11 : 0x03);
}

int typed_count(const char *typed, const char *wanted, size_t *number) {
    char *end;
    errno = 0;
    unsigned long long found = strtoull(typed, &end, 10);
    if (typed[0] < '0' || typed[0] > '9' || *end != 0 || errno != 0 || found > SIZE_MAX)
        return wrong("%s, not %s", wanted, typed);
    *number = (size_t)found;
    return DONE;
}

/* The name of a number, cut out of a rule that the library prints: the name stands between this many bytes before and after. */
static const char *said_name(request *r, size_t slot, const uint8_t *rule, size_t length, size_t before, size_t after) {
    uint8_t printed[4 * LONGEST_NAME];
    char *name = r->said[slot];
    if (name[0] != 0)
        return name;
    zamiathen_length words =
        zamiathen_rule_to_words(r->names.bytes, r->names.length, rule, length, printed, sizeof printed);
    size_t bytes = words.length > before + after ? words.length - before - after : 0;
    if (words.number != ZAMIATHEN_DONE || bytes == 0 || bytes > LONGEST_NAME)
        return "?";
    memcpy(name, printed + before, bytes);
    name[bytes] = 0;
    return name;
}

const char *label_name(request *r, size_t label) {
    const uint8_t rule[] = {0x21, 0x03, (uint8_t)label, 0x01};
    return said_name(r, label, rule, sizeof rule, strlen("each("), strlen(", all)\n"));
}

const char *arrow_name(request *r, size_t arrow) {
    const uint8_t rule[] = {0x21, 0x08, 0x11, (uint8_t)arrow, 0x01, 0x01};
    return said_name(r, ZAMIATHEN_LABELS + arrow, rule, sizeof rule, strlen("each(some("), strlen(", all), all)\n"));
}

const char *node_name(request *r, size_t node) {
    const uint8_t rule[] = {0x23, (uint8_t)node, 0x01};
    return said_name(r, ZAMIATHEN_LABELS + ZAMIATHEN_ARROWS + node, rule, sizeof rule, strlen("is("), strlen(", all)\n"));
}

/* For a token such as label:3, which is not read because the label has a name: that name. */
static const char *name_instead(request *r, word plain) {
    static const char *const prefixes[] = {"label:", "arrow:", "node:"};
    for (size_t sort = 0; sort < 3; sort++) {
        size_t length = strlen(prefixes[sort]), number = 0;
        if (plain.length <= length || plain.length > length + 2 || memcmp(plain.bytes, prefixes[sort], length) != 0)
            continue;
        for (size_t i = length; i < plain.length; i++) {
            if (plain.bytes[i] < '0' || plain.bytes[i] > '9')
                return NULL;
            number = 10 * number + (plain.bytes[i] - '0');
        }
        if (sort == 0)
            return number < ZAMIATHEN_LABELS ? label_name(r, number) : NULL;
        if (sort == 1)
            return number < ZAMIATHEN_ARROWS ? arrow_name(r, number) : NULL;
        return number < ZAMIATHEN_MAX_NODES ? node_name(r, number) : NULL;
    }
    return NULL;
}

/* For a token such as label:48, whose number is out of range: what the numbers of its sort are. */
static const char *numbers_instead(word plain) {
    static const struct {
        const char *prefix, *numbers;
        size_t count;
    } sorts[] = {{"label:", "labels are 0 to 47", ZAMIATHEN_LABELS},
                 {"arrow:", "arrows are 0 to 15", ZAMIATHEN_ARROWS},
                 {"node:", "nodes are 0 to 59", ZAMIATHEN_MAX_NODES}};
    for (size_t sort = 0; sort < sizeof sorts / sizeof *sorts; sort++) {
        size_t length = strlen(sorts[sort].prefix), number = 0, i = length;
        if (plain.length <= length || memcmp(plain.bytes, sorts[sort].prefix, length) != 0)
            continue;
        for (; i < plain.length && plain.bytes[i] >= '0' && plain.bytes[i] <= '9'; i++)
            if (number < sorts[sort].count)
                number = 10 * number + (plain.bytes[i] - '0');
        return i == plain.length && number >= sorts[sort].count ? sorts[sort].numbers : NULL;
    }
    return NULL;
}

/* The number of a name that was typed, or a message. */
int typed_number(request *r, char sort, const char *name, size_t *number) {
    word typed = {(const uint8_t *)name, strlen(name)};
    if (number_of(r, sort, typed, number))
        return DONE;
    const char *kind = sort == 'a' ? "arrow" : sort == 'i' ? "node" : "label", *instead = name_instead(r, typed);
    if (instead != NULL && strncmp(name, kind, strlen(kind)) == 0)
        return wrong("%s is written %s, by the names of %s", name, instead, r->names.path);
    const char *numbers = numbers_instead(typed);
    if (numbers != NULL && strncmp(name, kind, strlen(kind)) == 0)
        return wrong("there is no %s: %s", name, numbers);
    if (r->names.bytes == NULL)
        return wrong("%s is the name of no %s: there is no table of names %s", name, kind, r->names.path);
    return wrong("%s is the name of no %s in %s", name, kind, r->names.path);
}

/* Does a file begin with a byte order mark, and is this its first token? */
static bool has_order_mark(const file *f, token t) {
    return t.start == 0 && t.end >= 3 && memcmp(f->bytes, "\xEF\xBB\xBF", 3) == 0;
}

/* Does a token have a no-break space? That is not a blank, but part of a word. */
static bool has_no_break_space(const file *f, token t) {
    for (size_t i = t.start; i + 1 < t.end; i++)
        if (f->bytes[i] == 0xC2 && f->bytes[i + 1] == 0xA0)
            return true;
    return false;
}

static const char no_break_space[] = "it has a no-break space: write a blank\n";
static const char order_mark[] = "the file begins with a byte order mark: save it without\n";

/* What a word is that was not wanted: one of the notation, a name of which sort, or none. */
static void say_name(request *r, const file *f, token t, char wanted) {
    word name = {f->bytes + t.start, t.end - t.start};
    const shape *found = shape_of(f, t);
    size_t number;
    if (name.length == 0 || is_mark(name.bytes[0]) || (name.bytes[0] >= '0' && name.bytes[0] <= '9'))
        return;
    if (has_order_mark(f, t))
        fputs(order_mark, stderr);
    else if (wanted == 'R' && token_is(f, t, "not"))
        fputs("not is for nodes and rules; for arrows write without(R, S)\n", stderr);
    if (has_order_mark(f, t) || (found != NULL && found->begins == '='))
        return;
    print_bytes(stderr, name.bytes, name.length < WINDOW ? name.length : WINDOW);
    const char *instead = found == NULL ? name_instead(r, name) : NULL, *numbers = numbers_instead(name);
    if (found != NULL)
        fprintf(stderr, " %s %s\n", found->operands[0] == 0 ? "is" : "begins", sort_text(found->begins));
    else if (number_of(r, 'l', name, &number))
        fputs(" is a label's name\n", stderr);
    else if (number_of(r, 'a', name, &number))
        fputs(" is an arrow's name\n", stderr);
    else if (number_of(r, 'i', name, &number))
        fputs(" is a node's name\n", stderr);
    else if (instead != NULL)
        fprintf(stderr, " has a name, and is written %s\n", instead);
    else if (numbers != NULL)
        fprintf(stderr, " does not exist: %s\n", numbers);
    else if (r->names.bytes == NULL)
        fprintf(stderr, " is not a word of the notation, and there is no table of names %s\n", r->names.path);
    else
        fprintf(stderr, " is not a word of the notation, nor a name in %s\n", r->names.path);
}

/* What a table of names wants as the first, second or third token of a name. */
static void say_wanted_entry(const file *f, size_t position, token sort) {
    if (position == 0)
        fputs("wanted: label, arrow or node\n", stderr);
    else if (position == 1)
        fprintf(stderr, "wanted: a number from 0 to %d, without leading zeros, that has no name yet\n",
                token_is(f, sort, "label") ? ZAMIATHEN_LABELS - 1
                    : token_is(f, sort, "arrow") ? ZAMIATHEN_ARROWS - 1 : ZAMIATHEN_MAX_NODES - 1);
    else
        fputs("wanted: a new name of 1 to 64 bytes, no word of the notation, that does not begin with label:, arrow: or node:\n",
              stderr);
}

/* Where a table of names has this number of this sort, or this name, already. */
static void say_earlier(const file *f, size_t position, token t, token sort) {
    token u, earlier = {0, 0};
    size_t index = 0;
    for (size_t at = 0; next_token(f, at, &u) && u.start < t.start; at = u.end, index++) {
        if (index % 3 == 0)
            earlier = u;
        else if (index % 3 == position && same_token(f, t, u) && (position == 2 || same_token(f, earlier, sort)))
            fprintf(stderr, "line %zu has it already\n", spot_of(f, u.start).line);
    }
}

/* A fault of the table of names: 63. */
static int names_fault(const file *f, zamiathen_answer answer) {
    token t, sort = {0, 0};
    size_t count = 0, last_end = 0;
    for (size_t at = 0; next_token(f, at, &t) && t.start < answer.place; at = t.end, count++) {
        last_end = t.end;
        if (count % 3 == 0)
            sort = t;
    }
    if (!next_token(f, answer.place, &t) || t.start != answer.place)
        t = (token){last_end, last_end};
    point_at(f, t, answer.number);
    say_wanted_entry(f, count % 3, sort);
    if (has_order_mark(f, t))
        fputs(order_mark, stderr);
    if (has_no_break_space(f, t))
        fputs(no_break_space, stderr);
    if (t.end > t.start && shape_of(f, t) != NULL)
        fputs("this is a word of the notation\n", stderr);
    say_earlier(f, count % 3, t, sort);
    return REFUSED;
}

/* Reads the table of names, by default station.names in the folder of a file. Without that file there are no names. */
int read_names(request *r, const char *beside) {
    const char *path = r->names_path;
    if (path == NULL) {
        const char *slash = strrchr(beside, '/');
        string table = empty_string(r);
        add_bytes(&table, beside, slash == NULL ? 0 : (size_t)(slash - beside) + 1);
        add(&table, "station.names");
        path = table.bytes;
        r->names.path = path;
        if (access(path, F_OK) != 0 && errno == ENOENT)
            return DONE;
    }
    int status = read_file(r, path, &r->names);
    if (status != DONE)
        return status;
    zamiathen_answer answer = zamiathen_check_names(r->names.bytes, r->names.length);
    return answer.number == ZAMIATHEN_DONE ? DONE : names_fault(&r->names, answer);
}

/*
 * Books and edits
 */

static bool has_two_alike(const frame *f) {
    return strcmp(f->shape->operands, "==") == 0;
}

/* Of a third operand of and(…) or or(…): how to write it. */
static void say_third_operand(const context *c, const file *f, token here) {
    if (c->depth == 0 || c->state != AFTER_OPERAND || !token_is(f, here, ","))
        return;
    const frame *last = &c->open[c->depth - 1];
    const char *word = last->shape->word;
    if (has_two_alike(last) && last->operand == 1)
        fprintf(stderr, "%s(…) has two operands; write %s(A, %s(B, C))\n", word, word, word);
}

/* Of too many levels: how to nest a row of and(…) or or(…), if there is one. */
static void say_levels(const context *c) {
    fputs("wanted: at most 32 levels\n", stderr);
    for (size_t depth = c->depth; depth > 1; depth--) {
        const frame *inner = &c->open[depth - 1], *outer = &c->open[depth - 2];
        if (!has_two_alike(inner) || inner->shape != outer->shape)
            continue;
        const char *word = inner->shape->word;
        fprintf(stderr, "nest evenly, %s(%s(A, B), %s(C, D))%s\n", word, word, word,
                inner->sort == 'E' ? ", or give the nodes a label" : "");
        return;
    }
}

/* Of an end right after the steps of if(…): what is missing. */
static void say_else(const context *c, const file *f, token here) {
    if (c->depth == 0 && c->ifs > 0 && c->branches[c->ifs - 1].operand == 0 && token_is(f, here, "end"))
        fputs("write else before end, even without steps\n", stderr);
}

/* Is a token the name of a label, an arrow or a node? */
static bool is_name(request *r, const file *f, token t) {
    word name = {f->bytes + t.start, t.end - t.start};
    size_t number;
    return number_of(r, 'l', name, &number) || number_of(r, 'a', name, &number) || number_of(r, 'i', name, &number);
}

/* A fault of words: 64 to 70. */
static int words_fault(request *r, const text *t, size_t number, size_t place) {
    const file *f = &t->source;
    if (number == ZAMIATHEN_WORDS_LENGTH) {
        fprintf(stderr, "%s: %zu: %s\nThey stand for %s bytes.\n", f->path, number, zamiathen_text(number), figure(r, place));
        return REFUSED;
    }
    context c = {.is_edit = t->is_edit};
    pass_tokens(&c, f, place);
    token here;
    if (!next_token(f, place, &here) || here.start != place)
        here = (token){c.last_end, c.last_end};
    point_at(f, here, number);
    if (number == ZAMIATHEN_WORDS_LEVEL)
        say_levels(&c);
    else if (number == ZAMIATHEN_WORDS_RULES)
        fputs("wanted: the end of the book; two rules can be one, and(K, L)\n", stderr);
    else
        say_wanted(&c, f, here.start);
    if (number == ZAMIATHEN_WORDS_MARK)
        say_third_operand(&c, f, here);
    if (number == ZAMIATHEN_WORDS_START)
        say_else(&c, f, here);
    if (has_no_break_space(f, here) && !is_name(r, f, here))
        fputs(no_break_space, stderr);
    else if (number == ZAMIATHEN_WORDS_START || number == ZAMIATHEN_WORDS_NUMBER)
        say_name(r, f, here, wanted_sort(&c));
    return REFUSED;
}

bool ends_in(const char *path, const char *end) {
    size_t length = strlen(path);
    return length >= strlen(end) && strcmp(path + length - strlen(end), end) == 0;
}

int read_text(request *r, const char *path, bool is_edit, text *t) {
    *t = (text){.in_words = ends_in(path, ".words"), .is_edit = is_edit};
    int status = read_file(r, path, &t->source);
    t->codes = t->source.bytes;
    t->length = t->source.length;
    if (status != DONE || !t->in_words)
        return status;
    uint8_t *codes = take(r, ZAMIATHEN_TEXT_BYTES);
    zamiathen_length read = (is_edit ? zamiathen_edit_from_words : zamiathen_book_from_words)(
        r->names.bytes, r->names.length, t->source.bytes, t->source.length, codes, ZAMIATHEN_TEXT_BYTES);
    if (read.number != ZAMIATHEN_DONE)
        return words_fault(r, t, read.number, read.place);
    t->codes = codes;
    t->length = read.length;
    return DONE;
}

/* Do the bytes of a file look like text? Then they have small letters, and none that steers a terminal. */
static bool looks_like_text(const file *f) {
    bool letters = false;
    for (size_t i = 0; i < f->length; i++) {
        if ((f->bytes[i] < ' ' && !is_blank(f->bytes[i])) || f->bytes[i] == 0x7F)
            return false;
        letters = letters || (f->bytes[i] >= 'a' && f->bytes[i] <= 'z');
    }
    return letters;
}

/* A fault of codes, 11 to 16 or 21 to 26; words that could be read may still name a node that the sheet does not have. */
int codes_fault(request *r, const text *t, size_t number, size_t place, size_t n) {
    bool range = number == ZAMIATHEN_BOOK_NUMBER || number == ZAMIATHEN_EDIT_NUMBER;
    fprintf(stderr, "%s: %zu: %s\n", t->source.path, number, zamiathen_text(number));
    if (!t->in_words && looks_like_text(&t->source))
        fprintf(stderr, "%s is read as codes, because its name does not end in .words.\n", t->source.path);
    if (t->in_words && range && place < t->length) {
        fprintf(stderr, "%s is node %u, and the sheet has the nodes 0 to %zu.\n", node_name(r, t->codes[place]),
                t->codes[place], n - 1);
        return REFUSED;
    }
    if (number == ZAMIATHEN_BOOK_LENGTH || number == ZAMIATHEN_EDIT_LENGTH)
        fprintf(stderr, "It has %s.\n", figure(r, t->length));
    else if (place < t->length)
        fprintf(stderr, "Byte %zu, counted from 0, is %02X in hexadecimal.\n", place, t->codes[place]);
    else
        fprintf(stderr, t->in_words ? "It stands for %s bytes.\n" : "It has %s bytes.\n", figure(r, t->length));
    return REFUSED;
}

/* Prints codes in words, into a string of the length needed. */
zamiathen_length to_words(request *r, printer print, const uint8_t *codes, size_t length, uint8_t **words) {
    zamiathen_length printed = print(r->names.bytes, r->names.length, codes, length, NULL, 0);
    *words = take(r, printed.number == ZAMIATHEN_ROOM ? printed.place : 0);
    if (printed.number != ZAMIATHEN_ROOM)
        return printed;
    return print(r->names.bytes, r->names.length, codes, length, *words, printed.place);
}

/* The first rule of codes on a line of its own. */
void print_rule(request *r, const char *margin, const uint8_t *codes, size_t length) {
    uint8_t *words;
    zamiathen_length printed = to_words(r, zamiathen_rule_to_words, codes, length, &words);
    fputs(margin, stdout);
    if (printed.number == ZAMIATHEN_DONE)
        fwrite(words, 1, printed.length, stdout);
    else
        fputs("?\n", stdout);
}

/* Prints a comment without its # and the blanks around it. Is there anything in it? */
static bool print_comment(const file *f, size_t start, size_t end, const char *before) {
    while (start < end && (f->bytes[start] == '#' || is_blank(f->bytes[start])))
        start++;
    while (end > start && is_blank(f->bytes[end - 1]))
        end--;
    if (start == end)
        return false;
    fputs(before, stdout);
    print_bytes(stdout, f->bytes + start, end - start);
    return true;
}

/* Where the line before a line starts, if that is a comment and nothing else. */
static bool comment_above(const file *f, size_t line, size_t *above) {
    if (line == 0)
        return false;
    size_t start = line - 1;
    while (start > 0 && f->bytes[start - 1] != '\n')
        start--;
    size_t at = start;
    while (at < line && is_blank(f->bytes[at]))
        at++;
    *above = start;
    return at < line && f->bytes[at] == '#';
}

/* A rule's sentence: the comment on its first line, else the comment lines directly above it. */
static void print_sentence(const file *f, size_t place) {
    spot s = spot_of(f, place);
    for (size_t i = place; i < s.end; i++)
        if (f->bytes[i] == '#') {
            if (print_comment(f, i, s.end, "  "))
                return;
            break;
        }
    size_t first = s.start, above;
    while (comment_above(f, first, &above))
        first = above;
    const char *before = "  ";
    for (size_t end = first; end < s.start; end++)
        if (f->bytes[end] == '\n') {
            if (print_comment(f, first, end, before))
                before = " ";
            first = end + 1;
        }
}

/* Where a rule stands, and its sentence; nothing is printed for codes. */
void print_place(request *r, const text *book, size_t rule, const char *before) {
    const file *f = &book->source;
    if (!book->in_words)
        return;
    size_t place = zamiathen_rule_in_words(r->names.bytes, r->names.length, f->bytes, f->length, rule);
    printf("%s%s:%zu", before, f->path, spot_of(f, place).line);
    print_sentence(f, place);
}
