/* Sheets: their labels and arrows, what changes from one to another, and how a refusal is said. */
#include "command.h"

#include <string.h>

/*
 * Sheets
 */

/* A fault of a sheet, 1 to 4: which block, and what to do. */
int sheet_fault(request *r, const file *f, size_t number, size_t place) {
    fprintf(stderr, "%s: %zu: %s\n", f->path, number, zamiathen_text(number));
    if (number == ZAMIATHEN_SHEET_LENGTH) {
        fprintf(stderr, "It has %s bytes: this is not a sheet, or only a part of one. Take another file.\n", figure(r, f->length));
        return REFUSED;
    }
    if (place == 0)
        fputs("Block 0: the labels.\n", stderr);
    else
        fprintf(stderr, "Block %zu: the arrows %s.\n", place, arrow_name(r, place - 1));
    fprintf(stderr, "%s: take an earlier copy.\nA card from before version 4 is converted first.\n",
            number == ZAMIATHEN_SHEET_SUMS ? "The file has changed since it was written" : "It was not written by this library");
    return REFUSED;
}

int read_sheet(request *r, const char *path, file *f) {
    int status = read_file(r, path, f);
    if (status != DONE)
        return status;
    zamiathen_answer answer = zamiathen_check(f->bytes, f->length);
    return answer.number == ZAMIATHEN_DONE ? DONE : sheet_fault(r, f, answer.number, answer.place);
}

bool has(uint64_t set, size_t node) {
    return (set >> node & 1) != 0;
}

/* The nodes with a mark in a line of a page, the head being line 0. */
static uint64_t marked(const uint8_t *page, size_t line) {
    uint64_t set = 0;
    for (size_t i = 0; i < ZAMIATHEN_MAX_NODES; i++)
        if (page[ZAMIATHEN_LINE_BYTES * line + 3 + i] == '#')
            set |= (uint64_t)1 << i;
    return set;
}

/* The graph of a sheet that is sound, taken from its pages. */
graph *graph_of(request *r, const uint8_t *sheet) {
    uint8_t page[ZAMIATHEN_PAGE_BYTES];
    graph *g = take(r, sizeof *g);
    memset(g, 0, sizeof *g);
    memset(page, 0, sizeof page);
    zamiathen_node_set nodes = zamiathen_nodes(sheet, ZAMIATHEN_SHEET_BYTES);
    g->n = nodes.count;
    g->in_use = nodes.set;
    zamiathen_print_labels(sheet, ZAMIATHEN_SHEET_BYTES, page, sizeof page);
    for (size_t label = 0; label < ZAMIATHEN_LABELS; label++)
        g->labels[label] = marked(page, label + 1);
    for (size_t arrow = 0; arrow < ZAMIATHEN_ARROWS; arrow++) {
        zamiathen_print_arrow(sheet, ZAMIATHEN_SHEET_BYTES, arrow, page, sizeof page);
        for (size_t from = 0; from < g->n; from++)
            g->rows[arrow][from] = marked(page, from + 1);
    }
    return g;
}

/* The only node of a set, or none. */
static size_t only_node(uint64_t set) {
    size_t node = 0;
    if (set == 0 || (set & (set - 1)) != 0)
        return ZAMIATHEN_MAX_NODES;
    while (!has(set, node))
        node++;
    return node;
}

/*
 * What changes
 */

static void print_sign(request *r, bool is_new) {
    printf("  %s%c%s ", ink(r, is_new ? GREEN : RED), is_new ? '+' : '-', ink(r, PLAIN));
}

static size_t print_label_changes(request *r, const graph *before, const graph *after) {
    size_t count = 0;
    for (size_t label = 0; label < ZAMIATHEN_LABELS; label++)
        for (size_t node = 0; node < ZAMIATHEN_MAX_NODES; node++)
            if (has(before->labels[label] ^ after->labels[label], node)) {
                print_sign(r, has(after->labels[label], node));
                printf("%s %s\n", node_name(r, node), label_name(r, label));
                count++;
            }
    return count;
}

/* The arrows of a kind from a node: one that now goes elsewhere is one change, otherwise each counts. */
static size_t print_row_changes(request *r, size_t arrow, size_t from, uint64_t before, uint64_t after) {
    size_t gone = only_node(before & ~after), come = only_node(after & ~before), count = 0;
    if (gone < ZAMIATHEN_MAX_NODES && come < ZAMIATHEN_MAX_NODES) {
        printf("  %s %s: %s → ", node_name(r, from), arrow_name(r, arrow), node_name(r, gone));
        printf("%s\n", node_name(r, come));
        return 1;
    }
    for (size_t to = 0; to < ZAMIATHEN_MAX_NODES; to++)
        if (has(before ^ after, to)) {
            print_sign(r, has(after, to));
            printf("%s %s %s\n", node_name(r, from), arrow_name(r, arrow), node_name(r, to));
            count++;
        }
    return count;
}

/* Prints what one sheet has and the other does not, and returns how many lines that were. */
size_t print_changes(request *r, const uint8_t *old_sheet, const uint8_t *new_sheet) {
    const graph *before = graph_of(r, old_sheet), *after = graph_of(r, new_sheet);
    size_t count = before->n != after->n;
    if (before->n != after->n)
        printf("  nodes: %zu, and then %zu\n", before->n, after->n);
    for (size_t node = 0; node < ZAMIATHEN_MAX_NODES; node++)
        if (node < before->n && node < after->n && has(before->in_use ^ after->in_use, node)) {
            printf("  %s is %s\n", node_name(r, node), has(after->in_use, node) ? "in use again" : "closed");
            count++;
        }
    count += print_label_changes(r, before, after);
    for (size_t arrow = 0; arrow < ZAMIATHEN_ARROWS; arrow++)
        for (size_t from = 0; from < ZAMIATHEN_MAX_NODES; from++)
            count += print_row_changes(r, arrow, from, before->rows[arrow][from], after->rows[arrow][from]);
    return count;
}

/*
 * Refusals
 */

static void print_witness(request *r, zamiathen_witnessed who) {
    if (who.number != ZAMIATHEN_DONE || who.kind == ZAMIATHEN_WITNESS_UNNAMED || who.kind == ZAMIATHEN_WITNESS_HOLDS) {
        puts("  the rule names nobody who breaks it");
        return;
    }
    printf("  broken by");
    if (who.kind == ZAMIATHEN_WITNESS_PAIR) {
        printf(" %s → ", node_name(r, who.first));
        puts(node_name(r, who.second));
        return;
    }
    for (size_t node = 0; node < ZAMIATHEN_MAX_NODES; node++)
        if (has(who.nodes, node))
            printf(" %s", node_name(r, node));
    fputc('\n', stdout);
}

/* Says which rule is broken, where it stands with its sentence, its words, and who breaks it. */
int print_refusal(request *r, const text *book, size_t rule, const char *how, zamiathen_witnessed who) {
    size_t start = zamiathen_rule_start(book->codes, book->length, ZAMIATHEN_MAX_NODES, rule);
    printf("%srefused:%s rule %zu %s broken (%d)\n", ink(r, RED), ink(r, PLAIN), rule, how, ZAMIATHEN_RULE_BROKEN);
    if (book->in_words) {
        print_place(r, book, rule, "  ");
        fputc('\n', stdout);
    }
    print_rule(r, "  ", book->codes + start, book->length - start);
    print_witness(r, who);
    return REFUSED;
}

/* Every answer of enter except done and 41. */
int answer_fault(request *r, const file *sheet, const text *book, const text *edit, zamiathen_answer answer) {
    size_t n = zamiathen_nodes(sheet->bytes, sheet->length).count;
    if (answer.number <= ZAMIATHEN_SHEET_ZEROS)
        return sheet_fault(r, sheet, answer.number, answer.place);
    if (answer.number <= ZAMIATHEN_BOOK_RULES)
        return codes_fault(r, book, answer.number, answer.place, n);
    if (answer.number <= ZAMIATHEN_EDIT_MORE)
        return codes_fault(r, edit, answer.number, answer.place, n);
    fprintf(stderr, "%s: %zu: %s\n", edit->source.path, answer.number, zamiathen_text(answer.number));
    if (answer.number == ZAMIATHEN_CARRIED_LENGTH || answer.number == ZAMIATHEN_CARRIED_LEVELS)
        fputs("Cut the edit into shorter ones, or put fewer ifs one after the other.\n", stderr);
    return REFUSED;
}
