/* The commands close and open, for nodes, and keep, return and drop, for plans to come back to. */
#include "command.h"

#include <string.h>
#include <unistd.h>

/*
 * Nodes
 */

/* The steps that remove a node's labels and arrows. */
static void say_clearing(request *r, const graph *g, size_t node) {
    if (g->in_use == (uint64_t)1 << node) {
        fputs("It is the only node in use.\n", stderr);
        return;
    }
    fputs("Steps that take off what it has:\n", stderr);
    for (size_t label = 0; label < ZAMIATHEN_LABELS; label++)
        if (has(g->labels[label], node))
            fprintf(stderr, "  unmark(%s, %s)\n", label_name(r, label), node_name(r, node));
    for (size_t arrow = 0; arrow < ZAMIATHEN_ARROWS; arrow++)
        for (size_t from = 0; from < g->n; from++)
            for (size_t to = 0; to < g->n; to++)
                if ((from == node || to == node) && has(g->rows[arrow][from], to))
                    fprintf(stderr, "  take(%s, pair(%s, %s))\n", arrow_name(r, arrow), node_name(r, from), node_name(r, to));
}

/* Every answer of close and open except done and 41. */
static int node_fault(request *r, const file *sheet, const text *book, size_t node, zamiathen_answer answer) {
    size_t n = zamiathen_nodes(sheet->bytes, sheet->length).count;
    if (answer.number >= ZAMIATHEN_BOOK_LENGTH && answer.number <= ZAMIATHEN_BOOK_RULES)
        return codes_fault(r, book, answer.number, answer.place, n);
    fprintf(stderr, "%s: %zu: %s\n", sheet->path, answer.number, zamiathen_text(answer.number));
    if (answer.number == ZAMIATHEN_OUT_OF_RANGE)
        fprintf(stderr, "%s is node %zu, and the sheet has the nodes 0 to %zu.\n", node_name(r, node), node, n - 1);
    if (answer.number == ZAMIATHEN_NODE_TAKEN)
        say_clearing(r, graph_of(r, sheet->bytes), node);
    return REFUSED;
}

typedef zamiathen_answer (*closer)(uint8_t *, size_t, const uint8_t *, size_t, size_t);

/* Who would break a rule on the sheet without the node, or with it: the call is made again, without a book. */
static int node_refusal(request *r, closer call, const file *sheet, const text *book, size_t node, size_t rule) {
    uint8_t *after = copy_of(r, sheet->bytes, sheet->length);
    size_t start = zamiathen_rule_start(book->codes, book->length, ZAMIATHEN_MAX_NODES, rule);
    call(after, sheet->length, NULL, 0, node);
    return print_refusal(r, book, rule, "would be",
                         zamiathen_witness(after, sheet->length, book->codes + start, book->length - start));
}

static int close_or_open(request *r, closer call, const char *now, const char *already) {
    file sheet;
    text book;
    size_t node = 0;
    int status = lock_file(r, r->operands[0]);
    if (status == DONE)
        status = read_case(r, &sheet, &book);
    if (status == DONE)
        status = typed_number(r, 'i', r->operands[2], &node);
    if (status != DONE)
        return status;
    uint8_t *after = copy_of(r, sheet.bytes, sheet.length);
    zamiathen_answer answer = call(after, sheet.length, book.codes, book.length, node);
    if (answer.number == ZAMIATHEN_RULE_BROKEN)
        return node_refusal(r, call, &sheet, &book, node, answer.place);
    if (answer.number != ZAMIATHEN_DONE)
        return node_fault(r, &sheet, &book, node, answer);
    bool changed = memcmp(after, sheet.bytes, sheet.length) != 0;
    if (changed)
        status = write_file(r, r->operands[0], after, sheet.length);
    if (status == DONE)
        printf("%s%s%s: %s\n", ink(r, GREEN), changed ? now : already, ink(r, PLAIN), node_name(r, node));
    return status;
}

int run_close(request *r) {
    return close_or_open(r, zamiathen_close, "closed", "closed already");
}

int run_open(request *r) {
    return close_or_open(r, zamiathen_open, "opened", "in use already");
}

/*
 * Plans
 */

static int plan_number(const char *typed, size_t *plan) {
    return typed_count(typed, "NAME is a number from 1 to 7", plan);
}

/* Prints the names that a store has filled: those that could be dropped. */
static void print_filled(request *r, FILE *to, const uint8_t *store) {
    size_t count = 0;
    for (size_t plan = 1; plan <= 7; plan++) {
        uint8_t *copy = copy_of(r, store, ZAMIATHEN_STORE_BYTES);
        if (zamiathen_drop(copy, ZAMIATHEN_STORE_BYTES, plan).number == ZAMIATHEN_DONE)
            fprintf(to, count++ == 0 ? "  the store has %zu" : " %zu", plan);
    }
    fputs(count == 0 ? "  the store has no plan\n" : "\n", to);
}

/* A fault of a store or a plan's name, 55 to 57. */
static int store_fault(request *r, const file *store, size_t number) {
    fprintf(stderr, "%s: %zu: %s\n", store->path, number, zamiathen_text(number));
    if (number == ZAMIATHEN_STORE && store->length != ZAMIATHEN_STORE_BYTES)
        fprintf(stderr, "It has %s bytes, and a store has %s. Take another file.\n", figure(r, store->length), figure(r, ZAMIATHEN_STORE_BYTES));
    else if (number == ZAMIATHEN_STORE)
        fputs("The file has changed since it was written, or is not a store: take an earlier copy.\n", stderr);
    else if (number == ZAMIATHEN_PLAN_UNFILLED)
        print_filled(r, stderr, store->bytes);
    return REFUSED;
}

/* Keeps a sheet in a store, or in a new one if there is none. A store that another call creates in the meantime is used. */
static int keep_in(request *r, const file *sheet, file *store, size_t plan, bool *again) {
    bool is_new = access(store->path, F_OK) != 0;
    int status = is_new ? DONE : read_file(r, store->path, store);
    *again = false;
    if (status != DONE)
        return status;
    if (is_new) {
        store->bytes = take(r, ZAMIATHEN_STORE_BYTES);
        store->length = ZAMIATHEN_STORE_BYTES;
        zamiathen_store_blank(store->bytes, store->length);
    }
    zamiathen_answer answer = zamiathen_keep(sheet->bytes, sheet->length, store->bytes, store->length, plan);
    if (answer.number != ZAMIATHEN_DONE)
        return store_fault(r, store, answer.number);
    if (is_new)
        return create_file(r, store->path, store->bytes, store->length, again);
    return write_file(r, store->path, store->bytes, store->length);
}

int run_keep(request *r) {
    file sheet, store = {r->operands[1], NULL, 0};
    size_t plan = 0;
    bool again = true;
    int status = read_names(r, r->operands[0]);
    if (status == DONE)
        status = read_sheet(r, r->operands[0], &sheet);
    if (status == DONE)
        status = plan_number(r->operands[2], &plan);
    while (status == DONE && again) {
        status = lock_file(r, store.path);
        if (status == DONE)
            status = keep_in(r, &sheet, &store, plan, &again);
    }
    if (status != DONE)
        return status;
    printf("%skept%s under %zu\n", ink(r, GREEN), ink(r, PLAIN), plan);
    print_filled(r, stdout, store.bytes);
    return DONE;
}

/* Every answer of return except done. After 41 the kept sheet is still in the store. */
static int return_fault(request *r, const file *sheet, const file *store, const text *book, size_t plan, zamiathen_answer answer) {
    if (answer.number <= ZAMIATHEN_SHEET_ZEROS)
        return sheet_fault(r, sheet, answer.number, answer.place);
    if (answer.number >= ZAMIATHEN_STORE)
        return store_fault(r, store, answer.number);
    const uint8_t *kept_sheet = store->bytes + 512 + ZAMIATHEN_SHEET_BYTES * (plan - 1);
    if (answer.number != ZAMIATHEN_RULE_BROKEN)
        return codes_fault(r, book, answer.number, answer.place, zamiathen_nodes(kept_sheet, ZAMIATHEN_SHEET_BYTES).count);
    size_t start = zamiathen_rule_start(book->codes, book->length, ZAMIATHEN_MAX_NODES, answer.place);
    return print_refusal(r, book, answer.place, "would be",
                         zamiathen_witness(kept_sheet, ZAMIATHEN_SHEET_BYTES, book->codes + start, book->length - start));
}

/* Reads what return was given. */
static int read_return(request *r, file *sheet, file *store, size_t *plan, text *book) {
    int status = lock_file(r, r->operands[0]);
    if (status == DONE)
        status = read_names(r, r->operands[0]);
    if (status == DONE)
        status = read_sheet(r, r->operands[0], sheet);
    if (status == DONE)
        status = read_file(r, r->operands[1], store);
    if (status == DONE)
        status = plan_number(r->operands[2], plan);
    return status != DONE ? status : read_text(r, r->operands[3], false, book);
}

int run_return(request *r) {
    file sheet, store;
    text book;
    size_t plan = 0;
    int status = read_return(r, &sheet, &store, &plan, &book);
    if (status != DONE)
        return status;
    uint8_t *after = copy_of(r, sheet.bytes, sheet.length);
    zamiathen_answer answer =
        zamiathen_return(after, sheet.length, store.bytes, store.length, plan, book.codes, book.length);
    if (answer.number != ZAMIATHEN_DONE)
        return return_fault(r, &sheet, &store, &book, plan, answer);
    if (memcmp(after, sheet.bytes, sheet.length) != 0)
        status = write_file(r, r->operands[0], after, sheet.length);
    if (status != DONE)
        return status;
    printf("%sreturned%s to %zu\n", ink(r, GREEN), ink(r, PLAIN), plan);
    if (print_changes(r, sheet.bytes, after) == 0)
        puts("  nothing changes");
    return DONE;
}

int run_drop(request *r) {
    file store;
    size_t plan = 0;
    int status = plan_number(r->operands[1], &plan);
    if (status == DONE)
        status = lock_file(r, r->operands[0]);
    if (status == DONE)
        status = read_file(r, r->operands[0], &store);
    if (status != DONE)
        return status;
    zamiathen_answer answer = zamiathen_drop(store.bytes, store.length, plan);
    if (answer.number != ZAMIATHEN_DONE)
        return store_fault(r, &store, answer.number);
    status = write_file(r, store.path, store.bytes, store.length);
    if (status != DONE)
        return status;
    printf("%sdropped%s %zu\n", ink(r, GREEN), ink(r, PLAIN), plan);
    print_filled(r, stdout, store.bytes);
    return DONE;
}
