/* The commands show, table and diff: squared sheets, printed and drawn. */
#include "command.h"

#include <string.h>

/*
 * Squared sheets, printed and drawn
 */

enum mark { NO_SQUARE, EMPTY, FULL, WRITTEN };

typedef struct {
    enum mark mark;
    bool closed, changed, broken;
    string text; /* of a WRITTEN square */
} square;

typedef struct {
    size_t rows, columns, notes;
    const char *row_names[ZAMIATHEN_MAX_NODES], *column_names[ZAMIATHEN_MAX_NODES];
    square *squares;
    string note[4];
    const char *title;
} grid;

static const char *square_text(const square *s) {
    return s->mark == WRITTEN ? s->text.bytes : s->mark == FULL ? "#" : s->mark == EMPTY ? "." : "";
}

static size_t column_width(const grid *g, size_t column) {
    size_t width = characters(g->column_names[column]);
    for (size_t row = 0; row < g->rows; row++) {
        size_t length = characters(square_text(&g->squares[row * g->columns + column]));
        width = length > width ? length : width;
    }
    return width;
}

static size_t names_width(const grid *g) {
    size_t width = 0;
    for (size_t row = 0; row < g->rows; row++)
        width = characters(g->row_names[row]) > width ? characters(g->row_names[row]) : width;
    return width;
}

/* Puts a word into the middle of a column; the blanks after it wait until another word comes. */
static void print_middle(const char *written, size_t width, size_t *blanks) {
    size_t length = characters(written), left = (width - length) / 2;
    if (length > 0)
        printf("%*s%s", (int)(*blanks + 2 + left), "", written);
    *blanks = length > 0 ? width - length - left : *blanks + 2 + width;
}

static void print_grid(const grid *g) {
    size_t margin = names_width(g), blanks = margin;
    for (size_t column = 0; column < g->columns; column++)
        print_middle(g->column_names[column], column_width(g, column), &blanks);
    if (g->columns > 0)
        fputc('\n', stdout);
    for (size_t row = 0; row < g->rows; row++) {
        fputs(g->row_names[row], stdout);
        blanks = margin - characters(g->row_names[row]);
        for (size_t column = 0; column < g->columns; column++)
            print_middle(square_text(&g->squares[row * g->columns + column]), column_width(g, column), &blanks);
        fputc('\n', stdout);
    }
    for (size_t note = 0; note < g->notes; note++)
        puts(g->note[note].bytes);
}

/* How many bytes the character that begins here has, if a picture's text can hold it; else 0. */
static size_t character_length(const uint8_t *at) {
    size_t length = at[0] < 0x20 ? 0 : at[0] < 0x80 ? 1 : at[0] >= 0xC2 && at[0] < 0xE0 ? 2 : at[0] >= 0xE0 && at[0] < 0xF0 ? 3
        : at[0] >= 0xF0 && at[0] < 0xF5 ? 4 : 0;
    for (size_t i = 1; i < length; i++)
        if ((at[i] & 0xC0) != 0x80)
            return 0;
    if ((at[0] == 0xE0 && at[1] < 0xA0) || (at[0] == 0xED && at[1] > 0x9F) || (at[0] == 0xF0 && at[1] < 0x90) ||
        (at[0] == 0xF4 && at[1] > 0x8F) || (at[0] == 0xEF && at[1] == 0xBF && at[2] >= 0xBE))
        return 0;
    return length;
}

static void add_xml(string *s, const char *written) {
    const uint8_t *at = (const uint8_t *)written;
    while (*at != 0) {
        size_t length = character_length(at);
        if (*at == '<')
            add(s, "&lt;");
        else if (*at == '&')
            add(s, "&amp;");
        else if (length == 0)
            add(s, "?");
        else
            add_bytes(s, (const char *)at, length);
        at += length > 0 ? length : 1;
    }
}

enum { LETTER = 8, BOLD_LETTER = 9, SQUARE_HEIGHT = 30, EDGE = 20 };

static void draw_text(string *s, size_t x, size_t y, const char *anchor, const char *style, const char *written) {
    add_format(s, "<text x=\"%zu\" y=\"%zu\" text-anchor=\"%s\"%s>", x, y, anchor, style);
    add_xml(s, written);
    add(s, "</text>\n");
}

static void draw_square(string *s, const square *q, size_t x, size_t y, size_t width) {
    if (q->mark == NO_SQUARE)
        return;
    const char *fill = q->closed ? "url(#closed)" : q->changed ? "#fff3b0" : "#ffffff";
    add_format(s, "<rect x=\"%zu\" y=\"%zu\" width=\"%zu\" height=\"%d\" fill=\"%s\" stroke=\"#555555\"/>\n", x, y, width,
               SQUARE_HEIGHT, fill);
    if (q->broken)
        add_format(s, "<rect x=\"%zu\" y=\"%zu\" width=\"%zu\" height=\"%d\" fill=\"none\" stroke=\"#c00000\" stroke-width=\"2\"/>\n",
                   x + 2, y + 2, width - 4, SQUARE_HEIGHT - 4);
    if (q->mark == FULL)
        add_format(s, "<rect x=\"%zu\" y=\"%zu\" width=\"14\" height=\"14\" fill=\"#222222\"/>\n", x + width / 2 - 7, y + 8);
    if (q->mark == WRITTEN)
        draw_text(s, x + width / 2, y + 20, "middle", q->broken ? " fill=\"#c00000\"" : "", q->text.bytes);
}

static size_t square_width(const grid *g, size_t column) {
    size_t width = LETTER * column_width(g, column) + 12;
    return width < SQUARE_HEIGHT ? SQUARE_HEIGHT : width;
}

/* The picture's width: the squares, or the longest line of text. */
static size_t picture_width(const grid *g, size_t left) {
    size_t width = left, title = EDGE + BOLD_LETTER * characters(g->title);
    for (size_t column = 0; column < g->columns; column++)
        width += square_width(g, column);
    width = title > width ? title : width;
    for (size_t note = 0; note < g->notes; note++) {
        size_t line = EDGE + LETTER * characters(g->note[note].bytes);
        width = line > width ? line : width;
    }
    return width + EDGE;
}

static void draw_head(string *s, size_t width, size_t height) {
    add_format(s, "<svg xmlns=\"http://www.w3.org/2000/svg\" width=\"%zu\" height=\"%zu\" viewBox=\"0 0 %zu %zu\" "
               "font-family=\"DejaVu Sans, Verdana, sans-serif\" font-size=\"13\" fill=\"#000000\">\n", width, height, width, height);
    add(s, "<defs><pattern id=\"closed\" width=\"6\" height=\"6\" patternUnits=\"userSpaceOnUse\">"
           "<rect width=\"6\" height=\"6\" fill=\"#ffffff\"/><path d=\"M0 6L6 0\" stroke=\"#aaaaaa\"/></pattern></defs>\n");
    add_format(s, "<rect width=\"%zu\" height=\"%zu\" fill=\"#ffffff\"/>\n", width, height);
}

static int draw_grid(request *r, const grid *g, const char *path) {
    string s = empty_string(r);
    size_t left = EDGE + LETTER * names_width(g) + 8, top = EDGE + 50, bottom = top + SQUARE_HEIGHT * g->rows;
    draw_head(&s, picture_width(g, left), bottom + 20 * g->notes + EDGE);
    draw_text(&s, EDGE, EDGE + 12, "start", " font-weight=\"bold\"", g->title);
    size_t x = left;
    for (size_t column = 0; column < g->columns; column++) {
        size_t width = square_width(g, column);
        draw_text(&s, x + width / 2, top - 8, "middle", "", g->column_names[column]);
        for (size_t row = 0; row < g->rows; row++)
            draw_square(&s, &g->squares[row * g->columns + column], x, top + SQUARE_HEIGHT * row, width);
        x += width;
    }
    for (size_t row = 0; row < g->rows; row++)
        draw_text(&s, left - 8, top + SQUARE_HEIGHT * row + 20, "end", "", g->row_names[row]);
    for (size_t note = 0; note < g->notes; note++)
        draw_text(&s, EDGE, bottom + 20 * (note + 1), "start", "", g->note[note].bytes);
    add(&s, "</svg>\n");
    return write_file(r, path, (const uint8_t *)s.bytes, s.length);
}

/* Prints a grid, and draws it if that was wanted. */
static int put_grid(request *r, const grid *g) {
    print_grid(g);
    return r->picture_path == NULL ? DONE : draw_grid(r, g, r->picture_path);
}

/*
 * The commands: show, table, diff
 */

/* Prints the names of a set of nodes, each after a blank, and ends the line. */
static void print_nodes(request *r, uint64_t set) {
    for (size_t node = 0; node < ZAMIATHEN_MAX_NODES; node++)
        if (has(set, node))
            printf(" %s", node_name(r, node));
    fputc('\n', stdout);
}

static size_t size_of(uint64_t set) {
    size_t count = 0;
    for (; set != 0; set &= set - 1)
        count++;
    return count;
}

static void print_graph(request *r, const graph *g) {
    uint64_t below = g->n == 64 ? ~(uint64_t)0 : ((uint64_t)1 << g->n) - 1;
    printf("%zu nodes, %zu in use\n", g->n, size_of(g->in_use));
    if (g->in_use != below) {
        printf("closed:");
        print_nodes(r, below & ~g->in_use);
    }
    for (size_t label = 0; label < ZAMIATHEN_LABELS; label++)
        if (g->labels[label] != 0) {
            printf("label %s:", label_name(r, label));
            print_nodes(r, g->labels[label]);
        }
    for (size_t arrow = 0; arrow < ZAMIATHEN_ARROWS; arrow++) {
        bool any = false;
        for (size_t from = 0; from < g->n; from++)
            if (g->rows[arrow][from] != 0) {
                if (!any)
                    printf("arrow %s:\n", arrow_name(r, arrow));
                any = true;
                printf("  %s →", node_name(r, from));
                print_nodes(r, g->rows[arrow][from]);
            }
    }
}

/* Gives a grid a row for each node of one set and a column for each of the other, without squares. */
static void lay_out(request *r, grid *g, uint64_t rows, uint64_t columns) {
    for (size_t node = 0; node < ZAMIATHEN_MAX_NODES; node++) {
        if (has(rows, node))
            g->row_names[g->rows++] = node_name(r, node);
        if (has(columns, node))
            g->column_names[g->columns++] = node_name(r, node);
    }
    g->squares = take(r, (g->rows * g->columns + 1) * sizeof *g->squares);
    memset(g->squares, 0, (g->rows * g->columns + 1) * sizeof *g->squares);
}

/* The square of two nodes: how many nodes of its set come before each. */
static square *square_at(const grid *g, uint64_t rows, uint64_t columns, size_t row, size_t column) {
    size_t above = size_of(rows & (((uint64_t)1 << row) - 1)), left = size_of(columns & (((uint64_t)1 << column) - 1));
    return &g->squares[above * g->columns + left];
}

static int show_arrow(request *r, const graph *of, size_t arrow) {
    grid g = {0};
    uint64_t rows = 0, columns = 0;
    for (size_t from = 0; from < of->n; from++)
        if (of->rows[arrow][from] != 0) {
            rows |= (uint64_t)1 << from;
            columns |= of->rows[arrow][from];
        }
    string title = empty_string(r);
    add(&title, r->operands[0]);
    add(&title, ": ");
    add(&title, arrow_name(r, arrow));
    g.title = title.bytes;
    lay_out(r, &g, rows, columns);
    for (size_t from = 0; from < of->n; from++)
        for (size_t to = 0; to < of->n; to++)
            if (has(rows, from) && has(columns, to))
                square_at(&g, rows, columns, from, to)->mark = has(of->rows[arrow][from], to) ? FULL : EMPTY;
    if (rows == 0) {
        g.note[g.notes] = empty_string(r);
        add(&g.note[g.notes++], "there is no such arrow");
    }
    return put_grid(r, &g);
}

int run_show(request *r) {
    file sheet;
    size_t arrow = 0;
    int status = read_names(r, r->operands[0]);
    if (status == DONE)
        status = read_sheet(r, r->operands[0], &sheet);
    if (status == DONE && r->count == 2)
        status = typed_number(r, 'a', r->operands[1], &arrow);
    if (status == DONE && r->count == 1 && r->picture_path != NULL)
        status = wrong("a picture is of one arrow: show SHEET ARROW --svg OUT");
    if (status != DONE)
        return status;
    const graph *g = graph_of(r, sheet.bytes);
    if (r->count == 2)
        return show_arrow(r, g, arrow);
    print_graph(r, g);
    return DONE;
}

/* What a table is made from: its label and arrows, the sheet before and after an edit, and who would break a rule. */
typedef struct {
    size_t cell, row, column, in;
    uint64_t was_closed, is_closed, who, broken;
    const graph *before, *after;
    uint64_t rows, columns, outside; /* outside: the cells without a square */
} board;

/* Who counts as nowhere after an edit: the nodes with that label which, before the edit, all nodes standing somewhere have, and others
 * too; of several labels, the one with the fewest nodes. So an edit that changes labels does not change which label is chosen. */
static uint64_t kin_of(const board *b, uint64_t standing) {
    uint64_t kin = 0, kin_before = 0;
    for (size_t label = 0; label < ZAMIATHEN_LABELS && standing != 0; label++) {
        uint64_t set = b->before->labels[label];
        if ((standing & ~set) == 0 && (set & ~standing) != 0 && (kin_before == 0 || size_of(set) < size_of(kin_before))) {
            kin_before = set;
            kin = b->after->labels[label];
        }
    }
    return kin;
}

/* Those with an arrow to a cell. */
static uint64_t standing(const board *b, const graph *g) {
    uint64_t set = 0;
    for (size_t node = 0; node < g->n; node++)
        if ((g->rows[b->in][node] & g->labels[b->cell]) != 0)
            set |= (uint64_t)1 << node;
    return set;
}

static void add_signed(string *s, bool was, bool is, const char *name) {
    add_word(s, was && !is ? "-" : is && !was ? "+" : "");
    add(s, name);
}

/* Writes into a square the nodes that stand at a cell. */
static void fill_square(request *r, const board *b, size_t cell, square *s) {
    bool broken = has(b->broken, cell);
    if (s->mark == NO_SQUARE) {
        s->mark = EMPTY;
        s->text = empty_string(r);
    }
    bool was_closed = has(b->was_closed, cell), is_closed = has(b->is_closed, cell);
    if (was_closed || is_closed)
        add_signed(&s->text, was_closed, is_closed, "closed");
    s->closed |= is_closed;
    s->changed |= was_closed != is_closed;
    for (size_t node = 0; node < b->after->n; node++) {
        bool was = has(b->before->rows[b->in][node], cell), is = has(b->after->rows[b->in][node], cell);
        if (was || is)
            add_signed(&s->text, was, is, node_name(r, node));
        s->changed |= was != is;
        broken |= is && has(b->broken, node);
    }
    if (broken) {
        s->broken = true;
        add_word(&s->text, "!");
    }
    if (s->text.length > 0)
        s->mark = WRITTEN;
}

static void place_cells(board *b) {
    for (size_t cell = 0; cell < b->after->n; cell++)
        if (has(b->after->labels[b->cell], cell)) {
            uint64_t rows = b->after->rows[b->row][cell], columns = b->after->rows[b->column][cell];
            if (rows == 0 || columns == 0) {
                b->outside |= (uint64_t)1 << cell;
            } else {
                b->rows |= rows;
                b->columns |= columns;
            }
        }
}

static void fill_grid(request *r, const board *b, grid *g) {
    for (size_t cell = 0; cell < b->after->n; cell++) {
        if (!has(b->after->labels[b->cell], cell) || has(b->outside, cell))
            continue;
        for (size_t row = 0; row < b->after->n; row++)
            for (size_t column = 0; column < b->after->n; column++)
                if (has(b->after->rows[b->row][cell], row) && has(b->after->rows[b->column][cell], column))
                    fill_square(r, b, cell, square_at(g, b->rows, b->columns, row, column));
    }
}

/* Is a square marked whose node, or a node in it, would break a rule? */
static bool shows_broken(const grid *g) {
    for (size_t i = 0; i < g->rows * g->columns; i++)
        if (g->squares[i].broken)
            return true;
    return false;
}

/* Adds a note with the nodes of a set, + before those that were not in it. */
static void note_nodes(request *r, grid *g, const char *head, uint64_t set, uint64_t earlier) {
    if (set == 0)
        return;
    string note = empty_string(r);
    add(&note, head);
    for (size_t node = 0; node < ZAMIATHEN_MAX_NODES; node++)
        if (has(set, node))
            add_signed(&note, has(earlier, node), true, node_name(r, node));
    g->note[g->notes++] = note;
}

static void note_nowhere(request *r, const board *b, grid *g) {
    uint64_t now = standing(b, b->after), then = standing(b, b->before);
    uint64_t kin = r->who_label != NULL ? b->who : kin_of(b, then);
    note_nodes(r, g, "nowhere:", kin & ~now, ~then);
    note_nodes(r, g, "without a square:", b->outside, ~(uint64_t)0);
}

/* The numbers of the names that were typed. */
static int read_board(request *r, board *b) {
    int status = typed_number(r, 'l', r->operands[1], &b->cell);
    if (status == DONE)
        status = typed_number(r, 'a', r->operands[2], &b->row);
    if (status == DONE)
        status = typed_number(r, 'a', r->operands[3], &b->column);
    return status != DONE ? status : typed_number(r, 'a', r->operands[4], &b->in);
}

/* The sets of the labels that options name; without --closed the label with that name, if there is one, says what is closed. */
static int read_labels(request *r, board *b) {
    size_t closed = 0, who = 0;
    bool any = number_of(r, 'l', (word){(const uint8_t *)"closed", 6}, &closed);
    int status = DONE;
    if (r->closed_label != NULL) {
        status = typed_number(r, 'l', r->closed_label, &closed);
        any = true;
    }
    if (status == DONE && any) {
        b->was_closed = b->before->labels[closed];
        b->is_closed = b->after->labels[closed];
    }
    if (status == DONE && r->who_label != NULL) {
        status = typed_number(r, 'l', r->who_label, &who);
        b->who = status == DONE ? b->after->labels[who] : 0;
    }
    return status;
}

static int put_board(request *r, board *b, size_t rule) {
    grid g = {0};
    string title = empty_string(r);
    add(&title, r->operands[0]);
    add(&title, r->edit_path != NULL ? " and " : "");
    add(&title, r->edit_path != NULL ? r->edit_path : "");
    add(&title, ": ");
    add(&title, arrow_name(r, b->in));
    g.title = title.bytes;
    place_cells(b);
    lay_out(r, &g, b->rows, b->columns);
    fill_grid(r, b, &g);
    note_nowhere(r, b, &g);
    if (r->edit_path != NULL) {
        string note = empty_string(r);
        add(&note, "+ comes, - goes");
        if (shows_broken(&g))
            add_format(&note, ", ! would break rule %zu", rule);
        g.note[g.notes++] = note;
    }
    return put_grid(r, &g);
}

/* The nodes that a witness names, as a set. */
static uint64_t broken_by(zamiathen_witnessed who) {
    if (who.kind == ZAMIATHEN_WITNESS_PAIR)
        return (uint64_t)1 << who.first | (uint64_t)1 << who.second;
    return who.kind == ZAMIATHEN_WITNESS_NODE ? who.nodes : 0;
}

/* A table with an edit on trial: the sheet after its steps, whether the book is kept or not. */
static int table_of_trial(request *r, const file *sheet, board *b) {
    text edit, book = {0};
    int status = read_text(r, r->edit_path, true, &edit);
    if (status == DONE && r->book_path != NULL)
        status = read_text(r, r->book_path, false, &book);
    if (status != DONE)
        return status;
    trial t = try_edit(r, sheet, &book, &edit);
    bool refused = t.answer.number == ZAMIATHEN_RULE_BROKEN;
    if (t.answer.number != ZAMIATHEN_DONE && !refused)
        return answer_fault(r, sheet, &book, &edit, t.answer);
    if (refused) {
        b->broken = broken_by(t.who);
        zamiathen_apply(t.sheet, ZAMIATHEN_SHEET_BYTES, edit.codes, edit.length);
    }
    b->after = graph_of(r, t.sheet);
    status = read_labels(r, b);
    if (status == DONE)
        status = put_board(r, b, t.answer.place);
    if (status == DONE && refused)
        return print_refusal(r, &book, t.answer.place, "would be", t.who);
    return status;
}

int run_table(request *r) {
    file sheet;
    board b = {0};
    int status = read_names(r, r->operands[0]);
    if (status == DONE && r->book_path != NULL && r->edit_path == NULL)
        status = wrong("--book is for an edit: --try EDIT --book BOOK");
    if (status == DONE)
        status = read_sheet(r, r->operands[0], &sheet);
    if (status == DONE)
        status = read_board(r, &b);
    if (status != DONE)
        return status;
    b.before = b.after = graph_of(r, sheet.bytes);
    if (r->edit_path != NULL)
        return table_of_trial(r, &sheet, &b);
    status = read_labels(r, &b);
    return status != DONE ? status : put_board(r, &b, 0);
}

int run_diff(request *r) {
    file first, second;
    int status = read_names(r, r->operands[0]);
    if (status == DONE)
        status = read_sheet(r, r->operands[0], &first);
    if (status == DONE)
        status = read_sheet(r, r->operands[1], &second);
    if (status != DONE)
        return status;
    if (print_changes(r, first.bytes, second.bytes) == 0)
        puts("  nothing differs");
    return DONE;
}
