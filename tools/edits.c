/* The commands chain, count and play: edits joined into one, counted on all small sheets, and tried against each other. */
#include "command.h"

#include <string.h>

/*
 * Two edits in one
 */

/* Says which of two edits cannot be read, or that they are too long together. */
static int chain_fault(request *r, const text *p, const text *q, size_t number) {
    const uint8_t nothing[] = {0x30};
    const text *both[] = {p, q};
    uint8_t *joined = take(r, ZAMIATHEN_TEXT_BYTES);
    for (size_t i = 0; i < 2; i++) {
        zamiathen_length alone =
            zamiathen_join_edits(both[i]->codes, both[i]->length, nothing, sizeof nothing, joined, ZAMIATHEN_TEXT_BYTES);
        if (alone.number != ZAMIATHEN_DONE)
            return codes_fault(r, both[i], alone.number, alone.place, ZAMIATHEN_MAX_NODES);
    }
    fprintf(stderr, "%s, %s: %zu: %s\nTogether they have %s.\n", p->source.path, q->source.path, number, zamiathen_text(number),
            figure(r, p->length + q->length - 1));
    return REFUSED;
}

/* Writes an edit, in words if the file's name says so. */
static int write_edit(request *r, const char *path, const uint8_t *codes, size_t length) {
    uint8_t *words;
    if (!ends_in(path, ".words"))
        return write_file(r, path, codes, length);
    zamiathen_length printed = to_words(r, zamiathen_edit_to_words, codes, length, &words);
    return write_file(r, path, words, printed.length);
}

int run_chain(request *r) {
    text p, q;
    int status = lock_file(r, r->operands[2]);
    if (status == DONE)
        status = read_names(r, r->operands[0]);
    if (status == DONE)
        status = read_text(r, r->operands[0], true, &p);
    if (status == DONE)
        status = read_text(r, r->operands[1], true, &q);
    if (status != DONE)
        return status;
    uint8_t *joined = take(r, ZAMIATHEN_TEXT_BYTES);
    zamiathen_length answer = zamiathen_join_edits(p.codes, p.length, q.codes, q.length, joined, ZAMIATHEN_TEXT_BYTES);
    if (answer.number != ZAMIATHEN_DONE)
        return chain_fault(r, &p, &q, answer.number);
    status = write_edit(r, r->operands[2], joined, answer.length);
    if (status == DONE)
        printf("%schained%s: one edit of %zu bytes\n", ink(r, GREEN), ink(r, PLAIN), answer.length);
    return status;
}

/*
 * Small sheets
 */

static int count_fault(request *r, const text *book, const text *edit, size_t n, zamiathen_counts counts) {
    if (counts.number <= ZAMIATHEN_BOOK_RULES)
        return codes_fault(r, book, counts.number, counts.place, n);
    if (counts.number <= ZAMIATHEN_EDIT_MORE)
        return codes_fault(r, edit, counts.number, counts.place, n);
    fprintf(stderr, "zamiathen: %zu: %s\n", counts.number, zamiathen_text(counts.number));
    fprintf(stderr, "Label 0 is %s and arrow 0 is %s.\n", label_name(r, 0), arrow_name(r, 0));
    return REFUSED;
}

int run_count(request *r) {
    text book, edit;
    size_t n = 0;
    int status = read_names(r, r->operands[1]);
    if (status == DONE)
        status = typed_count(r->operands[0], "N is a number from 1 to 3", &n);
    if (status == DONE)
        status = read_text(r, r->operands[1], false, &book);
    if (status == DONE)
        status = read_text(r, r->operands[2], true, &edit);
    if (status != DONE)
        return status;
    zamiathen_counts counts = zamiathen_count(n, book.codes, book.length, edit.codes, edit.length);
    if (counts.number != ZAMIATHEN_DONE)
        return count_fault(r, &book, &edit, n, counts);
    printf("sheets of %zu node%s with the label %s and the arrow %s, before the edit and after it\n", n, n == 1 ? "" : "s",
           label_name(r, 0), arrow_name(r, 0));
    printf("  kept, kept      %4zu\n  kept, broken    %4zu\n  broken, kept    %4zu\n  broken, broken  %4zu\n", counts.kept_kept,
           counts.kept_broken, counts.broken_kept, counts.broken_broken);
    return DONE;
}

/*
 * A game
 */

/* The edits of both sides, the dispatcher's first: as texts, and their codes one after the other. */
typedef struct {
    text texts[2 * ZAMIATHEN_MAX_EDITS];
    size_t lengths[2 * ZAMIATHEN_MAX_EDITS], count, dispatchers, length;
    uint8_t *codes;
} edit_list;

static int read_edits(request *r, edit_list *list) {
    list->dispatchers = r->count - 4;
    list->count = list->dispatchers + r->against_count;
    list->length = 0;
    for (size_t i = 0; i < list->count; i++) {
        bool ours = i < list->dispatchers;
        int status = read_text(r, ours ? r->operands[4 + i] : r->against[i - list->dispatchers], true, &list->texts[i]);
        if (status != DONE)
            return status;
        list->lengths[i] = list->texts[i].length;
        list->length += list->lengths[i];
    }
    list->codes = take(r, list->length);
    for (size_t i = 0, at = 0; i < list->count; at += list->lengths[i], i++)
        memcpy(list->codes + at, list->texts[i].codes, list->lengths[i]);
    return DONE;
}

/* Says what play did not take; judging the book shows whether the book or the goal is meant. */
static int play_fault(request *r, const file *sheet, const text *book, const text *goal, const edit_list *list, zamiathen_played played) {
    zamiathen_answer answer = {played.number, played.place};
    if (played.number == ZAMIATHEN_GAME_RANGE) {
        fprintf(stderr, "zamiathen: %zu: %s\n%s\n", played.number, zamiathen_text(played.number), GAME_LIMITS);
        return REFUSED;
    }
    size_t judged = zamiathen_judge(sheet->bytes, sheet->length, book->codes, book->length).number;
    if (judged == played.number || !goal->in_words || (played.number != ZAMIATHEN_BOOK_RULES && played.number != ZAMIATHEN_BOOK_ENDS))
        return answer_fault(r, sheet, judged == played.number ? book : goal, &list->texts[played.edit], answer);
    fprintf(stderr, "%s: %zu: %s\nThe goal is one rule.\n", goal->source.path, played.number, zamiathen_text(played.number));
    return REFUSED;
}

static int print_played(request *r, const text *goal, const edit_list *list, size_t moves, zamiathen_played played) {
    bool wins = played.outcome != ZAMIATHEN_PLAY_CANNOT;
    printf("%s%s%s in %zu move%s", ink(r, wins ? GREEN : RED), wins ? "a win can be forced" : "no win can be forced", ink(r, PLAIN), moves,
           moves == 1 ? "" : "s");
    if (played.outcome == ZAMIATHEN_PLAY_EDIT)
        printf(": first enter %s\n", list->texts[played.edit].source.path);
    else
        puts(wins ? ": first pass, for no edit can be made" : "");
    if (goal->in_words) {
        print_place(r, goal, 0, "  ");
        fputc('\n', stdout);
    }
    print_rule(r, "  ", goal->codes, goal->length);
    return wins ? DONE : REFUSED;
}

int run_play(request *r) {
    file sheet;
    text book, goal;
    edit_list list;
    size_t moves = 0;
    int status = read_case(r, &sheet, &book);
    if (status == DONE)
        status = read_text(r, r->operands[2], false, &goal);
    if (status == DONE)
        status = typed_count(r->operands[3], "MOVES is a number from 1 to 6", &moves);
    if (status == DONE)
        status = read_edits(r, &list);
    if (status != DONE)
        return status;
    zamiathen_played played =
        zamiathen_play(sheet.bytes, sheet.length, book.codes, book.length, goal.codes, goal.length, list.codes, list.length,
                       list.lengths, list.count, list.dispatchers, moves);
    if (played.number != ZAMIATHEN_DONE)
        return play_fault(r, &sheet, &book, &goal, &list, played);
    return print_played(r, &goal, &list, moves, played);
}
