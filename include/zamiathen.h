/* zamiathen.h: station sheets, for C programs.
 *
 * A sheet is a small labelled graph in 8,704 bytes: nodes, labels on nodes, and arrows of 16 kinds between nodes. A
 * rule is a formula that a sheet keeps or breaks, and a book is a list of 0 to 32 rules. An edit is a list of steps
 * that change labels and arrows. zamiathen_enter applies an edit to a sheet only if every rule of the book holds
 * afterwards; otherwise the sheet stays as it was.
 *
 * To find out, it carries each rule back through the edit. The carried rule is a rule about the sheet before the
 * edit, true exactly when the original is true after it. The scratch is the caller's buffer for one carried rule at a
 * time.
 *
 * Link with libzamiathen.a:  cc program.c $(pkg-config --cflags --libs zamiathen)
 *
 * docs/C.md is a guide with a program for each subject, and docs/RULES.md explains how rules and edits are written;
 * both are installed in share/zamiathen/doc.
 *
 * Answers. A call answers with a number and a place. The number is 0 when the call is done; any other number is a
 * refusal, and the place says where: a block, a byte, a rule, or the length that is needed (enum zamiathen_number).
 * Each call's comment ends with its questions, by these numbers. A call asks them in the order given, and answers with
 * the first that fails.
 *
 * Buffers. Each buffer is a pointer and its length in bytes. A call reads no byte outside its buffers and writes only
 * where its paragraph says so. A buffer that a call writes must not overlap any other buffer of that call. These are
 * written: the sheet of zamiathen_blank, zamiathen_type_page, zamiathen_apply, zamiathen_enter, zamiathen_close,
 * zamiathen_open and zamiathen_return; the store of zamiathen_store_blank, zamiathen_keep and zamiathen_drop; the
 * card of zamiathen_convert_255 and zamiathen_convert_257; the first sheet of zamiathen_join_sheets; the scratch of
 * zamiathen_enter; and every buffer named output. A pointer may be NULL only when its length is 0. Nothing else is
 * required: any bytes, any length and any number get an answer.
 *
 * Threads. The library keeps no state, allocates nothing and takes no lock. Calls may run at the same time in any
 * number of threads as long as no buffer that one call writes is read or written by another.
 *
 * Stack. Every call needs at most ZAMIATHEN_STACK_BYTES bytes of stack below the frame that makes it. A thread also
 * needs stack for its other frames and for what its C library keeps there: ZAMIATHEN_THREAD_BYTES leaves 128 KiB for
 * these.
 */
#ifndef ZAMIATHEN_H
#define ZAMIATHEN_H

#include <stddef.h>
#include <stdint.h>

#ifdef __cplusplus
extern "C" {
#endif

/* The version. The first number goes up when the form of sheets, an answer of a call or a declaration changes, the
 * second when a call is added. Sheets written under versions 4 and 5 have today's form. zamiathen_convert_255
 * converts a card written under version 1, zamiathen_convert_257 one written under version 2 or 3. ZAMIATHEN_VERSION
 * is both numbers as one: 1000 * first + second. */
#define ZAMIATHEN_VERSION_FIRST 6
#define ZAMIATHEN_VERSION_SECOND 2
#define ZAMIATHEN_VERSION (1000 * ZAMIATHEN_VERSION_FIRST + ZAMIATHEN_VERSION_SECOND)

/* Returns the ZAMIATHEN_VERSION of the header that the library was built with. Compare it with the program's own. */
size_t zamiathen_version(void);

/* Sizes. */
#define ZAMIATHEN_SHEET_BYTES 8704    /* the length of every sheet */
#define ZAMIATHEN_STORE_BYTES 61440   /* the length of every store */
#define ZAMIATHEN_TEXT_BYTES 4096     /* the longest book or edit; enough for a rewritten book or a joined edit */
#define ZAMIATHEN_CARRIED_BYTES 16384 /* the longest carried book or carried rule; enough for every scratch */
#define ZAMIATHEN_LOG_BYTES 4608      /* enough for the blocks of every edit (zamiathen_log_edit) */
#define ZAMIATHEN_BOOK_WORDS_BYTES 166653 /* the longest book in words (zamiathen_book_to_words) */
#define ZAMIATHEN_EDIT_WORDS_BYTES 217095 /* the longest edit in words */
#define ZAMIATHEN_RULE_WORDS_BYTES 662372 /* the longest carried rule in words */
#define ZAMIATHEN_LINE_BYTES 64       /* a line of a page, with its line feed */
#define ZAMIATHEN_PAGE_BYTES 3904     /* the longest page: an arrow kind, 60 nodes; a label page has 3200 */
#define ZAMIATHEN_STACK_BYTES 262144  /* measured: 189,960, with a carried rule of 255 levels, the most */
#define ZAMIATHEN_THREAD_BYTES 393216 /* the whole stack of a thread */

/* Limits. A sheet has n nodes, where n is 1 to ZAMIATHEN_MAX_NODES and stands in its byte 2. Nodes, labels and arrow
 * kinds are numbered from 0. Any node below n may be named, in use or closed. The count of an 0A is 1 to 60 and that
 * of an 0B is 0 to 59, for every n. */
#define ZAMIATHEN_MAX_NODES 60
#define ZAMIATHEN_LABELS 48    /* in every sheet */
#define ZAMIATHEN_ARROWS 16    /* kinds, in every sheet */
#define ZAMIATHEN_MAX_RULES 32 /* in a book */
#define ZAMIATHEN_MAX_SMALL 3  /* nodes of a small sheet (zamiathen_count) */
#define ZAMIATHEN_MAX_EDITS 4  /* on each side of a game (zamiathen_play) */
#define ZAMIATHEN_MAX_MOVES 6  /* in a game */

/* Answer numbers, the one table of them; zamiathen_text has a sentence for each. Each number but 0 belongs to a
 * question. The questions about a sheet are asked in this order: 1, then 2, 3 and 4 of block 0, then of block 1, and
 * so on. Those about a book or an edit: the length first, then the others from left to right. */
enum zamiathen_number {
    ZAMIATHEN_DONE = 0, /* place 0 */

    /* The sheet. Place: 0 for the length, otherwise the block, 0 to 16. */
    ZAMIATHEN_SHEET_LENGTH = 1, /* it is not 8,704 bytes long */
    ZAMIATHEN_SHEET_SUMS = 2,   /* the check bytes of a block are wrong */
    ZAMIATHEN_SHEET_HEAD = 3,   /* bytes 0 to 2 of a block are wrong, n is not 1 to 60, or no node below n is in use */
    ZAMIATHEN_SHEET_ZEROS = 4,  /* a byte or bit that must be zero is not; also a label or arrow of a closed node */

    /* Numbers passed to a call. Place 0. */
    ZAMIATHEN_NODE_COUNT = 5,   /* n of a blank sheet is not 1 to 60 */
    ZAMIATHEN_OUT_OF_RANGE = 7, /* the sheet has no label, arrow or node of this number */

    /* The book. Place: the byte in the book, except 0 for 11 and, for 12, the book's length (of zamiathen_witness and
     * zamiathen_rule_to_words at most 16,384). */
    ZAMIATHEN_BOOK_LENGTH = 11, /* more than 4,096 bytes; of zamiathen_check_steps: more than 16,384 */
    ZAMIATHEN_BOOK_ENDS = 12,   /* it ends where a byte is wanted */
    ZAMIATHEN_BOOK_CODE = 13,   /* not a code of the sort wanted */
    ZAMIATHEN_BOOK_LEVEL = 14,  /* deeper than level 32; where a carried rule is taken: than level 255 */
    ZAMIATHEN_BOOK_NUMBER = 15, /* a label, arrow or node number or a count out of range */
    ZAMIATHEN_BOOK_RULES = 16,  /* more than 32 rules, or bytes after a single rule; place: the first byte too many */

    /* The edit. Places as for the book. */
    ZAMIATHEN_EDIT_LENGTH = 21, /* more than 4,096 bytes, of a joined edit too */
    ZAMIATHEN_EDIT_ENDS = 22,   /* it ends where a byte is wanted; an empty text is not an edit */
    ZAMIATHEN_EDIT_CODE = 23,   /* not a code of the sort wanted */
    ZAMIATHEN_EDIT_LEVEL = 24,  /* deeper than level 32 */
    ZAMIATHEN_EDIT_NUMBER = 25, /* a label, arrow or node number or a count out of range */
    ZAMIATHEN_EDIT_MORE = 26,   /* bytes after the edit; place: the first of them */

    /* The carried book. */
    ZAMIATHEN_CARRIED_LENGTH = 31, /* it would have more than 16,384 bytes; place 0 */
    ZAMIATHEN_CARRIED_LEVELS = 32, /* it would have more than 255 levels; place 0 */
    ZAMIATHEN_ROOM = 33,           /* the scratch or output is too short; place: the length needed, for a scratch the
                                    * length of the longest single carried rule */

    /* The rules. */
    ZAMIATHEN_RULE_BROKEN = 41, /* place: the first broken rule of the book, from 0 */

    /* The page. Place: 0 for its length or its head; p if the line that begins with the number p - 1 is the first that
     * is not as printed. */
    ZAMIATHEN_PAGE = 51, /* no sheet of this n with these nodes in use prints such a page */

    /* The log. The program `replay` answers these; no call does. Place: the block, from 0; where the log ends inside an
     * edit, the number of blocks. */
    ZAMIATHEN_LOG_SUMS = 52,  /* the check bytes of a complete block are wrong */
    ZAMIATHEN_LOG_BLOCK = 53, /* a block's fields are wrong, its number is above 65,534, it is cut short, or the log
                               * ends inside an edit */

    /* A node to be closed. Place: the node. */
    ZAMIATHEN_NODE_TAKEN = 54, /* it has a label, an arrow from it or to it, or is the only node in use */

    /* The store. Place 0. */
    ZAMIATHEN_STORE = 55,         /* its length, its head, a kept sheet or an unfilled place is wrong */
    ZAMIATHEN_PLAN_NAME = 56,     /* the name is not 1 to 7 */
    ZAMIATHEN_PLAN_UNFILLED = 57, /* nothing is kept under the name */

    /* Two sheets to be joined. Place: the number of nodes that they have together. */
    ZAMIATHEN_NODES_TOTAL = 58, /* more than 60 */

    /* A shortened rule. */
    ZAMIATHEN_STEP = 59, /* a step is cut short, its law is unknown, or it does not fit; place: the step, from 0 */
    ZAMIATHEN_SENT = 60, /* the steps do not make the text sent; place: the first different byte, or the shorter
                          * length */

    /* Small sheets to be counted. Place 0. */
    ZAMIATHEN_SMALL_SHEETS = 61, /* n is not 1 to 3, or a label or arrow other than 0 is named */

    /* The game. This question comes before those about the sheet. Place 0. */
    ZAMIATHEN_GAME_RANGE = 62, /* not 1 to 4 dispatcher edits, 0 to 4 disruption edits and 1 to 6 moves; or the lengths
                                * do not add up to edits_length */

    /* The table of names. Place: the first byte of its first wrong token, or its length where a token is missing. */
    ZAMIATHEN_NAMES = 63, /* a token is missing, or is not the sort, number or name wanted there */

    /* Words. Place, except of 70: the first byte of the token, or the words' length where a token is missing. */
    ZAMIATHEN_WORDS_END = 64,    /* a token is missing */
    ZAMIATHEN_WORDS_START = 65,  /* a rule, expression or step is wanted, and this token does not begin one */
    ZAMIATHEN_WORDS_MARK = 66,   /* a mark, one of ( ) and the comma, is wanted, and this is another token */
    ZAMIATHEN_WORDS_NUMBER = 67, /* a name or count is wanted, and this is not one of that sort in its range */
    ZAMIATHEN_WORDS_LEVEL = 68,  /* what this token begins would be deeper than level 32 */
    ZAMIATHEN_WORDS_RULES = 69,  /* any token after the 32nd rule */
    ZAMIATHEN_WORDS_LENGTH = 70  /* the codes would have more than 4,096 bytes; place: how many */
};

/* Returns a sentence for a number, to show to people. */
static inline const char *zamiathen_text(size_t number) {
    switch (number) {
    case 0: return "Done.";
    case 1: return "The sheet is not 8,704 bytes long.";
    case 2: return "The check bytes of a block of the sheet are wrong.";
    case 3: return "The head of a block of the sheet is wrong, or no node is in use.";
    case 4: return "A byte or bit of the sheet that must be zero is not.";
    case 5: return "A blank sheet has 1 to 60 nodes.";
    case 7: return "The sheet has no label, arrow or node of this number.";
    case 11: return "The book is too long.";
    case 12: return "The book ends where a byte is wanted.";
    case 13: return "A byte of the book is not a code of the sort wanted.";
    case 14: return "The book is too deep.";
    case 15: return "A label, arrow or node number or a count in the book is out of range.";
    case 16: return "The book has more than 32 rules, or more follows the one rule wanted.";
    case 21: return "The edit has more than 4,096 bytes.";
    case 22: return "The edit ends where a byte is wanted.";
    case 23: return "A byte of the edit is not a code of the sort wanted.";
    case 24: return "The edit is too deep.";
    case 25: return "A label, arrow or node number or a count in the edit is out of range.";
    case 26: return "Bytes follow the end of the edit.";
    case 31: return "The book, carried back, would have more than 16,384 bytes.";
    case 32: return "The book, carried back, would have more than 255 levels.";
    case 33: return "The scratch or output is too short.";
    case 41: return "A rule is broken.";
    case 51: return "The page is not one that such a sheet prints.";
    case 52: return "The check bytes of a block of the log are wrong.";
    case 53: return "A block of the log is wrong or cut short, or the log ends inside an edit.";
    case 54: return "The node has a label or an arrow, or is the only one in use.";
    case 55: return "The store, or a sheet kept in it, is not sound.";
    case 56: return "A plan's name is a number from 1 to 7.";
    case 57: return "Nothing is kept under this name.";
    case 58: return "The two sheets have more than 60 nodes together.";
    case 59: return "A step is cut, its law is unknown, or it does not fit.";
    case 60: return "The text that the steps make is not the one sent.";
    case 61: return "Small sheets have 1 to 3 nodes; book and edit may name only label 0 and arrow 0.";
    case 62: return "The lists of edits, their lengths or the number of moves are out of range.";
    case 63: return "The table of names is wrong here.";
    case 64: return "The words end where more is wanted.";
    case 65: return "This does not begin a rule, expression or step of the sort wanted here.";
    case 66: return "Another mark, one of ( ) and the comma, is wanted here.";
    case 67: return "This is not a name or count of the sort wanted here.";
    case 68: return "The words are nested too deep here.";
    case 69: return "The book has more than 32 rules.";
    case 70: return "The words stand for more than 4,096 bytes.";
    default: return "This version has no such number.";
    }
}

/* An answer: a number of enum zamiathen_number, and its place. */
typedef struct {
    size_t number, place;
} zamiathen_answer;

/* An answer with a bit, 0 or 1. After a refusal the bit is 0. */
typedef struct {
    size_t number, place, bit;
} zamiathen_bit;

/* An answer with a set of nodes, bit i for node i, and a count. After a refusal both are 0. */
typedef struct {
    size_t number, place, count;
    uint64_t set;
} zamiathen_node_set;

/* An answer with a length in bytes. Look at the number before you use the length: after a refusal the length is 0, and
 * a book of length 0 is a book without rules, which every edit keeps. */
typedef struct {
    size_t number, place, length;
} zamiathen_length;

/* The answer of zamiathen_judge. After 41 the broken rule is book[start] to book[start + length - 1]; otherwise start
 * and length are 0. */
typedef struct {
    size_t number, place, start, length;
} zamiathen_judged;

/* An answer with the witness: the lowest node or pair that breaks a rule, by kind. After a refusal all of it is 0. */
enum zamiathen_witness_kind {
    ZAMIATHEN_WITNESS_HOLDS = 0,  /* the rule holds */
    ZAMIATHEN_WITNESS_NODE = 1,   /* first is the lowest node that breaks it, nodes is the set of all such nodes */
    ZAMIATHEN_WITNESS_PAIR = 2,   /* first and second are the lowest pair that breaks it, by first, then by second */
    ZAMIATHEN_WITNESS_UNNAMED = 3 /* the rule is broken, and no node or pair is named */
};

typedef struct {
    size_t number, place, kind, first, second;
    uint64_t nodes;
} zamiathen_witnessed;

/* An answer with four counts of small sheets. After a refusal each is 0. */
typedef struct {
    size_t number, place;
    size_t kept_kept;     /* the book is kept before and after the edit */
    size_t kept_broken;   /* kept before, broken after */
    size_t broken_kept;   /* broken before, kept after */
    size_t broken_broken; /* broken before and after */
} zamiathen_counts;

/* The answer of zamiathen_play: the outcome, and an edit by its place in the list of edits, from 0. After a refusal
 * with 21 to 26, 31 or 32 the edit is the one that is refused. The edit is 0 where none is meant. */
enum zamiathen_outcome {
    ZAMIATHEN_PLAY_CANNOT = 0, /* no win can be forced */
    ZAMIATHEN_PLAY_EDIT = 1,   /* a win can be forced, starting with this edit: the lowest-numbered that forces it */
    ZAMIATHEN_PLAY_PASS = 2,   /* a win can be forced; the dispatcher can make no edit now, and passes first */
    ZAMIATHEN_PLAY_REFUSED = 3 /* the call is refused: the number is not 0 */
};

typedef struct {
    size_t number, place, outcome, edit;
} zamiathen_played;

/*
 * Sheets
 *
 * A sheet is 17 blocks of 512 bytes. The last four bytes of a block are its check bytes: the sums s and t over its
 * bytes 0 to 507. Both start at 0; for each byte, s becomes (s + byte) mod 257, then t becomes (t + s) mod 257. Each
 * is stored in two bytes, low byte first, s at 508 and t at 510. Every call that reads a sheet checks them. If a
 * single byte of a sound sheet has changed, or two unequal neighbours among the first 508 bytes of a block have
 * changed places, the answer is 2, and the place is that block (zamiathen_play asks 62 first).
 *
 * Block 0 holds 48 labels, 8 bytes each from byte 16 on, low byte first; bit i is node i. Bytes 400 to 407 hold the
 * nodes in use, in the same form. A node below n that is not in use is closed. A closed node has no labels and no
 * arrows, and is in the value of no node expression, not even of 01 (all) or 05 (not). So 04 and 17 on a closed node
 * are empty, and 23 and 24 do not hold there. No edit closes or opens a node.
 */

/* Makes the buffer a sound sheet of n nodes, all in use, without labels and arrows. What it held before does not
 * matter. A refusal leaves it as it was.
 * Questions: 5, then 1. */
zamiathen_answer zamiathen_blank(uint8_t *sheet, size_t sheet_length, size_t n);

/* Checks whether a sheet is sound: for sheets that are loaded when there is no book to judge. Every other call that
 * reads a sheet begins with the same questions, except that zamiathen_play asks 62 first; zamiathen_join_sheets asks
 * them about its first sheet, then about its second. Writes nothing.
 * Questions: 1 to 4. */
zamiathen_answer zamiathen_check(const uint8_t *sheet, size_t sheet_length);

/* Converts a card, which is a sheet stored under version 1, into a sheet, in the same buffer. n, labels and arrows
 * stay, all n nodes are in use, and the check bytes become those of a sheet. A refusal leaves the card as it was.
 * Convert each card once: a current sheet passed here is checked against the old format.
 * Questions: 1 to 4 of the old format, which has its sums modulo 255 over bytes 0 to 509 of a block, s at 510 and t
 * at 511 in one byte each, and zeros up to byte 509, in block 0 from byte 400 on. */
zamiathen_answer zamiathen_convert_255(uint8_t *card, size_t card_length);

/* Does the same for a card written under version 2 or 3. A sound sheet passed here is answered 4, place 0, and stays
 * as it was.
 * Questions: 1 to 4 of that format, which has the sums of a sheet, and zeros in bytes 400 to 507 of block 0. */
zamiathen_answer zamiathen_convert_257(uint8_t *card, size_t card_length);

/* Joins two sheets into one, in the first one's buffer. The second sheet's nodes follow the first's: its node i
 * becomes node n + i, where n is the first sheet's. They keep their labels and arrows and stay in use or closed. No
 * arrow goes from nodes of one sheet to nodes of the other. Only done changes the first sheet, its check bytes
 * included; the second is never written. To join a sheet with itself, pass a copy as the second.
 *
 * No book is judged. A rule built from 21, 22 and 25 in which 04 and 17 do not appear holds on the joined sheet
 * exactly when it holds on both; for any other rule call zamiathen_judge.
 * Questions: 1 to 4 of the first sheet, 1 to 4 of the second, then 58. After 1 to 4 zamiathen_check says which sheet
 * is meant. */
zamiathen_answer zamiathen_join_sheets(uint8_t *first, size_t first_length, const uint8_t *second,
                                       size_t second_length);

/* Reads whether a node has a label: the bit is 1 if it does. A closed node has no label. Any numbers may be passed,
 * also above 255. Each call checks the whole sheet. Writes nothing.
 * Questions: 1 to 4, then 7 (is the label below 48 and the node below n?). */
zamiathen_bit zamiathen_label_bit(const uint8_t *sheet, size_t sheet_length, size_t label, size_t node);

/* Reads whether an arrow of this kind goes from one node to the other: the bit is 1 if it does. Each call checks the
 * whole sheet. Writes nothing.
 * Questions: 1 to 4, then 7 (is the arrow below 16, and are both nodes below n?). */
zamiathen_bit zamiathen_arrow_bit(const uint8_t *sheet, size_t sheet_length, size_t arrow, size_t from, size_t to);

/* Answers with the nodes in use, and with n as the count. Writes nothing.
 * Questions: 1 to 4. */
zamiathen_node_set zamiathen_nodes(const uint8_t *sheet, size_t sheet_length);

/* Answers with the nodes that have a label, and with their number as the count. Writes nothing.
 * Questions: 1 to 4, then 7 (is the label below 48?). */
zamiathen_node_set zamiathen_label_set(const uint8_t *sheet, size_t sheet_length, size_t label);

/* Answers with the nodes to which arrows of a kind go from a node, and with their number as the count. Writes
 * nothing.
 * Questions: 1 to 4, then 7 (is the arrow below 16 and the node below n?). */
zamiathen_node_set zamiathen_row_set(const uint8_t *sheet, size_t sheet_length, size_t arrow, size_t from);

/*
 * Pages
 *
 * A page is a part of a sheet printed as text, in lines of 64 bytes with the line feed. The page of an arrow kind has
 * the head A, two digits of the kind, 60 blanks; then one line for each node: two digits, a blank, 60 squares. A
 * square is # for an arrow to the node of that column, . for none, and blank in columns n and above. The label page
 * has the head L, two digits of n, 60 blanks; then 48 such lines, one for each label, with # for a node that has it;
 * then line 48, with # for a node in use.
 */

/* Prints the page of an arrow kind, 64 * (n + 1) bytes, at the start of the output, and answers with its length. The
 * rest of the output stays as it was; a refusal leaves all of it.
 * Questions: 1 to 4, 7 (is the arrow below 16?), then 33. */
zamiathen_length zamiathen_print_arrow(const uint8_t *sheet, size_t sheet_length, size_t arrow, uint8_t *output,
                                       size_t output_length);

/* Prints the label page, 64 * 50 bytes, in the same way.
 * Questions: 1 to 4, then 33. */
zamiathen_length zamiathen_print_labels(const uint8_t *sheet, size_t sheet_length, uint8_t *output,
                                        size_t output_length);

/* Types a page back into a sheet of the same n: it replaces the block that the page's head names, the arrows of that
 * kind or all labels. Only done changes the sheet, and only that block, its check bytes included. Typing does not
 * close or open a node: a mark at a closed node is refused with 51 and its line, and so is a line 48 (place 49) other
 * than the sheet's.
 * Questions: 1 to 4, then 51. */
zamiathen_answer zamiathen_type_page(uint8_t *sheet, size_t sheet_length, const uint8_t *page, size_t page_length);

/*
 * Rules
 */

/* Answers with the length of the first rule of a text: the rule is text[0] to text[length - 1]. An empty text has no
 * first rule, and is answered 12. Node numbers up to 59 are in range. Writes nothing.
 * Questions: 11 of the whole text, then 12 to 15 of the first rule; what follows the rule is not checked. */
zamiathen_length zamiathen_first_rule(const uint8_t *text, size_t text_length);

/* Returns where a rule of a book starts; rules are counted from 0, and n is that of the sheet judged (after
 * zamiathen_return the kept one); 60 gives the same for every book that passed 11 to 16. After a 41, which names a
 * rule, its bytes go from zamiathen_rule_start(book, book_length, n, rule) up to zamiathen_rule_start(book,
 * book_length, n, rule + 1). Returns book_length if the book does not have such a rule, or if a rule before it cannot
 * be read with node numbers below n. Asks no question and writes nothing. */
size_t zamiathen_rule_start(const uint8_t *book, size_t book_length, size_t n, size_t rule);

/* Checks whether each rule of the book holds on the sheet. Writes nothing.
 * Questions: 1 to 4, 11 to 16, then 41. */
zamiathen_judged zamiathen_judge(const uint8_t *sheet, size_t sheet_length, const uint8_t *book, size_t book_length);

/* Finds the lowest node or pair that breaks a rule on the sheet. The rule is the first of a text, and may have 16,384
 * bytes and 255 levels, as a carried rule may. What follows the rule is not checked, and neither is anything after
 * the first 16,384 bytes of a longer text. Writes nothing.
 *
 * 21 E F is broken by the nodes of E that are not in F, 22 R S by the pairs of R that are not in S, 23 i E and 24 i j
 * R by that node and that pair. 25 K L is broken by what breaks K or, where K holds, by what breaks L; 26 K L by what
 * breaks L; for 27 K nothing is named. With kind 1, nodes is the set of all nodes that break the 21 or 23 that first
 * comes from; with every other kind it is 0.
 *
 * After 41 of zamiathen_judge pass the part of the book that it names. After 41 of zamiathen_enter pass the sheet,
 * which is as it was, and the scratch, which starts with the broken rule, carried back: the witness is who would
 * break the rule after the edit. After 41 of zamiathen_return the kept sheet is in the store, from byte 512 + 8704 *
 * (name - 1) on. After 41 of zamiathen_close or zamiathen_open make the same call with an empty book on a copy of
 * the sheet, and pass the copy and the rule in the book.
 * Questions: 1 to 4, then 12 to 15 of the rule. */
zamiathen_witnessed zamiathen_witness(const uint8_t *sheet, size_t sheet_length, const uint8_t *rule,
                                      size_t rule_length);

/* Rewrites a stored book, in which a count may be any byte, as one whose counts are in range, and answers with its
 * length. From the inside out, an 0A with the count 0 becomes 01, one with a count above 60 becomes 02, and an 0B
 * with a count of 60 or more becomes 01, each together with its operands; all other bytes stay. Each rule holds as
 * before on every sheet that the stored book's node numbers fit. The rewritten book is not longer than the stored
 * one, and a book whose counts are in range stays the same. Node numbers up to 59 are in range. The book is written
 * at the start of the output, and the rest of the output stays as it was; a refusal leaves all of it.
 * Questions: 11 to 16, then 33. */
zamiathen_length zamiathen_rewrite(const uint8_t *book, size_t book_length, uint8_t *output, size_t output_length);

/* Checks a carried rule that another tool has shortened: do the steps, made on the carried rule, give the text sent?
 * A step is three bytes: an offset into the text as it is then, low byte first, and a law: 1 05 05 E to E; 2 06 E E
 * to E; 3 07 E E to E; 4 06 E 05 E to 02; 5 07 01 E to 01; 6 06 01 E to E; 7 27 27 K to K; 8 26 K K to K. The offset
 * is that of the code where the left side begins, and E E means the same bytes twice. Done means that both texts have
 * the same truth on every sheet that their node numbers fit. Every chain of fitting steps that ends in the text sent
 * is done. Writes nothing.
 * Questions: 11 to 16 of the carried rule, 59 of each step, then 60. The carried rule is one rule of at most 16,384
 * bytes and 255 levels, with node numbers up to 59; a byte after it is 16, and an empty text is 12. */
zamiathen_answer zamiathen_check_steps(const uint8_t *rule, size_t rule_length, const uint8_t *steps,
                                       size_t steps_length, const uint8_t *sent, size_t sent_length);

/*
 * Edits
 */

/* Joins two edits into one that makes the steps of p and then those of q, and answers with its length. Its bytes are
 * those of p without the last, which is its end, then those of q. They are written at the start of the output, and
 * the rest of the output stays as it was; a refusal leaves all of it. Node numbers up to 59 are in range.
 *
 * The joined edit passes 21 to 26 on a sheet exactly when both edits do, and zamiathen_apply leaves the same sheet
 * with it as with p and then q. zamiathen_carry_back answers and writes the same with it as with p for the book
 * carried through q, if that book has at most 4,096 bytes and 32 levels. Where zamiathen_enter enters p and then q,
 * it also enters the joined edit, if the carried book and the scratch allow it. It may enter the joined edit even
 * where it would refuse p, since only the sheet after the last step is judged.
 * Questions: 21 to 26 of p, 21 to 26 of q, 21 of the joined edit (place 0), then 33. To see which edit a refusal
 * means, join each with an edit of the single byte 0x30. */
zamiathen_length zamiathen_join_edits(const uint8_t *p, size_t p_length, const uint8_t *q, size_t q_length,
                                      uint8_t *output, size_t output_length);

/* Makes the steps of an edit on the sheet, one after the other, without a book. Only done changes the sheet, its
 * check bytes included.
 * Questions: 1 to 4, then 21 to 26. */
zamiathen_answer zamiathen_apply(uint8_t *sheet, size_t sheet_length, const uint8_t *edit, size_t edit_length);

/* Carries a book back through an edit: the carried book holds on a sheet before the edit exactly when the book holds
 * after it. Answers with the length of the whole carried book, which is also the place of a 33; zamiathen_enter needs
 * less (see there). The carried book is written at the start of the output, and the rest of the output stays as it
 * was; a refusal leaves all of it. Node numbers up to 59 are in range.
 *
 * A carried book may be longer and deeper than a book may be: zamiathen_judge answers 11 if it has more than 4,096
 * bytes, and 14 beyond level 32. Only zamiathen_witness, zamiathen_rule_to_words and zamiathen_check_steps take one
 * rule of 16,384 bytes and 255 levels.
 * Questions: 11 to 16, 21 to 26, then 31 to 33. */
zamiathen_length zamiathen_carry_back(const uint8_t *book, size_t book_length, const uint8_t *edit,
                                      size_t edit_length, uint8_t *output, size_t output_length);

/* Enters an edit, whole or not at all: the call is done, and the sheet becomes the one that the edit's steps leave,
 * if each rule of the book holds on that sheet. Rules may be broken between steps, and the sheet before the call need
 * not keep the book. Only done changes the sheet, its check bytes included. An edit may be done and leave the sheet
 * as it was; to see whether anything changed, compare the sheet's bytes with a copy made before the call.
 *
 * The rules are carried back and judged one by one, up to the first that is broken. Each is written at the start of
 * the scratch, over the one before it. After 41 the scratch starts with the broken rule, carried back; after done,
 * with the last rule. After that rule stand remains of longer rules before it, and then what the scratch held before
 * the call. Every other answer, and every answer for an empty book, leaves the scratch as it was.
 *
 * 33 means that the scratch is shorter than the longest single carried rule of the book, and its place is that rule's
 * length. It is answered before any rule is judged, even if the longest rule comes after a broken one.
 * ZAMIATHEN_CARRIED_BYTES is enough for every book and edit, and nothing less is: a book of one rule may be carried
 * to exactly that length. Apart from 33, neither the answer nor the sheet depends on the scratch. 31 and 32 measure
 * the whole carried book, for every scratch.
 * Questions: 1 to 4, 11 to 16, 21 to 26, 31 to 33, then 41. */
zamiathen_answer zamiathen_enter(uint8_t *sheet, size_t sheet_length, const uint8_t *book, size_t book_length,
                                 const uint8_t *edit, size_t edit_length, uint8_t *scratch, size_t scratch_length);

/* Cuts an edit into blocks of a log, 512 bytes for every 504 of the edit or part of them, and answers with their
 * length. The program `replay` reads these blocks as that edit. A log is such blocks one after the other, at most
 * 65,535. The bytes may have any value: whether they are an edit is not checked. The blocks are written at the start
 * of the output, and the rest of the output stays as it was; a refusal leaves all of it.
 * Questions: 22 (is there a byte?), 21, then 33. */
zamiathen_length zamiathen_log_edit(const uint8_t *edit, size_t edit_length, uint8_t *output, size_t output_length);

/*
 * Words
 *
 * Books and edits can be written in words and printed in words. The tokens of a text are ( and ) and the comma, and
 * words, which are the longest runs of other bytes. Blanks, tabs, line feeds and carriage returns stand between
 * tokens; # starts a comment that ends at the line feed, even directly after a word. Operands stand in the order of
 * the codes:
 *
 *   nodes   all 01, none 02, a label's name 03, a node's name 04, not(E) 05, and(E, F) 06, or(E, F) 07, some(R, E) 08,
 *           every(R, E) 09, at-least(m, R, E) 0A, at-most(m, R, E) 0B
 *   arrows  an arrow's name 11, reversed(R) 12, or(R, S) 13, and(R, S) 14, without(R, S) 15, to(R, E) 16, pair(i, j) 17
 *   rules   each(E, F) 21, each-arrow(R, S) 22, is(i, E) 23, joined(i, j, R) 24, and(K, L) 25, or(K, L) 26, not(K) 27
 *   steps   mark(LABEL, E) 31, unmark(LABEL, E) 32, add(ARROW, R) 33, take(ARROW, R) 34;
 *           if(K) steps else steps end 35: else and end are the 30s of its branches; the text's end is the last 30
 *
 * E and F are nodes, R and S arrows, K and L rules, i and j names of nodes; a count m is decimal without leading
 * zeros.
 *
 * A table of names is a text of the same tokens, three for each name: a sort, a number and the name, for example
 * "label 0 train", "arrow 0 stands-at", "node 34 T34". A name has 1 to 64 bytes, each of them 21 (hexadecimal) or
 * above, except 7F and ( ) , #; so UTF-8 is allowed. Each label, arrow and node has at most one name. All names are
 * different; none is a word of the notation, and none begins with label:, arrow: or node:. What has no name is
 * written label:3, arrow:2, node:7, and what has one is not. An empty text is a table. Labels are 0 to 47, arrows 0
 * to 15, nodes 0 to 59.
 *
 * Words are printed in one layout: each rule and each step on a line of its own; else and end on lines of their own
 * under their if; two blanks of indent inside an if; a blank after each comma, and no other blank; a line feed at the
 * end. An empty book and the edit 30 print nothing. What is printed is read back to the same bytes by the same table,
 * and by every table with the same names for what is named. Two texts that are read to the same codes differ only in
 * layout and comments.
 *
 * When words are refused with 64 to 69, the tokens before the place begin the words of some book or edit, and the
 * tokens up to and including the place do not begin any within the limits.
 *
 * Words and tables of names may have any length. A NUL is a byte of a word like any other: pass the length of a string
 * without its NUL, or the last word, or the NUL itself, is refused (63 or 65). A byte order mark is refused at place 0.
 */

/* Checks whether a text is a table of names. Writes nothing.
 * Questions: 63. */
zamiathen_answer zamiathen_check_names(const uint8_t *names, size_t names_length);

/* Prints a book in words at the start of the output, and answers with their length. The rest of the output stays as
 * it was; a refusal leaves all of it. Node numbers up to 59 are in range. ZAMIATHEN_BOOK_WORDS_BYTES is enough for
 * every book; with an output of length 0 the place of the 33 is the length that this book needs.
 * Questions: 63, 11 to 16 of the book, then 33. */
zamiathen_length zamiathen_book_to_words(const uint8_t *names, size_t names_length, const uint8_t *book,
                                         size_t book_length, uint8_t *output, size_t output_length);

/* Prints an edit in words, in the same way; ZAMIATHEN_EDIT_WORDS_BYTES is enough for every edit.
 * Questions: 63, 21 to 26 of the edit, then 33. */
zamiathen_length zamiathen_edit_to_words(const uint8_t *names, size_t names_length, const uint8_t *edit,
                                         size_t edit_length, uint8_t *output, size_t output_length);

/* Prints the first rule of a text in words, in the same way. It may be a carried rule of 16,384 bytes and 255 levels;
 * ZAMIATHEN_RULE_WORDS_BYTES is enough for every rule. What follows the rule is not checked, and neither is anything
 * after the first 16,384 bytes of a longer text. The rule 23 i 01 is printed as is(NAME, all), with the name of node i.
 * Questions: 63, 12 to 15 of the rule, then 33. */
zamiathen_length zamiathen_rule_to_words(const uint8_t *names, size_t names_length, const uint8_t *rule,
                                         size_t rule_length, uint8_t *output, size_t output_length);

/* Reads the words of a book into codes, at the start of the output, and answers with their length. The rest of the
 * output stays as it was; a refusal leaves all of it. ZAMIATHEN_TEXT_BYTES is enough for every book. The codes pass
 * 11 to 16 on every sheet whose n is above each node number in them. In the codes of is(NAME, all), byte 1 is the
 * number of the node with that name.
 * Questions: 63, 64 to 69 from left to right, 70, then 33. */
zamiathen_length zamiathen_book_from_words(const uint8_t *names, size_t names_length, const uint8_t *words,
                                           size_t words_length, uint8_t *output, size_t output_length);

/* Reads the words of an edit into codes, in the same way. The codes pass 21 to 26 on every such sheet.
 * Questions: 63, 64 to 69 from left to right, 70, then 33. */
zamiathen_length zamiathen_edit_from_words(const uint8_t *names, size_t names_length, const uint8_t *words,
                                           size_t words_length, uint8_t *output, size_t output_length);

/* Returns where the first word of a rule stands in the words of a book, so that a 41 can point at a line; rules are
 * counted from 0. Returns words_length if the book does not have such a rule, if the rule is not below 32, if a rule
 * before it cannot be read, or if the table of names is wrong; faults in the rule itself and after it do not matter.
 * Asks no question and writes nothing. */
size_t zamiathen_rule_in_words(const uint8_t *names, size_t names_length, const uint8_t *words, size_t words_length,
                               size_t rule);

/*
 * Closing and opening
 */

/* Closes a node that has no labels and no arrows, if each rule of the book holds on the sheet without it. Only done
 * changes the sheet: the nodes in use, and the check bytes of block 0. A node that is closed already is done after 7:
 * nothing is judged, and no byte changes. A sheet that keeps the book still keeps it, so calls of zamiathen_enter may
 * follow.
 * Questions: 1 to 4, 11 to 16, 7 (is the node below n?), 54, then 41. */
zamiathen_answer zamiathen_close(uint8_t *sheet, size_t sheet_length, const uint8_t *book, size_t book_length,
                                 size_t node);

/* Opens a closed node, which then has no labels and no arrows, if each rule of the book holds on the sheet with it.
 * Only done changes the sheet, in the same places. A node that is in use already is done after 7: nothing is judged,
 * and no byte changes. Opening a node that was just closed gives back the earlier sheet, byte for byte.
 * Questions: 1 to 4, 11 to 16, 7 (is the node below n?), then 41. */
zamiathen_answer zamiathen_open(uint8_t *sheet, size_t sheet_length, const uint8_t *book, size_t book_length,
                                size_t node);

/*
 * Plans to come back to
 *
 * A store keeps sheets under the names 1 to 7. It is a head block of 512 bytes and seven places of 8,704 bytes. Byte
 * 0 of the head is 4, byte 1 has bit v - 1 set if name v is filled, all else is zero, and the check bytes are those
 * of a sheet's block. A filled place is a sound sheet, and an unfilled one is all zero. As long as only these calls
 * write the store, a return that is done gives back, byte for byte, the sheet last kept under that name, no matter
 * what was entered since. If a single byte of a sound store has changed, every call that takes the store, except
 * zamiathen_store_blank, answers 55, once the sheet passed with it has passed its questions.
 */

/* Makes the buffer a store in which no name is filled. What it held before does not matter. A refusal leaves it as it
 * was.
 * Questions: 55 of the length alone (is it 61,440?). */
zamiathen_answer zamiathen_store_blank(uint8_t *store, size_t store_length);

/* Keeps a copy of the sheet under a name, and replaces what was kept there. No book is judged. Only done changes the
 * store: the place of that name, and the head.
 * Questions: 1 to 4, 55, then 56. */
zamiathen_answer zamiathen_keep(const uint8_t *sheet, size_t sheet_length, uint8_t *store, size_t store_length,
                                size_t name);

/* Makes the sheet the one that is kept under a name, if each rule of the book holds on that one. Only done changes
 * the sheet; the store is only read. The sheet then keeps the book, so calls of zamiathen_enter may follow. The buffer
 * must hold a sound sheet: to return into a new buffer or over a damaged sheet, call zamiathen_blank first.
 * Questions: 1 to 4 of the sheet passed, 55, 56, 57, 11 to 16 of the book with the kept sheet's n, then 41 of the
 * book on the kept sheet. */
zamiathen_answer zamiathen_return(uint8_t *sheet, size_t sheet_length, const uint8_t *store, size_t store_length,
                                  size_t name, const uint8_t *book, size_t book_length);

/* Drops what is kept under a name: its place becomes all zero. Only done changes the store.
 * Questions: 55, 56, then 57. */
zamiathen_answer zamiathen_drop(uint8_t *store, size_t store_length, size_t name);

/*
 * Counting
 */

/* Counts what an edit does to every small sheet: of all sheets of n nodes, n from 1 to 3, all in use, with no label
 * except 0 and no arrow except 0, how many keep the book before and after the edit, only before, only after, or
 * neither. The four counts add up to 4, 64 or 4,096. The sheets that keep the book after the edit are those on which
 * each rule of the book, carried back, holds before it. Book and edit may name only label 0, arrow 0 and nodes below
 * n, even in steps that are never made. Takes no sheet and writes nothing. At n = 3 a book and an edit of a few lines
 * take a millisecond or two, the longest up to a second.
 * Questions: 61 (is n 1 to 3?), 11 to 16, 21 to 26, then 61 again (labels and arrows); 31 and 32 are not asked. */
zamiathen_counts zamiathen_count(size_t n, const uint8_t *book, size_t book_length, const uint8_t *edit,
                                 size_t edit_length);

/*
 * A game
 */

/* Decides a game of the dispatcher against the disruption: can the dispatcher force a win, and with which move first?
 * The two sides move one at a time and take turns; the dispatcher begins. A dispatcher edit can be made when
 * zamiathen_enter, with a long enough scratch, would answer done on the sheet reached by then. A disruption edit can
 * always be made, and its steps are carried out without the book. A side passes exactly when none of its edits can be
 * made. The dispatcher wins if the goal, a rule, holds after the last move. The sheet need not keep the book.
 *
 * The texts of the edits stand one after the other in edits, the dispatcher's first. lengths holds the length of
 * each. The first `dispatchers` of the lengths_count edits are the dispatcher's, the others the disruption's. The
 * lengths must add up to edits_length, as whole numbers: a sum that only wraps around to it is 62. The goal is a book
 * of one rule: an empty goal is answered 12, and bytes after the rule are 16.
 *
 * Writes nothing. At most 4,096 lines of play of 6 moves are searched, and each is left as soon as it is decided.
 * With short texts a call takes milliseconds, with the longest texts some seconds (4.1 s measured for a book, a goal
 * and eight edits of more than 3,000 bytes each and six moves).
 * Questions: 62, 1 to 4, 11 to 16 of the book, 11 to 16 of the goal, 21 to 26 of each edit one by one, with the place
 * in its own text, then 31 and 32 of the book carried back through each dispatcher edit, one by one. After 21 to 26,
 * 31 and 32 the edit in the answer says which one is meant. After 11 to 16, zamiathen_judge with the book says
 * whether the book or the goal is meant. */
zamiathen_played zamiathen_play(const uint8_t *sheet, size_t sheet_length, const uint8_t *book, size_t book_length,
                                const uint8_t *goal, size_t goal_length, const uint8_t *edits, size_t edits_length,
                                const size_t *lengths, size_t lengths_count, size_t dispatchers, size_t moves);

#ifdef __cplusplus
}
#endif

#endif
