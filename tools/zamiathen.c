/* zamiathen: the command for those who write a railway's rules and those who plan by them.
 *
 * It reads and writes files, finds lines and sentences, and lays out what it prints. All that is said about sheets,
 * books, edits and names comes from calls of zamiathen.h. The exit status is 0 for done, 1 for refused, 2 for wrong usage or
 * a file that cannot be read or written. A file is never half written: a new one is written next to it and renamed.
 *
 *   cd tools && cc -std=c11 -I../include *.c ../target/staticlib/libsuite.a -o zamiathen
 *
 * This file has the list of commands and what was typed; the others have a subject each, and command.h what they share.
 */
#include "command.h"

#include <stdlib.h>
#include <string.h>
#include <unistd.h>

static int run_help(request *r);

/* A command: its operands, how many there are, the options that it takes, and its help. Among the options n is --names, t
 * --try, e --try EDIT, b --book, s --svg, c --closed, w --who, g --against. */
typedef struct {
    const char *name, *operands, *options;
    size_t least, most;
    int (*run)(request *);
    const char *brief, *help;
} command;

static const command commands[] = {
    {"new", "N OUT", "", 2, 2, run_new, "writes a blank sheet of N nodes",
     "Writes a sheet of N nodes, 1 to 60, all in use, without labels and arrows. A file OUT that exists is replaced.\n"
     "  zamiathen new 60 sheet.bin\n"},
    {"make", "N OPENING OUT", "n", 3, 3, run_make, "writes a blank sheet with an edit carried out",
     "Carries out the edit OPENING on a blank sheet of N nodes, 1 to 60, and writes the sheet. No book is judged. A file OUT\n"
     "that exists is replaced. This is how a station is described: by its names and by an edit that marks the nodes and\n"
     "adds the arrows.\n"
     "  zamiathen make 60 opening.words sheet.bin\n"},
    {"codes", "book|edit FILE [OUT]", "n", 2, 3, run_codes, "makes codes of words",
     "Writes the codes of a book or an edit, to OUT or to the output. A file of codes is checked and written as it is.\n"
     "  zamiathen codes book book.words book.bin\n"},
    {"words", "book|edit|rule FILE [OUT]", "n", 2, 3, run_words, "makes words of codes",
     "Writes a book, an edit or the first rule of a file in words, one rule or step a line, to OUT or to the output. Words\n"
     "are written as they were read, without comments. A rule may be a carried one.\n"
     "  zamiathen words edit move.bin\n"},
    {"list", "BOOK", "n", 1, 1, run_list, "lists the rules as they were understood",
     "For each rule its number, its line, its sentence and its words as they were read. The sentence is the comment on\n"
     "the first line of the rule, or the comment lines directly above it; a comment followed by a blank line is a title.\n"
     "  zamiathen list book.words\n"},
    {"judge", "SHEET BOOK", "n", 2, 2, run_judge, "says whether a sheet keeps a book",
     "Prints \"kept\", or the first rule that is broken, with its line, its sentence and who breaks it. Rules after it are\n"
     "not shown.\n"
     "  zamiathen judge sheet.bin book.words\n"},
    {"enter", "SHEET BOOK EDIT [--try]", "nt", 3, 3, run_enter, "enters an edit, whole or not at all",
     "Enters the edit if the sheet then keeps the book, and prints what changed. Else prints the first rule that would be\n"
     "broken, with its line, its sentence and who would break it, and leaves the sheet as it is. With --try nothing is\n"
     "written.\n"
     "  zamiathen enter sheet.bin book.words move.words --try\n"},
    {"why", "SHEET BOOK EDIT", "n", 3, 3, run_why, "shows the condition that an edit fails",
     "Prints the rule that an edit would break, carried back through the edit: the condition on the sheet as it is. Then the\n"
     "steps that shorten it by the eight laws, as zamiathen_check_steps accepts them, and what they leave.\n"
     "  zamiathen why sheet.bin book.words crowd.words\n"},
    {"show", "SHEET [ARROW] [--svg OUT]", "ns", 1, 2, run_show, "shows labels and arrows by names",
     "Prints the labels and arrows of a sheet. With an arrow's name: a squared sheet of it, # for an arrow from the node of\n"
     "the row to that of the column, and a picture with --svg.\n"
     "  zamiathen show sheet.bin connects-to --svg connections.svg\n"},
    {"table", "SHEET CELL ROW COLUMN IN [--try EDIT [--book BOOK]] [--closed LABEL] [--who LABEL] [--svg OUT]", "nebscw", 5, 5,
     run_table, "shows who stands where, in a squared sheet",
     "A square for each node with the label CELL, in the row and the column to which its arrows ROW and COLUMN go; in the\n"
     "square the nodes with an arrow IN to it. A square with the label closed, or that of --closed, is closed. Below:\n"
     "which nodes stand nowhere, of those with the label --who, or else of the rarest label that all have that stand\n"
     "somewhere, and others too; without such a label nothing is listed. Then the nodes with the label CELL that lack an\n"
     "arrow ROW or COLUMN (without a square). With --try: what the edit would change, + and -; no book is judged unless\n"
     "--book names one. If a rule of it would be broken, ! marks each node that would break it, if that is a square or stands\n"
     "in one, and the exit status is 1.\n"
     "  zamiathen table sheet.bin berth has-platform has-slot stands-at --svg table.svg\n"},
    {"diff", "SHEET SHEET", "n", 2, 2, run_diff, "says what differs between two sheets",
     "Prints what only the second sheet has (+) and what only the first has (-); an arrow that only changes its end as\n"
     "\"T34 stands-at: P1-S1 → P1-S2\"; which nodes are closed or in use again; and the numbers of nodes if they differ.\n"
     "enter, return, type and replay print changes in the same way. The exit status is 0 even if the sheets differ.\n"
     "  zamiathen diff sheet.bin sheet_after.bin\n"},
    {"close", "SHEET BOOK NODE", "n", 3, 3, run_close, "closes a node that has nothing",
     "Closes a node that has no label and no arrow, if the sheet without it keeps the book. Else prints the rule that would\n"
     "be broken, or the steps that take off what the node has.\n"
     "  zamiathen close sheet.bin book.words P6\n"},
    {"open", "SHEET BOOK NODE", "n", 3, 3, run_open, "opens a closed node",
     "Opens a closed node, which then has no label and no arrow, if the sheet with it keeps the book.\n"
     "  zamiathen open sheet.bin book.words P6\n"},
    {"keep", "SHEET STORE NAME", "n", 3, 3, run_keep, "keeps a sheet in a store",
     "Keeps the sheet in a store, under a name from 1 to 7, in place of what was kept under it. A store that is not there is\n"
     "made. No book is judged.\n"
     "  zamiathen keep sheet.bin plans.bin 1\n"},
    {"return", "SHEET STORE NAME BOOK", "n", 4, 4, run_return, "returns to a sheet that was kept",
     "Makes the sheet the one that is kept under the name, if that one keeps the book, and prints what changed.\n"
     "  zamiathen return sheet.bin plans.bin 1 book.words\n"},
    {"drop", "STORE NAME", "", 2, 2, run_drop, "drops a sheet that was kept",
     "Drops what is kept in the store under the name.\n"
     "  zamiathen drop plans.bin 1\n"},
    {"join", "SHEET SHEET OUT", "n", 3, 3, run_join, "joins two sheets into one",
     "Writes a sheet with the nodes of both, those of the second after those of the first, at most 60 together. No book is\n"
     "judged.\n"
     "  zamiathen join north.bin south.bin both.bin\n"},
    {"convert", "CARD OUT", "", 2, 2, run_convert, "makes a sheet of an old card",
     "Writes the sheet of a card from before version 4, with all nodes in use.\n"
     "  zamiathen convert card.bin sheet.bin\n"},
    {"page", "SHEET ARROW|labels [OUT]", "n", 2, 3, run_page, "prints a page for the wall",
     "Prints the arrows of a kind, or all labels, as a page of squares, one line for each node or label, to OUT or to the\n"
     "output, for type to read again. Lines and columns have numbers; show prints the arrows by names.\n"
     "  zamiathen page sheet.bin stands-at stands-at.page\n"},
    {"type", "SHEET PAGE", "n", 2, 2, run_type, "types a page back into a sheet",
     "Puts what a page says in place of the sheet's arrows of that kind, or of its labels, and prints what changed. No book is\n"
     "judged.\n"
     "  zamiathen type sheet.bin stands-at.page\n"},
    {"chain", "EDIT EDIT OUT", "n", 3, 3, run_chain, "makes one edit of two",
     "Writes an edit that makes the steps of the first and then those of the second, in words if OUT ends in .words. A book is\n"
     "judged after the last step alone.\n"
     "  zamiathen chain move.words swap.words both.words\n"},
    {"count", "N BOOK EDIT", "n", 3, 3, run_count, "counts the small sheets that survive an edit",
     "Of all sheets of N nodes, 1 to 3, with the label 0 and the arrow 0 alone: how many keep the book before the edit and\n"
     "after it, only before, only after, or never.\n"
     "  zamiathen count 2 book.words edit.words\n"},
    {"play", "SHEET BOOK GOAL MOVES EDIT... [--against EDIT...]", "ng", 5, 4 + ZAMIATHEN_MAX_EDITS, run_play,
     "plays a game against disruptions",
     "Says whether the dispatcher, who moves first and enters one of the edits, can force the rule GOAL to hold after MOVES\n"
     "moves, and by which edit first. The disruption moves by turns with the dispatcher and makes one of the edits after\n"
     "--against, whatever the book says. The exit status is 1 if no win can be forced.\n"
     GAME_LIMITS "\n"
     "  zamiathen play sheet.bin book.words goal.words 3 move.words swap.words --against fault_s1.words fault_s2.words\n"},
    {"log", "EDIT LOG", "n", 2, 2, run_log, "records an edit in a log",
     "Appends the edit to the log. A file that is not a log, such as a sheet, is refused; most damage inside a log is found only\n"
     "by replay. A log that does not exist is created.\n"
     "  zamiathen log move.words week.log\n"},
    {"replay", "SHEET BOOK LOG [OUT]", "n", 3, 4, run_replay, "runs the edits of a log again",
     "Runs the program zamiathen-replay or replay, the one in this command's folder or else on the PATH, and prints its line\n"
     "for each edit with a sentence, and what has changed in the end. The sheet stays as it is. If the log is good to its\n"
     "end, the sheet that it ends in is written to OUT, and the exit status is 0, even if edits were refused; if a block is\n"
     "bad, OUT is not written, and the exit status is 1.\n"
     "  zamiathen replay sheet.bin book.words week.log\n"},
    {"help", "[COMMAND]", "", 0, 1, run_help, "says what a command does",
     "Prints the commands, or what one of them does, with an example.\n"
     "  zamiathen help enter\n"},
};

enum { COMMANDS = sizeof commands / sizeof *commands };

static const char shared_help[] =
    "\nFiles that end in .words are words, all others codes. The names are in station.names in the folder of the first file\n"
    "of a command, mostly the sheet; --names FILE names another table. A file OUT that exists is replaced without a question,\n"
    "whatever it holds. A file is replaced as a whole or not at all, and of two calls that change it one waits for the other.\n"
    "The exit status is 0 for done, 1 for refused, 2 for wrong usage or a file that cannot be read or written.\n";

static const command *command_of(const char *name) {
    for (size_t i = 0; i < COMMANDS; i++)
        if (strcmp(commands[i].name, name) == 0)
            return &commands[i];
    return NULL;
}

static const char *names_option(const command *c) {
    return strchr(c->options, 'n') != NULL ? " [--names FILE]" : "";
}

static int print_help(const command *c) {
    printf("zamiathen %s %s%s\n\n%s", c->name, c->operands, names_option(c), c->help);
    return DONE;
}

static int run_help(request *r) {
    if (r->count == 1) {
        const command *c = command_of(r->operands[0]);
        return c != NULL ? print_help(c) : wrong("there is no command %s; zamiathen help lists all", r->operands[0]);
    }
    puts("zamiathen COMMAND ...");
    for (size_t i = 0; i < COMMANDS; i++)
        printf("  %-7s %s\n", commands[i].name, commands[i].brief);
    puts("zamiathen help COMMAND says more of each.");
    fputs(shared_help, stdout);
    return DONE;
}

static int usage(const command *c) {
    fprintf(stderr, "usage: zamiathen %s %s%s\n", c->name, c->operands, names_option(c));
    return WRONG;
}

/* Where an option of the command puts the word after it. */
static const char **option_place(request *r, const command *c, const char *option) {
    const struct {
        const char *option;
        char letter;
        const char **place;
    } options[] = {
        {"--names", 'n', &r->names_path},    {"--try", 'e', &r->edit_path},      {"--book", 'b', &r->book_path},
        {"--svg", 's', &r->picture_path},    {"--closed", 'c', &r->closed_label}, {"--who", 'w', &r->who_label},
    };
    for (size_t i = 0; i < sizeof options / sizeof *options; i++)
        if (strcmp(options[i].option, option) == 0 && strchr(c->options, options[i].letter) != NULL)
            return options[i].place;
    return NULL;
}

/* Sorts the words after the command into options and operands. */
static int read_words(request *r, const command *c, int count, char **words) {
    bool options = true, against = false;
    for (int i = 0; i < count; i++) {
        if (options && strcmp(words[i], "--") == 0) {
            options = false;
        } else if (options && strcmp(words[i], "--try") == 0 && strchr(c->options, 't') != NULL) {
            r->only_try = true;
        } else if (options && strcmp(words[i], "--against") == 0 && strchr(c->options, 'g') != NULL) {
            against = true;
        } else if (options && strncmp(words[i], "--", 2) == 0) {
            const char **place = option_place(r, c, words[i]);
            if (place == NULL)
                fprintf(stderr, "zamiathen: %s has no option %s\n", c->name, words[i]);
            if (place == NULL || *place != NULL || i + 1 == count)
                return usage(c);
            *place = words[++i];
        } else if (against ? r->against_count == ZAMIATHEN_MAX_EDITS : r->count == c->most) {
            fputs(c->run == run_play ? GAME_LIMITS "\n" : "", stderr);
            return usage(c);
        } else if (against) {
            r->against[r->against_count++] = words[i];
        } else {
            r->operands[r->count++] = words[i];
        }
    }
    return r->count < c->least ? usage(c) : DONE;
}

/* Colour is for a terminal, unless NO_COLOR says otherwise. */
static bool wants_colour(void) {
    const char *none = getenv("NO_COLOR"), *terminal = getenv("TERM");
    return (none == NULL || *none == 0) && terminal != NULL && strcmp(terminal, "dumb") != 0 && isatty(STDOUT_FILENO);
}

/* Is --help among the options? */
static bool wants_help(int count, char **words) {
    for (int i = 0; i < count && strcmp(words[i], "--") != 0; i++)
        if (strcmp(words[i], "--help") == 0)
            return true;
    return false;
}

static int run_command(request *r, const command *c, int count, char **words) {
    bool help = wants_help(count, words);
    int status = help ? print_help(c) : read_words(r, c, count, words);
    if (status == DONE && !help)
        status = c->run(r);
    if ((fflush(stdout) != 0 || ferror(stdout)) && status != WRONG)
        status = wrong("the output cannot be written");
    return status;
}

/* The whole command, as main calls it: the exit status. */
int zamiathen_tool(int count, char **words);

int zamiathen_tool(int count, char **words) {
    const char *name = count > 1 ? words[1] : "";
    if (count < 2) {
        fputs("usage: zamiathen COMMAND ...\nzamiathen help lists the commands.\n", stderr);
        return WRONG;
    }
    if (strcmp(name, "--version") == 0) {
        printf("zamiathen %d.%d\n", ZAMIATHEN_VERSION_FIRST, ZAMIATHEN_VERSION_SECOND);
        return DONE;
    }
    if (strcmp(name, "--help") == 0 || strcmp(name, "-h") == 0)
        name = "help";
    const command *c = command_of(name);
    if (c == NULL)
        return wrong("there is no command %s; zamiathen help lists all", name);
    request *r = calloc(1, sizeof *r);
    if (r == NULL)
        return wrong("there is no memory left");
    r->colour = wants_colour();
    r->lock = -1;
    r->command = words[0];
    r->names.path = "station.names";
    int status = run_command(r, c, count - 2, words + 2);
    give_back(r);
    free(r);
    return status;
}

#ifndef ZAMIATHEN_NO_MAIN
int main(int count, char **words) {
    return zamiathen_tool(count, words);
}
#endif
