/* The commands log and replay: edits recorded one after the other, and run again by the proved program. */
#include "command.h"

#include <errno.h>
#include <spawn.h>
#include <stdlib.h>
#include <string.h>
#include <sys/stat.h>
#include <sys/wait.h>
#include <unistd.h>

enum { BLOCK = 512, MOST_BLOCKS = 65535, LINE = 9 };

/*
 * Recording
 */

/* Says that a file is not a log, if a block of it does not begin as those of a log do: with a 3, and one of 0 to 3 after it. */
static int check_log(const file *log) {
    for (size_t at = 0; at < log->length; at += BLOCK)
        if (log->bytes[at] != 3 || log->bytes[at + 1] > 3) {
            fprintf(stderr, "%s: It is not a log: block %zu does not begin as one of a log. Take another file or an earlier copy.\n", log->path,
                    at / BLOCK);
            return REFUSED;
        }
    return DONE;
}

/* The log with one edit more. */
static int longer_log(request *r, const text *edit, file *log) {
    uint8_t *blocks = take(r, ZAMIATHEN_LOG_BYTES);
    zamiathen_length made = zamiathen_log_edit(edit->codes, edit->length, blocks, ZAMIATHEN_LOG_BYTES);
    if (made.number != ZAMIATHEN_DONE)
        return codes_fault(r, edit, made.number, made.place, ZAMIATHEN_MAX_NODES);
    if (log->length % BLOCK != 0) {
        fprintf(stderr, "%s: It has %s bytes, and a log is blocks of %d: take an earlier copy.\n", log->path, figure(r, log->length), BLOCK);
        return REFUSED;
    }
    if (log->length + made.length > (size_t)BLOCK * MOST_BLOCKS) {
        fprintf(stderr, "%s: It has %s blocks, and a log has at most %s: begin another.\n", log->path, figure(r, log->length / BLOCK),
                figure(r, MOST_BLOCKS));
        return REFUSED;
    }
    int status = check_log(log);
    if (status != DONE)
        return status;
    uint8_t *longer = take(r, log->length + made.length);
    if (log->length > 0)
        memcpy(longer, log->bytes, log->length);
    memcpy(longer + log->length, blocks, made.length);
    log->bytes = longer;
    log->length += made.length;
    return DONE;
}

/* Records an edit in a log, or in a new one if there is none. A log that another call creates in the meantime is extended. */
static int record(request *r, const text *edit, file *log, size_t *before, bool *again) {
    bool is_new = access(log->path, F_OK) != 0;
    log->length = 0;
    *again = false;
    int status = is_new ? DONE : read_file(r, log->path, log);
    *before = log->length / BLOCK;
    if (status == DONE)
        status = longer_log(r, edit, log);
    if (status != DONE)
        return status;
    return is_new ? create_file(r, log->path, log->bytes, log->length, again) : write_file(r, log->path, log->bytes, log->length);
}

int run_log(request *r) {
    text edit;
    file log = {r->operands[1], NULL, 0};
    size_t before = 0;
    bool again = true;
    int status = read_names(r, r->operands[0]);
    if (status == DONE)
        status = read_text(r, r->operands[0], true, &edit);
    while (status == DONE && again) {
        status = lock_file(r, log.path);
        if (status == DONE)
            status = record(r, &edit, &log, &before, &again);
    }
    if (status != DONE)
        return status;
    size_t last = log.length / BLOCK - 1;
    printf("%slogged%s: block", ink(r, GREEN), ink(r, PLAIN));
    printf(last > before ? "s %zu to %zu\n" : " %zu\n", before, last);
    return DONE;
}

/*
 * Running a program
 */

static bool can_run(const char *path) {
    struct stat status;
    return stat(path, &status) == 0 && S_ISREG(status.st_mode) && access(path, X_OK) == 0;
}

/* A program in the folder of this command, or NULL. */
static const char *beside_command(request *r, const char *program) {
    char *command = realpath("/proc/self/exe", NULL);
    if (command == NULL && strchr(r->command, '/') != NULL)
        command = realpath(r->command, NULL);
    if (command == NULL)
        return NULL;
    string path = empty_string(r);
    const char *slash = strrchr(command, '/');
    add_bytes(&path, command, slash == NULL ? 0 : (size_t)(slash - command) + 1);
    add(&path, program);
    free(command);
    return can_run(path.bytes) ? path.bytes : NULL;
}

/* A program on the PATH, or NULL. */
static const char *on_path(request *r, const char *program) {
    const char *folders = getenv("PATH");
    while (folders != NULL && *folders != 0) {
        size_t length = strcspn(folders, ":");
        string path = empty_string(r);
        add_bytes(&path, folders, length);
        add(&path, length > 0 ? "/" : "./");
        add(&path, program);
        if (can_run(path.bytes))
            return path.bytes;
        folders += length + (folders[length] == ':');
    }
    return NULL;
}

/* Starts a program with its own input and output: returns 0, or the number of what went wrong. */
static int start(const char *path, int input, int output, pid_t *child) {
    char *words[] = {(char *)path, NULL}, *none[] = {NULL};
    posix_spawn_file_actions_t actions;
    int reason = posix_spawn_file_actions_init(&actions);
    if (reason != 0)
        return reason;
    reason = posix_spawn_file_actions_adddup2(&actions, input, STDIN_FILENO);
    if (reason == 0)
        reason = posix_spawn_file_actions_adddup2(&actions, output, STDOUT_FILENO);
    if (reason == 0)
        reason = posix_spawn(child, path, &actions, NULL, words, none);
    posix_spawn_file_actions_destroy(&actions);
    return reason;
}

/* Reads what a program writes, up to its end, and waits for it. */
static int read_program(request *r, pid_t child, int from, file *written) {
    FILE *stream = fdopen(from, "rb");
    int ended = 0, status = WRONG;
    if (stream == NULL) {
        wrong("%s cannot be read: %s", written->path, strerror(errno));
        close(from);
    } else {
        status = read_stream(r, stream, written);
        fclose(stream);
    }
    while (waitpid(child, &ended, 0) < 0)
        if (errno != EINTR)
            return wrong("%s cannot be waited for: %s", written->path, strerror(errno));
    if (status == DONE && ended != 0)
        return wrong("%s broke off", written->path);
    return status;
}

/* Runs a program on an open file, and reads what it writes. */
static int run_program(request *r, const char *path, FILE *input, file *written) {
    int ends[2];
    pid_t child;
    written->path = path;
    if (pipe(ends) != 0)
        return wrong("%s cannot be run: %s", path, strerror(errno));
    int reason = start(path, fileno(input), ends[1], &child);
    close(ends[1]);
    if (reason != 0) {
        close(ends[0]);
        return wrong("%s cannot be run: %s", path, strerror(reason));
    }
    return read_program(r, child, ends[0], written);
}

/*
 * Running a log again
 */

/* Writes the input of replay into a file without a name: the sheet, the book with its length before it, the log. */
static FILE *replay_input(const file *sheet, const text *book, const file *log) {
    const uint8_t length[] = {(uint8_t)(book->length & 0xFF), (uint8_t)(book->length >> 8)};
    FILE *input = tmpfile();
    if (input == NULL)
        return NULL;
    fwrite(sheet->bytes, 1, sheet->length, input);
    fwrite(length, 1, sizeof length, input);
    fwrite(book->codes, 1, book->length, input);
    fwrite(log->bytes, 1, log->length, input);
    if (ferror(input) || fflush(input) != 0 || fseek(input, 0, SEEK_SET) != 0) {
        fclose(input);
        return NULL;
    }
    return input;
}

/* Runs the program replay, and checks that it wrote lines and a sheet. */
static int call_replay(request *r, const file *sheet, const text *book, const file *log, file *written) {
    /* installed it has a longer name */
    const char *path = beside_command(r, "zamiathen-replay");
    if (path == NULL)
        path = beside_command(r, "replay");
    if (path == NULL)
        path = on_path(r, "zamiathen-replay");
    if (path == NULL)
        path = on_path(r, "replay");
    if (path == NULL)
        return wrong("there is no program replay in this command's folder, and none on the PATH");
    FILE *input = replay_input(sheet, book, log);
    if (input == NULL)
        return wrong("the input of %s cannot be written: %s", path, strerror(errno));
    int status = run_program(r, path, input, written);
    fclose(input);
    if (status != DONE)
        return status;
    bool right = written->length >= ZAMIATHEN_SHEET_BYTES && (written->length - ZAMIATHEN_SHEET_BYTES) % LINE == 0;
    for (size_t at = 0; right && at < written->length - ZAMIATHEN_SHEET_BYTES; at++)
        right = at % LINE == 2 ? written->bytes[at] == ' ' : at % LINE == 8 ? written->bytes[at] == '\n'
            : written->bytes[at] >= '0' && written->bytes[at] <= '9';
    if (right)
        right = zamiathen_check(written->bytes + written->length - ZAMIATHEN_SHEET_BYTES, ZAMIATHEN_SHEET_BYTES).number == ZAMIATHEN_DONE;
    return right ? DONE : wrong("%s is another program: it wrote no lines with a sheet after them", path);
}

/* A number in digits. */
static size_t digits(const uint8_t *at, size_t count) {
    size_t number = 0;
    for (size_t i = 0; i < count; i++)
        number = 10 * number + (at[i] - '0');
    return number;
}

/* Prints a line of replay with its sentence; for a broken rule also its sentence and its words. Returns whether the log goes on. */
static bool print_line(request *r, const text *book, const uint8_t *line, size_t edit) {
    size_t number = digits(line, 2), place = digits(line + 3, 5);
    bool bad_log = number == ZAMIATHEN_LOG_SUMS || number == ZAMIATHEN_LOG_BLOCK;
    printf("%s%.8s%s  ", ink(r, number == ZAMIATHEN_DONE ? GREEN : RED), (const char *)line, ink(r, PLAIN));
    printf(bad_log ? "block %zu: %s\n" : "edit %zu: %s\n", bad_log ? place : edit, zamiathen_text(number));
    if (number == ZAMIATHEN_RULE_BROKEN) {
        size_t start = zamiathen_rule_start(book->codes, book->length, ZAMIATHEN_MAX_NODES, place);
        if (book->in_words) {
            print_place(r, book, place, "  ");
            fputc('\n', stdout);
        }
        print_rule(r, "  ", book->codes + start, book->length - start);
    }
    return !bad_log;
}

/* Prints the lines and what changed, and writes the sheet that the log ends in. */
static int put_replayed(request *r, const file *sheet, const text *book, const file *written) {
    size_t lines = (written->length - ZAMIATHEN_SHEET_BYTES) / LINE, entered = 0, edits = 0;
    const uint8_t *after = written->bytes + LINE * lines;
    for (size_t i = 0; i < lines; i++) {
        edits += print_line(r, book, written->bytes + LINE * i, i);
        entered += digits(written->bytes + LINE * i, 2) == ZAMIATHEN_DONE;
    }
    printf("%zu of %zu edit%s entered\n", entered, edits, edits == 1 ? "" : "s");
    if (print_changes(r, sheet->bytes, after) == 0)
        puts("  nothing changes");
    if (edits < lines) {
        fflush(stdout);
        fputs(r->count == 4 ? "zamiathen: the log is bad, and the sheet is not written\n" : "zamiathen: the log is bad\n", stderr);
        return REFUSED;
    }
    return r->count == 4 ? write_file(r, r->operands[3], after, ZAMIATHEN_SHEET_BYTES) : DONE;
}

int run_replay(request *r) {
    file sheet, log, written = {NULL, NULL, 0};
    text book;
    int status = r->count == 4 ? lock_file(r, r->operands[3]) : DONE;
    if (status == DONE)
        status = read_case(r, &sheet, &book);
    if (status == DONE)
        status = read_file(r, r->operands[2], &log);
    if (status != DONE)
        return status;
    zamiathen_judged judged = zamiathen_judge(sheet.bytes, sheet.length, book.codes, book.length);
    if (judged.number != ZAMIATHEN_DONE && judged.number != ZAMIATHEN_RULE_BROKEN)
        return codes_fault(r, &book, judged.number, judged.place, zamiathen_nodes(sheet.bytes, sheet.length).count);
    status = call_replay(r, &sheet, &book, &log, &written);
    return status != DONE ? status : put_replayed(r, &sheet, &book, &written);
}
