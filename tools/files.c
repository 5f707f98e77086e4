/* Memory, messages, text that grows, and files that are read, replaced as a whole and locked. */
#include "command.h"

#include <errno.h>
#include <fcntl.h>
#include <stdarg.h>
#include <stdlib.h>
#include <string.h>
#include <sys/file.h>
#include <sys/stat.h>
#include <unistd.h>

/*
 * Memory and messages
 */

void *take(request *r, size_t size) {
    kept *memory = malloc(sizeof *memory);
    void *bytes = malloc(size > 0 ? size : 1);
    if (memory == NULL || bytes == NULL) {
        fputs("zamiathen: there is no memory left\n", stderr);
        exit(WRONG);
    }
    *memory = (kept){r->memory, bytes};
    r->memory = memory;
    return bytes;
}

uint8_t *copy_of(request *r, const uint8_t *bytes, size_t length) {
    uint8_t *copy = take(r, length);
    memcpy(copy, bytes, length);
    return copy;
}

void give_back(request *r) {
    if (r->lock >= 0)
        close(r->lock);
    r->lock = -1;
    while (r->memory != NULL) {
        kept *memory = r->memory;
        r->memory = memory->next;
        free(memory->bytes);
        free(memory);
    }
}

int wrong(const char *format, ...) {
    va_list arguments;
    va_start(arguments, format);
    fputs("zamiathen: ", stderr);
    vfprintf(stderr, format, arguments);
    fputc('\n', stderr);
    va_end(arguments);
    return WRONG;
}

/* A colour of the terminal, if the output goes there. */
const char *ink(const request *r, const char *code) {
    return r->colour ? code : "";
}

/* Prints bytes of a file. Those that would steer a terminal become question marks. */
void print_bytes(FILE *to, const uint8_t *bytes, size_t length) {
    for (size_t i = 0; i < length; i++)
        fputc((bytes[i] < ' ' && bytes[i] != '\t') || bytes[i] == 0x7F ? '?' : bytes[i], to);
}

/* Does a character of UTF-8 begin with this byte? */
bool begins_character(uint8_t byte) {
    return (byte & 0xC0) != 0x80;
}

size_t characters(const char *word) {
    size_t count = 0;
    for (; *word != 0; word++)
        count += begins_character((uint8_t)*word);
    return count;
}

/*
 * Text that grows
 */

string empty_string(request *r) {
    string s = {r, take(r, 64), 0, 64};
    s.bytes[0] = 0;
    return s;
}

void add_bytes(string *s, const char *bytes, size_t length) {
    if (s->length + length + 1 > s->room) {
        size_t room = 2 * (s->length + length + 1);
        char *larger = take(s->r, room);
        memcpy(larger, s->bytes, s->length);
        s->bytes = larger;
        s->room = room;
    }
    memcpy(s->bytes + s->length, bytes, length);
    s->length += length;
    s->bytes[s->length] = 0;
}

void add(string *s, const char *word) {
    add_bytes(s, word, strlen(word));
}

/* Adds a word, with a blank before it if something stands there. */
void add_word(string *s, const char *word) {
    if (s->length > 0)
        add(s, " ");
    add(s, word);
}

/* A number with a comma before each three digits. */
const char *figure(request *r, size_t number) {
    char digits[32];
    int count = snprintf(digits, sizeof digits, "%zu", number);
    string s = empty_string(r);
    for (int i = 0; i < count; i++) {
        if (i > 0 && (count - i) % 3 == 0)
            add(&s, ",");
        add_bytes(&s, digits + i, 1);
    }
    return s.bytes;
}

/* Adds what is formatted, a few numbers and short words. */
void add_format(string *s, const char *format, ...) {
    char line[512];
    va_list arguments;
    va_start(arguments, format);
    vsnprintf(line, sizeof line, format, arguments);
    va_end(arguments);
    add(s, line);
}

/*
 * Files
 */

int read_stream(request *r, FILE *stream, file *f) {
    size_t room = 16384;
    f->bytes = take(r, room);
    f->length = 0;
    for (;;) {
        f->length += fread(f->bytes + f->length, 1, room - f->length, stream);
        if (ferror(stream))
            return wrong("%s cannot be read: %s", f->path, strerror(errno));
        if (f->length < room)
            return DONE;
        if (room == LONGEST_FILE)
            return wrong("%s cannot be read: it has 32 MiB or more", f->path);
        uint8_t *larger = take(r, 2 * room);
        memcpy(larger, f->bytes, room);
        f->bytes = larger;
        room *= 2;
    }
}

int read_file(request *r, const char *path, file *f) {
    f->path = path;
    FILE *stream = fopen(path, "rb");
    if (stream == NULL)
        return wrong("%s cannot be read: %s", path, strerror(errno));
    int status = read_stream(r, stream, f);
    fclose(stream);
    return status;
}

/* Writes all bytes and flushes them to the disk. */
static bool write_all(int to, const uint8_t *bytes, size_t length) {
    while (length > 0) {
        ssize_t written = write(to, bytes, length);
        if (written < 0 && errno == EINTR)
            continue;
        if (written <= 0)
            return false;
        bytes += written;
        length -= (size_t)written;
    }
    return fsync(to) == 0;
}

/* The mode of a file that is replaced, else that of a new one. */
static mode_t mode_of(const char *path) {
    struct stat status;
    if (stat(path, &status) == 0)
        return status.st_mode & 07777;
    mode_t mask = umask(0);
    umask(mask);
    return 0666 & ~mask;
}

/* Flushes a folder's entries to the disk, as far as the system can. */
static void sync_folder(request *r, const char *path) {
    const char *slash = strrchr(path, '/');
    string folder = empty_string(r);
    if (slash == NULL)
        add(&folder, ".");
    else
        add_bytes(&folder, path, (size_t)(slash - path) + 1);
    int opened = open(folder.bytes, O_RDONLY);
    if (opened >= 0) {
        (void)fsync(opened);
        close(opened);
    }
}

/* Renames a finished file, written next to a path, to that path: in place of the file there, or only where there is none. */
static bool rename_to(const char *beside, const char *path, bool only_new) {
    if (only_new && link(beside, path) == 0) {
        (void)unlink(beside);
        return true;
    }
    if (only_new && errno != EPERM && errno != ENOSYS && errno != EOPNOTSUPP) /* there are file systems without links */
        return false;
    return rename(beside, path) == 0;
}

/* Writes a new file next to a path, and renames it to that path when it is whole. */
static bool replace_file(request *r, const char *path, bool only_new, const uint8_t *bytes, size_t length) {
    string beside = empty_string(r);
    add(&beside, path);
    add(&beside, ".XXXXXX");
    int to = mkstemp(beside.bytes);
    if (to < 0)
        return false;
    bool whole = fchmod(to, mode_of(path)) == 0 && write_all(to, bytes, length);
    int reason = errno;
    if (close(to) != 0 && whole) {
        whole = false;
        reason = errno;
    }
    if (whole && rename_to(beside.bytes, path, only_new)) {
        sync_folder(r, path);
        return true;
    }
    if (!whole)
        errno = reason;
    reason = errno;
    unlink(beside.bytes);
    errno = reason;
    return false;
}

int write_file(request *r, const char *path, const uint8_t *bytes, size_t length) {
    char *meant = realpath(path, NULL); /* a link stays a link */
    const char *target = meant != NULL ? meant : path;
    struct stat status;
    int result = DONE;
    if (stat(target, &status) == 0 && !S_ISREG(status.st_mode))
        result = wrong("%s cannot be written: it is not a plain file", path);
    else if ((meant != NULL && access(target, W_OK) != 0) || !replace_file(r, target, false, bytes, length))
        result = wrong("%s cannot be written: %s", path, strerror(errno));
    free(meant);
    return result;
}

int create_file(request *r, const char *path, const uint8_t *bytes, size_t length, bool *is_there) {
    *is_there = false;
    if (replace_file(r, path, true, bytes, length))
        return DONE;
    int reason = errno;
    *is_there = reason == EEXIST && access(path, F_OK) == 0;
    if (reason == EEXIST && !*is_there)
        return wrong("%s cannot be written: it is a link to nothing", path);
    return *is_there ? DONE : wrong("%s cannot be written: %s", path, strerror(reason));
}

/* Opens a file to lock it: for writing if that is allowed, since some file systems lock only such files. */
static int open_to_lock(const char *path) {
    int opened = open(path, O_RDWR | O_CLOEXEC | O_NOCTTY | O_NONBLOCK);
    return opened >= 0 ? opened : open(path, O_RDONLY | O_CLOEXEC | O_NOCTTY | O_NONBLOCK);
}

/* Is the file that was opened still that of the path? Another call may have replaced it while this one waited. */
static bool still_there(int opened, const char *path) {
    struct stat held, now;
    return fstat(opened, &held) == 0 && stat(path, &now) == 0 && held.st_dev == now.st_dev && held.st_ino == now.st_ino;
}

int lock_file(request *r, const char *path) {
    struct stat status;
    for (;;) {
        if (stat(path, &status) != 0 || !S_ISREG(status.st_mode))
            return DONE; /* a pipe, say, which is read once and cannot be replaced */
        int opened = open_to_lock(path);
        if (opened < 0)
            return DONE; /* reading it says why */
        while (flock(opened, LOCK_EX) != 0)
            if (errno != EINTR) {
                int reason = errno;
                close(opened);
                return wrong("%s cannot be locked: %s", path, strerror(reason));
            }
        if (still_there(opened, path)) {
            r->lock = opened;
            return DONE;
        }
        close(opened);
    }
}
