/* What an edit does to every small sheet, as a table: for authors of rules.
 *
 *   counts BOOK EDIT      two files of bytes, such as examples/small/book.bin and edit.bin
 */
#include "zamiathen.h"

#include <stdio.h>
#include <stdlib.h>

struct text {
    uint8_t bytes[ZAMIATHEN_TEXT_BYTES + 1]; /* one byte more, so that a text that is too long is refused */
    size_t length;
};

static void load(struct text *text, const char *name) {
    FILE *file = fopen(name, "rb");
    if (file == NULL) {
        perror(name);
        exit(1);
    }
    text->length = fread(text->bytes, 1, sizeof text->bytes, file);
    fclose(file);
}

int main(int count, char **words) {
    static struct text book, edit;
    if (count != 3) {
        fprintf(stderr, "usage: counts BOOK EDIT\n");
        return 2;
    }
    load(&book, words[1]);
    load(&edit, words[2]);
    printf("nodes  sheets  kept, kept  kept, broken  broken, kept  broken, broken\n");
    for (size_t n = 1; n <= ZAMIATHEN_MAX_SMALL; n++) {
        zamiathen_counts c = zamiathen_count(n, book.bytes, book.length, edit.bytes, edit.length);
        if (c.number != ZAMIATHEN_DONE)
            printf("%5zu  refused: %zu, place %zu\n", n, c.number, c.place);
        else
            printf("%5zu  %6zu  %10zu  %12zu  %12zu  %14zu\n", n,
                   c.kept_kept + c.kept_broken + c.broken_kept + c.broken_broken, c.kept_kept, c.kept_broken,
                   c.broken_kept, c.broken_broken);
    }
    return 0;
}
