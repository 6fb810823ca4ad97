// Reads files of books.
#include "books.h"
#include <stdlib.h>
#include <string.h>

static void stop(const char *why, const char *what) {
    fprintf(stderr, "%s: %s\n", why, what);
    exit(2);
}

static void malformed(const char *line) { stop("not in the form of a file of books", line); }

// A book's bytes, two hex digits each.
static void read_bytes(const char *line, hard_book *book) {
    unsigned byte;
    int read;
    book->length = 0;
    for (const char *at = line; sscanf(at, "%2x%n", &byte, &read) == 1; at += read) {
        if (book->length == MOST_BOOK_BYTES) malformed(line);
        book->bytes[book->length++] = byte;
    }
}

// The next book of one file; 0 at its end.
static int next_in(FILE *file, hard_book *book) {
    static char line[4 * MOST_BOOK_BYTES];
    int named = 0;
    while (fgets(line, sizeof line, file)) {
        if (strncmp(line, "book ", 5) == 0) {
            named = sscanf(line, "book %63s outcome %d survivors %d", book->name, &book->outcome, &book->survivors) == 3;
            if (!named) malformed(line);
        } else if (line[0] != '#' && line[0] != '\n') {
            if (!named) malformed(line);
            read_bytes(line, book);
            return 1;
        }
    }
    if (named) malformed("(a book without bytes)");
    return 0;
}

int next_book(book_files *from, hard_book *book) {
    while (from->file || *from->names) {
        if (!from->file) {
            from->file = fopen(*from->names, "r");
            if (!from->file) stop("cannot be read", *from->names);
            from->names++;
        }
        if (next_in(from->file, book)) return 1;
        fclose(from->file);
        from->file = NULL;
    }
    return 0;
}
