// Files of books: see the head of books.hex.
#ifndef BOOKS_H
#define BOOKS_H
#include <stddef.h>
#include <stdint.h>
#include <stdio.h>

enum { MOST_BOOK_BYTES = 982 };

typedef struct {
    char name[64];
    int outcome, survivors; // as the file says
    uint8_t bytes[MOST_BOOK_BYTES];
    size_t length;
} hard_book;

// What is left to read: the file that is open, if one is, and the names of those after it, up to a NULL.
typedef struct {
    FILE *file;
    char **names;
} book_files;

// Reads the next book; 0 at the end of the last file. Ends the program if a file cannot be read or is not in its form.
int next_book(book_files *from, hard_book *book);

#endif
