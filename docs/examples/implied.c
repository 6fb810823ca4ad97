/*
 * implied BOOK: prints the table of implied rules, a line for each term at the left. implied BOOK LEFT RIGHT: says whether the left term is nowhere
 * greater than the right one, or names the first type that shows where it is. Status 0 for a book that is not refused, whatever the answer.
 *
 *     cc -I include -o target/implied docs/examples/implied.c target/staticlib/libzegbiko.a
 */
#include "zegbiko.h"
#include <stdio.h>
#include <stdlib.h>

static uint8_t book[ZEGBIKO_BOOK_MOST + 1], marks[ZEGBIKO_MARKS], table[ZEGBIKO_TABLE];
static size_t size, terms;

static void print_table(size_t survivors) {
    printf("survivors %zu\n", survivors);
    for (size_t left = 0; left < terms; left++) {
        printf("term %zu:", left);
        for (size_t right = 0; right < terms; right++) printf(" %d", table[left * terms + right]);
        printf("\n");
    }
}

/* Where the byte is 0 there is such a type; marks past the candidates are 0, as they were at the start. */
static void print_type(size_t left, size_t right) {
    for (size_t c = 0; c < ZEGBIKO_MARKS; c++) {
        if (!marks[c]) continue;
        int above = zegbiko_grade(book, size, c, left).grade, below = zegbiko_grade(book, size, c, right).grade;
        if (above <= below) continue;
        printf("type %zu: term %zu is graded %d, and term %zu graded %d\n", c, left, above, right, below);
        return;
    }
}

int main(int argc, char **argv) {
    FILE *f = argc == 2 || argc == 4 ? fopen(argv[1], "rb") : NULL;
    if (!f) return fprintf(stderr, "usage: implied BOOK [LEFT RIGHT], a file that can be read and numbers of terms\n"), 2;
    size = fread(book, 1, sizeof book, f);
    fclose(f);
    zegbiko_implied implied = zegbiko_implied_rules(book, size, marks, sizeof marks, table, sizeof table);
    if (implied.refusal) {
        printf("refused %d: %s\n", implied.refusal, zegbiko_refusal_text(implied.refusal));
        return 1;
    }
    terms = book[4] * 256u + book[5];
    if (argc == 2) {
        print_table(implied.survivors);
        return 0;
    }
    size_t left = strtoul(argv[2], NULL, 10), right = strtoul(argv[3], NULL, 10);
    if (left >= terms || right >= terms) return fprintf(stderr, "the book has %zu terms, from 0 on\n", terms), 2;
    if (table[left * terms + right]) printf("term %zu is nowhere greater than term %zu\n", left, right);
    else print_type(left, right);
    return 0;
}
