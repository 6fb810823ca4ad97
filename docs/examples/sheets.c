/*
 * sheets BOOK SHEET: works out a sheet on a book, and prints the verdict and the grid. sheets BOOK: writes the sheet of the book's model first.
 * Status 0 for a sheet that is worked out, whatever the verdict.
 *
 *     cc -I include -o target/sheets docs/examples/sheets.c target/staticlib/libzegbiko.a
 */
#include "zegbiko.h"
#include <stdio.h>
#include <stdlib.h>

static uint8_t book[ZEGBIKO_BOOK_MOST + 1], sheet[ZEGBIKO_SHEET + 1];
static uint8_t marks[ZEGBIKO_MARKS], placement[ZEGBIKO_PLACEMENT], grid[ZEGBIKO_GRID];

static size_t load(const char *file, uint8_t *bytes, size_t most) {
    FILE *f = fopen(file, "rb");
    if (!f) {
        perror(file);
        exit(2);
    }
    size_t length = fread(bytes, 1, most, f);
    fclose(f);
    return length;
}

static int refused(uint8_t number) {
    printf("refused %u: %s\n", number, zegbiko_refusal_text(number));
    return 1;
}

int main(int argc, char **argv) {
    if (argc < 2) return fprintf(stderr, "usage: sheets BOOK [SHEET]\n"), 2;
    size_t size = load(argv[1], book, sizeof book), length;
    if (argc > 2) {
        length = load(argv[2], sheet, sizeof sheet);
    } else {
        zegbiko_written w = zegbiko_write_sheet(book, size, marks, sizeof marks, placement, sizeof placement, sheet, sizeof sheet);
        if (w.refusal) return refused(w.refusal);
        length = w.length;
        printf("sheet");
        for (size_t i = 0; i < length; i++) printf(" %02X", sheet[i]);
        printf("\n");
    }
    zegbiko_worked v = zegbiko_work_out(book, size, sheet, length, grid, sizeof grid);
    if (v.refusal) return refused(v.refusal);
    switch (v.verdict) {
    case ZEGBIKO_MEETS: printf("meets\n"); break;
    case ZEGBIKO_BREAKS_RULE: printf("breaks rule %zu at element %zu\n", v.number, v.element); break;
    case ZEGBIKO_BREAKS_PAIR: printf("breaks pair %zu from element %zu to element %zu\n", v.number, v.element, v.second); break;
    case ZEGBIKO_BREAKS_MEMBERSHIP: printf("breaks membership claim %zu\n", v.number); break;
    case ZEGBIKO_BREAKS_LINK: printf("breaks link claim %zu\n", v.number); break;
    }
    size_t terms = book[4] * 256u + book[5];
    for (size_t e = 0; e < sheet[2]; e++) {
        printf("element %zu grades", e);
        for (size_t t = 0; t < terms; t++) printf(" %u", grid[e * terms + t]);
        printf("\n");
    }
    return 0;
}
