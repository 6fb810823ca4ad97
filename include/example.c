/*
 * Decides the specification's printed book, writes the sheet of its model and works that out. In the repository's root:
 *
 *     ./build library
 *     cc -std=c99 -o target/example include/example.c target/staticlib/libzegbiko.a && target/example
 *
 * prints
 *
 *     outcome 1 survivors 1
 *     type 1 grades 1 1
 *     individual 0 type 1
 *     sheet 01 02 01 01 00 01 00 0C 00 0D 00 0D 01 00
 *     element 0 grades 1 1
 *     meets
 */
#include "zegbiko.h"
#include <stdio.h>
#include <string.h>

/* N 2; terms A and "not A"; each not greater than the other; individual 0 is in A at least 1 */
static const uint8_t book[] = {0x01, 0x02, 0x00, 0x12, 0x00, 0x02, 0x00, 0x18, 0x00, 0x02, 0x00, 0x1C, 0x00, 0x01, 0x00, 0x20,
                               0x00, 0x00, 0x00, 0x00, 0x00, 0x01, 0x00, 0x00, 0x00, 0x01, 0x01, 0x00, 0x00, 0x00, 0x00, 0x01};

static uint8_t marks[ZEGBIKO_MARKS], placement[ZEGBIKO_PLACEMENT], sheet[ZEGBIKO_SHEET], grid[ZEGBIKO_GRID];

static size_t word(const uint8_t *at) { return (size_t)at[0] << 8 | at[1]; }

static int refused(uint8_t refusal) {
    printf("refused %d: %s\n", refusal, zegbiko_refusal_text(refusal));
    return 1;
}

/* A line for each candidate that is marked, with the grades of all terms. */
static int print_types(size_t candidates, size_t terms) {
    for (size_t c = 0; c < candidates; c++) {
        if (!marks[c]) continue;
        printf("type %zu grades", c);
        for (size_t i = 0; i < terms; i++) {
            zegbiko_graded g = zegbiko_grade(book, sizeof book, c, i);
            if (g.refusal) return refused(g.refusal);
            printf(" %d", g.grade);
        }
        printf("\n");
    }
    return 0;
}

/* A candidate's number is below 16,384, so its high byte is never FF: two bytes that still begin with FF are no individual's. */
static void print_placement(void) {
    for (size_t j = 0; j < 8 && placement[2 * j] != 0xFF; j++) printf("individual %zu type %zu\n", j, word(placement + 2 * j));
}

static int decide(size_t terms) {
    zegbiko_counted n = zegbiko_count(book, sizeof book);
    if (n.refusal) return refused(n.refusal);
    memset(placement, 0xFF, sizeof placement);
    zegbiko_decided d = zegbiko_decide(book, sizeof book, marks, sizeof marks, placement, sizeof placement);
    if (d.refusal) return refused(d.refusal);
    printf("outcome %d survivors %zu\n", d.outcome, d.survivors);
    if (print_types((size_t)n.candidates, terms)) return 1;
    print_placement();
    return 0;
}

/* Byte 2 of a sheet is its element count. */
static int work_out(size_t length, size_t terms) {
    zegbiko_worked w = zegbiko_work_out(book, sizeof book, sheet, length, grid, sizeof grid);
    if (w.refusal) return refused(w.refusal);
    for (size_t e = 0; e < sheet[2]; e++) {
        printf("element %zu grades", e);
        for (size_t i = 0; i < terms; i++) printf(" %d", grid[e * terms + i]);
        printf("\n");
    }
    switch (w.verdict) {
    case ZEGBIKO_MEETS: printf("meets\n"); break;
    case ZEGBIKO_BREAKS_RULE: printf("breaks rule %zu at element %zu\n", w.number, w.element); break;
    case ZEGBIKO_BREAKS_PAIR: printf("breaks pair %zu from element %zu to element %zu\n", w.number, w.element, w.second); break;
    case ZEGBIKO_BREAKS_MEMBERSHIP: printf("breaks membership claim %zu\n", w.number); break;
    default: printf("breaks link claim %zu\n", w.number);
    }
    return 0;
}

int main(void) {
    uint8_t refusal = zegbiko_check(book, sizeof book);
    if (refusal) return refused(refusal);
    size_t terms = word(book + 4); /* the count in the entry for terms */
    if (decide(terms)) return 1;
    zegbiko_written s =
        zegbiko_write_sheet(book, sizeof book, marks, sizeof marks, placement, sizeof placement, sheet, sizeof sheet);
    if (s.refusal) return refused(s.refusal);
    printf("sheet");
    for (size_t i = 0; i < s.length; i++) printf(" %02X", sheet[i]);
    printf("\n");
    return work_out(s.length, terms);
}
