/*
 * model BOOK: makes a sheet of few elements for a book that holds together, also where its survivors are too many for one, and works it out.
 * docs/USING.md, "A model that fits on a sheet", says how. Status 0 if the sheet meets the book.
 *
 *     cc -I include -o target/model docs/examples/model.c target/staticlib/libzegbiko.a
 */
#include "zegbiko.h"
#include <stdio.h>
#include <string.h>

static uint8_t book[ZEGBIKO_BOOK_MOST + 1], marks[ZEGBIKO_MARKS], placement[ZEGBIKO_PLACEMENT];
static uint8_t sheet[ZEGBIKO_SHEET], grid[ZEGBIKO_GRID];
static size_t size, length;                     /* of the book; of the sheet so far */
static size_t members[ZEGBIKO_ELEMENTS], count; /* the types that are to be elements */

static size_t word(const uint8_t *at) { return at[0] * 256u + at[1]; }
static size_t lesser(size_t a, size_t b) { return a < b ? a : b; }
static size_t greater(size_t a, size_t b) { return a > b ? a : b; }

static size_t terms(void) { return word(book + 4); }
static const uint8_t *term(size_t t) { return book + word(book + 2) + 3 * t; } /* kind, a, b */
static int is(size_t t, uint8_t kind) { return term(t)[0] == kind; }
static int quantified(size_t t) { return is(t, ZEGBIKO_KIND_SOME) || is(t, ZEGBIKO_KIND_ALL); }

static size_t grade(size_t c, size_t t) { return zegbiko_grade(book, size, c, t).grade; }
static size_t link_of(size_t role, size_t c, size_t d) { return zegbiko_link(book, size, (uint8_t)role, c, d).grade; }

/* Is d a witness of the quantified term t in c? */
static int witnesses(size_t c, size_t t, size_t d) {
    size_t link = link_of(term(t)[1], c, d), child = grade(d, term(t)[2]);
    size_t taken = is(t, ZEGBIKO_KIND_SOME) ? lesser(link, child) : greater(book[1] - link, child);
    return taken == grade(c, t);
}

/* The number of c among the members, to which it is added if it is new; ZEGBIKO_ELEMENTS if there is no room. */
static size_t member(size_t c) {
    size_t m = 0;
    while (m < count && members[m] != c) m++;
    if (m == count && count < ZEGBIKO_ELEMENTS) members[count++] = c;
    return m;
}

/* Adds a witness of term t in c, unless some member is one; 0 if there is no room. */
static int add_witness(size_t c, size_t t) {
    for (size_t m = 0; m < count; m++)
        if (witnesses(c, t, members[m])) return 1;
    for (size_t d = 0; d < ZEGBIKO_MARKS; d++) /* marks past the candidates are 0, as they were at the start */
        if (marks[d] && witnesses(c, t, d)) return member(d) < ZEGBIKO_ELEMENTS;
    return 0; /* not reached: each quantified term of a survivor has a witness among the survivors */
}

/* Adds witnesses until each member has one for each quantified term; 0 if there is no room. */
static int close_members(void) {
    for (size_t m = 0; m < count; m++)
        for (size_t t = 0; t < terms(); t++)
            if (quantified(t) && !add_witness(members[m], t)) return 0;
    return 1;
}

static void put(size_t byte) { sheet[length++] = (uint8_t)byte; }
static void put_word(size_t number) {
    put(number / 256);
    put(number % 256);
}

/* The head, for A names, R roles and I individuals. */
static void put_head(size_t names, size_t roles, size_t individuals) {
    put(1);
    put(book[1]);
    put(count);
    put(names);
    put(roles);
    put(individuals);
    put_word(12);
    put_word(12 + count * names);
    put_word(12 + count * names + roles * count * count);
}

/* The grade of a name in c, which is that of its term; 0 where no term has it. */
static size_t grade_of_name(size_t c, size_t name) {
    for (size_t t = 0; t < terms(); t++)
        if (is(t, ZEGBIKO_KIND_NAME) && term(t)[1] == name) return grade(c, t);
    return 0;
}

/* The members as a sheet, with the links between them and the individuals as placed. */
static void write_sheet(size_t individuals) {
    size_t names = 0, roles = 0; /* one more than the highest number */
    for (size_t t = 0; t < terms(); t++) {
        if (is(t, ZEGBIKO_KIND_NAME)) names = greater(names, term(t)[1] + 1u);
        if (quantified(t)) roles = greater(roles, term(t)[1] + 1u);
    }
    for (size_t i = 0; i < word(book + 16); i++) roles = greater(roles, book[word(book + 14) + 4 * i] + 1u);
    size_t pairs = book[0] == 2 ? word(book + 20) : 0; /* edition 1 has no entry for them */
    for (size_t i = 0; i < 2 * pairs; i++) roles = greater(roles, book[word(book + 18) + i] + 1u);
    put_head(names, roles, individuals);
    for (size_t e = 0; e < count; e++)
        for (size_t a = 0; a < names; a++) put(grade_of_name(members[e], a));
    for (size_t r = 0; r < roles; r++)
        for (size_t e = 0; e < count; e++)
            for (size_t f = 0; f < count; f++) put(link_of(r, members[e], members[f]));
    for (size_t j = 0; j < individuals; j++) put(member(word(placement + 2 * j)));
}

static int refused(uint8_t number) {
    printf("refused %d: %s\n", number, zegbiko_refusal_text(number));
    return 1;
}

int main(int argc, char **argv) {
    FILE *f = argc == 2 ? fopen(argv[1], "rb") : NULL;
    if (!f) {
        fprintf(stderr, "usage: model BOOK, a file that can be read\n");
        return 2;
    }
    size = fread(book, 1, sizeof book, f);
    fclose(f);
    memset(placement, 0xFF, sizeof placement); /* no candidate's number begins so: such bytes are no individual's */
    zegbiko_decided decided = zegbiko_decide(book, size, marks, sizeof marks, placement, sizeof placement);
    if (decided.refusal) return refused(decided.refusal);
    if (decided.outcome != ZEGBIKO_HOLDS_TOGETHER) {
        printf("outcome %d: no model\n", decided.outcome);
        return 1;
    }

    size_t individuals = 0, first = 0;
    for (; individuals < 8 && placement[2 * individuals] != 0xFF; individuals++) member(word(placement + 2 * individuals));
    while (!marks[first]) first++;
    if (count == 0) member(first); /* there is no individual, but an element there must be */
    if (!close_members()) {
        printf("more than %d elements\n", ZEGBIKO_ELEMENTS);
        return 1;
    }

    for (size_t e = 0; e < count; e++) printf("element %zu type %zu\n", e, members[e]);
    write_sheet(individuals);
    printf("sheet");
    for (size_t i = 0; i < length; i++) printf(" %02X", sheet[i]);
    printf("\n");
    zegbiko_worked worked = zegbiko_work_out(book, size, sheet, length, grid, sizeof grid);
    if (worked.refusal) return refused(worked.refusal);
    printf(worked.verdict == ZEGBIKO_MEETS ? "meets\n" : "does not meet\n");
    return worked.verdict == ZEGBIKO_MEETS ? 0 : 1;
}
