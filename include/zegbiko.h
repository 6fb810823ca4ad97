/*
 * Zegbiko: checks, decides and works out graded rule books in fuzzy ALC. docs/USING.md has the bytes of books and sheets ("The book", "The
 * sheet"), and recipes.
 *
 * The library is target/staticlib/libzegbiko.a, made by `./build library` (x86-64 Linux). It calls nothing but memset and
 * memcpy.
 *
 * Every call takes a book's bytes as they come and checks them first: bad input is refused with a number, and nothing is asked
 * of a caller but what C cannot check:
 *   - each pointer is valid for the length given with it, and not NULL, also where the length is 0;
 *   - a buffer that a call writes overlaps no other buffer of that call.
 * A call keeps nothing for a later one, so calls from several threads are safe as long as no thread writes a buffer that another
 * one uses. There is no heap: zegbiko_decide, zegbiko_write_sheet and zegbiko_implied_rules use some 1.2 MB of stack, the others
 * some 5 KB.
 *
 * In each answer `refusal` is 0 if the call is answered, else the number of the first check that says no (below), and then
 * every other field is 0. A refusal changes no buffer, but for 17 to 19: these come after deciding, so marks and placement are then
 * as zegbiko_decide leaves them.
 *
 * Editions: byte 0 of a book is 1 or 2. Edition 1 has a head of 18 bytes, with an entry of offset and count (two bytes each) for terms, rules,
 * membership claims and link claims, and then these sections. Edition 2 has a fifth entry, for pairs, in bytes 18 to 21; its sections begin at
 * byte 22, and the pairs are the last: at most 64, of two bytes each, the lower role and the upper role, 0 to 7. Without pairs such a book is
 * answered as the one of edition 1 with the same sections. A sheet has no edition: its byte 0 is 1.
 *
 * Pairs: an interpretation meets a pair when the lower role's link never exceeds the upper's. Only interpretations that meet every pair count, in
 * every answer: a model is one of them. A pair may name one role twice, and pairs may recur. A role is above another when pairs, one or more, lead
 * up to it, also through roles that no term uses; circles of pairs are allowed, and make roles equal.
 *
 * Sets: of either edition, a membership claim has four bytes: individual, term, sense, grade. With the senses 2 and 3, "at least" and "at most" for
 * a set, the first byte is not an individual but a set, any byte: bit i, of value 2 to the power i, for individual i. The claim holds when each
 * member meets it; the empty set, 0, claims nothing. Outcome, marks, placement and written sheet are those of the book that has a single claim for
 * each member in its place, where that has room for them.
 *
 * Names: a name, 0 to 15, may stand in any number of terms, which then have one grade, at every element and in every candidate. They
 * are one place; each quantified term is a place of its own, also where two are equal. There are (N + 1) to the number of places candidates.
 *
 * Words: N is the number of steps of the book's chain, byte 1 of the book; grades are 0 to N. The number of terms is in bytes 4 and 5. An
 * interpretation has one element or more, and gives names and links their grades. A type is a list of grades, one for each term; a
 * candidate is the number of a type. A survivor is a candidate whose mark is 1; the survivors are exactly the types that an element can
 * have in some finite interpretation that meets the rules and pairs. A quantified term is one of kind "some" or "all". n is a sheet's number of
 * elements; A, R and I are one more than the highest name, role and individual of the book's terms, claims and pairs, or 0 where there is none.
 * So a role that only a pair names counts towards R, and each member of a set towards I.
 */
#ifndef ZEGBIKO_H
#define ZEGBIKO_H

#include <stddef.h>
#include <stdint.h>

#ifdef __cplusplus
extern "C" {
#endif

/* ---- The version, also that of the Rust wrapper and the manual page; docs/USING.md, "Versions", says what it promises */

#define ZEGBIKO_VERSION "1.4.0"

/* ---- Sizes in bytes; the buffers of these sizes suffice for every book */

#define ZEGBIKO_BOOK_LEAST 18  /* the shortest book; of edition 2 it has 22 */
#define ZEGBIKO_BOOK_MOST 982  /* the longest book, which is of edition 2; of edition 1 it has 850 */
#define ZEGBIKO_MARKS 16384    /* a mark for each candidate; zegbiko_count says how many a book needs */
#define ZEGBIKO_PLACEMENT 16   /* two bytes for each of 8 individuals; 16 are asked for with fewer too */
#define ZEGBIKO_SHEET 33812    /* the longest sheet: 12 + 64 * 16 + 8 * 64 * 64 + 8 */
#define ZEGBIKO_GRID 4096      /* the largest grid: 64 elements times 64 terms */
#define ZEGBIKO_TABLE 4096     /* the largest table of implied rules: 64 terms times 64 */
#define ZEGBIKO_ELEMENTS 64    /* not bytes: the most elements of a sheet */

/* ---- Kinds of term, and senses of a membership claim */

#define ZEGBIKO_KIND_NAME 0
#define ZEGBIKO_KIND_NOT 1
#define ZEGBIKO_KIND_AND 2
#define ZEGBIKO_KIND_OR 3
#define ZEGBIKO_KIND_SOME 4
#define ZEGBIKO_KIND_ALL 5
#define ZEGBIKO_KIND_TOP 6
#define ZEGBIKO_KIND_BOTTOM 7
#define ZEGBIKO_AT_LEAST 0      /* the claim's first byte is an individual, 0 to 7 */
#define ZEGBIKO_AT_MOST 1
#define ZEGBIKO_EACH_AT_LEAST 2 /* the claim's first byte is a set, bit i for individual i: each member has to meet the claim */
#define ZEGBIKO_EACH_AT_MOST 3

/* ---- Refusal numbers; zegbiko_refusal_text says what each means, docs/NUMBERS.md what usually causes it */

/* every call, in this order */
#define ZEGBIKO_REFUSED_BOOK_LENGTH 1
#define ZEGBIKO_REFUSED_EDITION 2
#define ZEGBIKO_REFUSED_STEPS 3
#define ZEGBIKO_REFUSED_COUNTS 4
#define ZEGBIKO_REFUSED_LAYOUT 5
#define ZEGBIKO_REFUSED_TERMS 6
#define ZEGBIKO_REFUSED_RULES 7
#define ZEGBIKO_REFUSED_MEMBERSHIP_CLAIMS 8
#define ZEGBIKO_REFUSED_LINK_CLAIMS 9
#define ZEGBIKO_REFUSED_PAIRS 22
/* every call but zegbiko_check and zegbiko_work_out, after 22 */
#define ZEGBIKO_REFUSED_CANDIDATES 10
/* zegbiko_decide, zegbiko_write_sheet and zegbiko_implied_rules, after 10 */
#define ZEGBIKO_REFUSED_MARKS 11
/* zegbiko_decide and zegbiko_write_sheet, after 11 */
#define ZEGBIKO_REFUSED_PLACEMENT 12
/* zegbiko_implied_rules, after 11 */
#define ZEGBIKO_REFUSED_TABLE 23
/* zegbiko_work_out, after 22 */
#define ZEGBIKO_REFUSED_SHEET_HEAD 13
#define ZEGBIKO_REFUSED_SHEET_LAYOUT 14
#define ZEGBIKO_REFUSED_SHEET_ENTRIES 15
#define ZEGBIKO_REFUSED_GRID 16
/* zegbiko_write_sheet, after 12 and deciding */
#define ZEGBIKO_REFUSED_OUTCOME 17
#define ZEGBIKO_REFUSED_SURVIVORS 18
#define ZEGBIKO_REFUSED_SHEET_BUFFER 19
/* zegbiko_grade and zegbiko_link, after 10 */
#define ZEGBIKO_REFUSED_CANDIDATE 20
#define ZEGBIKO_REFUSED_TERM_OR_ROLE 21

/* What a refusal number says, for a message to people. */
static inline const char *zegbiko_refusal_text(uint8_t refusal) {
    switch (refusal) {
    case 0: return "not refused";
    case ZEGBIKO_REFUSED_BOOK_LENGTH: return "the book is not 18 to 850 bytes long, or, where byte 0 is 2, not 22 to 982";
    case ZEGBIKO_REFUSED_EDITION: return "the edition, byte 0, is not 1 or 2";
    case ZEGBIKO_REFUSED_STEPS: return "N, byte 1, is not 1 to 8";
    case ZEGBIKO_REFUSED_COUNTS: return "a count of terms, rules, claims or pairs is above 64";
    case ZEGBIKO_REFUSED_LAYOUT: return "an offset or the length disagrees with the layout";
    case ZEGBIKO_REFUSED_TERMS:
        return "a term has a kind above 7, an operand out of range or an unused byte other than 0";
    case ZEGBIKO_REFUSED_RULES: return "a rule names a term that the book does not have";
    case ZEGBIKO_REFUSED_MEMBERSHIP_CLAIMS: return "a membership claim is out of range, or its grade is above N";
    case ZEGBIKO_REFUSED_LINK_CLAIMS: return "a link claim is out of range, or its grade is above N";
    case ZEGBIKO_REFUSED_CANDIDATES: return "there are more than 16,384 candidates";
    case ZEGBIKO_REFUSED_MARKS: return "the marks buffer has fewer bytes than there are candidates";
    case ZEGBIKO_REFUSED_PLACEMENT: return "the placement buffer has fewer than 16 bytes";
    case ZEGBIKO_REFUSED_SHEET_HEAD:
        return "the sheet has fewer than 12 bytes, byte 0 is not 1, n is not 1 to 64, or N, A, R or I are not the book's";
    case ZEGBIKO_REFUSED_SHEET_LAYOUT: return "an offset or the length of the sheet disagrees with the layout";
    case ZEGBIKO_REFUSED_SHEET_ENTRIES: return "a grade on the sheet is above N, or an individual's element is not below n";
    case ZEGBIKO_REFUSED_GRID: return "the grid buffer has fewer bytes than n times the term count";
    case ZEGBIKO_REFUSED_OUTCOME: return "the outcome is not 1: rules and claims do not hold together";
    case ZEGBIKO_REFUSED_SURVIVORS: return "there are more than 64 survivors";
    case ZEGBIKO_REFUSED_SHEET_BUFFER: return "the sheet buffer is too short for the sheet";
    case ZEGBIKO_REFUSED_CANDIDATE: return "a candidate number is not below the number of candidates";
    case ZEGBIKO_REFUSED_TERM_OR_ROLE: return "the term is not one of the book's, or the role is above 7";
    case ZEGBIKO_REFUSED_PAIRS: return "a pair names a role above 7";
    case ZEGBIKO_REFUSED_TABLE: return "the table buffer has fewer bytes than the square of the term count";
    default: return "no refusal number";
    }
}

/* ---- Outcomes of deciding */

#define ZEGBIKO_HOLDS_TOGETHER 1 /* some model meets rules and claims; as every model, it meets the pairs */
#define ZEGBIKO_CLAIMS_FAIL 2    /* the rules have a model, but none meets the claims */
#define ZEGBIKO_NO_MODEL 3       /* the rules have no model */

/* ---- Verdicts on a sheet; rules are looked at first, then pairs, membership claims and link claims */

#define ZEGBIKO_MEETS 0             /* every rule, pair and claim is met */
#define ZEGBIKO_BREAKS_RULE 1       /* the first rule broken, and the lowest element at which it is */
#define ZEGBIKO_BREAKS_MEMBERSHIP 2 /* no rule and no pair is broken; the first membership claim broken, one on a set by whichever member */
#define ZEGBIKO_BREAKS_LINK 3       /* nor is one of these; the first link claim broken */
#define ZEGBIKO_BREAKS_PAIR 4       /* no rule is broken; the first pair broken, its lowest first element, and then the lowest second one */

/* ---- Answers */

typedef struct {
    uint8_t refusal;
    uint64_t candidates;
} zegbiko_counted;

typedef struct {
    uint8_t refusal;
    uint8_t outcome;  /* 1 to 3 */
    size_t survivors; /* how many candidates are marked 1 */
} zegbiko_decided;

typedef struct {
    uint8_t refusal;
    size_t survivors; /* how many candidates are marked 1 */
} zegbiko_implied;

typedef struct {
    uint8_t refusal;
    size_t length; /* of the sheet, in bytes */
} zegbiko_written;

typedef struct {
    uint8_t refusal;
    uint8_t verdict; /* 0 to 4 */
    size_t number;   /* of the rule, pair or claim broken, from 0; 0 for "meets" */
    size_t element;  /* the lowest element at which the rule is broken, or from which a link breaks the pair; 0 for the other verdicts */
    size_t second;   /* the lowest element to which a link from there breaks the pair; 0 for the other verdicts */
} zegbiko_worked;

typedef struct {
    uint8_t refusal;
    uint8_t grade; /* 0 to N */
} zegbiko_graded;

/* ---- Calls */

/* Checks a book: 0 if it is accepted, else the refusal number, 1 to 9 or 22. */
uint8_t zegbiko_check(const uint8_t *book, size_t book_length);

/* Checks a book, 1 to 9, 22 and 10, and counts its candidates. */
zegbiko_counted zegbiko_count(const uint8_t *book, size_t book_length);

/*
 * Decides a book, after 1 to 9, 22 and 10 to 12: the outcome and the number of survivors.
 * Mark byte c is set to 1 if candidate c survives, else to 0; mark bytes past the number of candidates are kept.
 * For outcome 1 the placement bytes 2j and 2j + 1 are set to the candidate at which individual j is placed, the high byte first; the
 * bytes past the last individual's are kept, and for outcomes 2 and 3 all of them. So where byte 2j is FF before the call and after it
 * there is no individual j: a candidate's number is below 16,384, and its high byte below 40 hex.
 */
zegbiko_decided zegbiko_decide(const uint8_t *book, size_t book_length, uint8_t *marks, size_t marks_length, uint8_t *placement,
                               size_t placement_length);

/*
 * Fills the table of implied rules, after 1 to 9, 22, 10, 11 and 23; the number of survivors is the answer. The marks are set, and kept past the
 * number of candidates, as by zegbiko_decide. There is no placement, and claims play no part in answer and bytes.
 *
 * With T terms, byte left * T + right of the table is set to 1 if in every finite interpretation that meets the rules and pairs the left term's
 * grade is not greater than the right term's at any element: "left not greater than right" is then an implied rule. Else it is set to 0, and some
 * survivor grades left above right, as zegbiko_grade says. Without survivors all bytes are 1. The bytes past the first T * T are kept.
 *
 * So each term bounds itself, what bounds a bound of a term bounds the term, and a rule of the book has its byte 1. Two terms are graded alike in
 * each of those interpretations if and only if both their bytes are 1.
 */
zegbiko_implied zegbiko_implied_rules(const uint8_t *book, size_t book_length, uint8_t *marks, size_t marks_length, uint8_t *table,
                                      size_t table_length);

/*
 * Decides a book as zegbiko_decide does, marks and placement likewise, and then, after 17 to 19, writes the sheet of its model: the
 * elements are the survivors, ascending, with the individuals as placed. The sheet's length is the answer; the bytes past the
 * sheet are kept, and on a refusal all of its buffer.
 */
zegbiko_written zegbiko_write_sheet(const uint8_t *book, size_t book_length, uint8_t *marks, size_t marks_length,
                                    uint8_t *placement, size_t placement_length, uint8_t *sheet, size_t sheet_length);

/*
 * Works out a sheet on a book, after 1 to 9, 22 and 13 to 16: whether it meets the book's rules, pairs and claims, or which is broken first.
 * The first n times the term count bytes of the grid are set, element by element, to the grades of all terms at the element; the
 * bytes past them are kept.
 */
zegbiko_worked zegbiko_work_out(const uint8_t *book, size_t book_length, const uint8_t *sheet, size_t sheet_length, uint8_t *grid,
                                size_t grid_length);

/*
 * The grade of a term in a candidate, after 1 to 9, 22, 10, 20 and 21.
 *
 * A candidate gives each term a grade. Its places are each name, at the first term that has it, and each "some" or "all" term (the kinds 4
 * and 5). The grades of the places, in the terms' order, are the digits of the candidate's number in base N + 1, lowest first. A later term
 * of a name has the name's grade; the grades of the other terms follow from their children's.
 */
zegbiko_graded zegbiko_grade(const uint8_t *book, size_t book_length, size_t candidate, size_t term);

/*
 * The link from one candidate to another for a role of 0 to 7, after 1 to 9, 22, 10, 20 and 21: the strongest that their grades and the pairs
 * allow. It is the least of the role's own bound and those of all roles above it. A role's bound is the greatest r of 0 to N such that
 *   - for each "all" term of the role, max(N - r, the child's grade in `to`) is at least the term's grade in `from`, and
 *   - for each "some" term of the role, min(r, the child's grade in `to`) is at most the term's grade in `from`,
 * and N where no term has the role. In a book without pairs no role is above another, so the link is the role's own bound. No interpretation that
 * meets the pairs has a stronger link between elements of these two types, and these links meet the pairs.
 *
 * With the link r for the term's own role, `to` is a witness of a quantified term in `from` when the term takes just its grade from it: "all" when
 * max(N - r, the child's grade in `to`) equals the term's grade in `from`, "some" when min(r, the child's grade in `to`) does. A link of
 * 0 can do that too. Each quantified term of a survivor has a witness among the survivors. Take survivors, at least one, such that
 * each quantified term of each has a witness among them: with these links they are an interpretation that meets the rules and pairs, and in
 * which each has its grades. docs/USING.md makes a sheet of such survivors ("A model that fits on a sheet").
 */
zegbiko_graded zegbiko_link(const uint8_t *book, size_t book_length, uint8_t role, size_t from, size_t to);

#ifdef __cplusplus
}
#endif

#endif
