// A book's sections, and the grades of its candidates.
#ifndef PLAIN_BOOK_H
#define PLAIN_BOOK_H
#include "plain.h"
#include <stdbool.h>

enum { NAME, NOT, AND, OR, SOME, ALL, TOP, BOTTOM, REPEATED }; // the kinds of terms; a repeated one is a name that an earlier term has
enum { MOST_TERMS = 64, MOST_CLAIMS = 64, MOST_INDIVIDUALS = 8, MOST_QUANTIFIED = 16, NAMES = 16, ROLES = 8 };

typedef struct {
    int steps; // N
    uint8_t terms[3 * MOST_TERMS]; // kind, a and b as in the bytes; but a repeated one has as a the name's first term
    const uint8_t *rules, *members, *links;
    int term_count, rule_count, member_count, link_count;
    uint8_t upward[ROLES]; // bit s of the byte of role r: s is r, or is reached from r upward, by the pairs
} book;

book sections(const uint8_t *bytes);

// Whether the terms of role s bind a link of role r.
static inline bool binds(const uint8_t upward[ROLES], int s, int r) { return upward[r] >> s & 1; }

// Whether a membership claim is about individual j: by the senses 0 and 1 about one individual, by 2 and 3 about a set, bit j for j.
static inline bool is_about(const uint8_t *member, int j) { return member[2] < 2 ? member[0] == j : member[0] >> j & 1; }

// Whether a grade is as a membership claim says: "at least" by the senses 0 and 2, "at most" by 1 and 3.
static inline bool is_as_claimed(const uint8_t *member, int grade) { return member[2] % 2 == 0 ? grade >= member[3] : grade <= member[3]; }

// (N + 1) to the number of places, or 0 if that is more than the tables hold.
int count_candidates(const book *k);

int count_individuals(const book *k);

// The grades of all terms in candidate c: a place takes the next digit, a repeated name follows its first term, any other term its children.
void grades(const book *k, unsigned c, uint8_t row[MOST_TERMS]);

#endif
