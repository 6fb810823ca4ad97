// What placing goes by: the candidates' rows, the constraints between individuals, and the table of what each individual may have.
#ifndef PLAIN_PLACING_H
#define PLAIN_PLACING_H
#include "plain_book.h"

enum { MOST_CONSTRAINTS = MOST_CLAIMS * MOST_QUANTIFIED };

// What a link claim asks by one quantified term of its role or of one above it: of the term itself at the source, and of its child at the target.
typedef struct {
    uint8_t source, target;
    uint8_t kind, level; // SOME or ALL; what the link is at least
    uint8_t own, child;
} constraint;

typedef struct {
    int steps, count, individuals;
    uint8_t rows[MOST_CANDIDATES][MOST_TERMS]; // the grades of all terms, for survivors

    // 1 in row j, column c: individual j may have candidate c. 0: it may not. Any other value v: nor may it have the next v - 2.
    uint8_t table[MOST_INDIVIDUALS][MOST_CANDIDATES];

    // Sorted by the later of the two individuals: those of j start at first[j]; those of j and itself, which come first, end at others[j].
    constraint constraints[MOST_CONSTRAINTS];
    int first[MOST_INDIVIDUALS + 1], others[MOST_INDIVIDUALS];
} placing;

// Finds the first placement in dictionary order at marked candidates that meets the claims; false if there is none.
bool place(const book *k, int count, int individuals, const uint8_t *marks, int at[MOST_INDIVIDUALS]);

// The next candidate from c on that a row of the table allows; `end` or more if there is none below `end`.
static inline int next_allowed(const uint8_t *may, int c, int end) {
    while (c < end && may[c] != 1) c += may[c] ? may[c] - 1 : 1;
    return c;
}

// Keeps, of the candidates that the constraints cannot tell apart, the first. (plain_pruning.c, like the next)
void thin(placing *p);

// Takes candidates away for which some other individual has none that fits, until there is no more such.
void prune(placing *p);

#endif
