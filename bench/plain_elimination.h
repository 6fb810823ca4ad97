// What both ways of elimination share: the quantified terms as slots, what a candidate gives them, and boxes.
#ifndef PLAIN_ELIMINATION_H
#define PLAIN_ELIMINATION_H
#include "plain_book.h"

// Marks the survivors among so many candidates; gives their number.
typedef int eliminator(const book *k, int count, uint8_t *marks);

eliminator eliminate_by_candidates, eliminate_by_classes; // (plain_candidates.c, plain_classes.c)

// A quantified term.
typedef struct {
    uint8_t kind, role, term, child;
} slot;

// All of them, in term order.
typedef struct {
    int steps, count;
    slot at[MOST_QUANTIFIED];
    uint8_t upward[ROLES]; // as in the book
} slots;

slots collect_slots(const book *k);

// Sets what candidate c gives the quantified terms themselves, and their children. Whether it meets every rule.
bool read_candidate(const book *k, const slots *s, int c, uint8_t own[MOST_QUANTIFIED], uint8_t child[MOST_QUANTIFIED]);

// The box: to a candidate with these grades of the quantified terms, another one witnesses slot q exactly when each child's grade in it lies
// within low and high.
void make_box(const slots *s, const uint8_t *own, int q, uint8_t low[MOST_QUANTIFIED], uint8_t high[MOST_QUANTIFIED]);

#endif
