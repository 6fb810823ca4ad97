// The plain deciders: what they take and give.
#ifndef PLAIN_H
#define PLAIN_H
#include <stddef.h>
#include <stdint.h>

enum { MOST_CANDIDATES = 16384, PLACEMENT_BYTES = 16 };

typedef struct {
    int outcome;      // 1 holds together, 2 no placement, 3 no survivors; 0 if the book has more candidates than fit
    int survivors;
    int candidates;
    int individuals;
} plain_result;

// Decides a book whose form is right (that is not tested). Sets one byte of `marks` per candidate and, for outcome 1, two bytes of
// `placement` per individual; keeps all others.
typedef plain_result plain_decider(const uint8_t *book, uint8_t *marks, uint8_t *placement);

plain_decider plain_decide_by_candidates, plain_decide_by_classes; // they differ in elimination alone

#endif
