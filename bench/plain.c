// Plain deciders of graded rule books, to measure the proved one against: written from the specification as one would write them in C, with no
// proof. They are not part of the product. Here: type elimination in one of two ways; then the individuals are placed.
#include "plain_elimination.h"
#include "plain_placing.h"

static plain_result decide(eliminator *eliminate, const uint8_t *bytes, uint8_t *marks, uint8_t *placement) {
    book k = sections(bytes);
    plain_result r = {.candidates = count_candidates(&k), .individuals = count_individuals(&k)};
    if (r.candidates == 0) return r;
    r.survivors = eliminate(&k, r.candidates, marks);
    if (r.survivors == 0) {
        r.outcome = 3;
        return r;
    }
    int at[MOST_INDIVIDUALS];
    if (!place(&k, r.candidates, r.individuals, marks, at)) {
        r.outcome = 2;
        return r;
    }
    for (int i = 0; i < r.individuals; i++) {
        placement[2 * i] = at[i] >> 8;
        placement[2 * i + 1] = at[i] & 255;
    }
    r.outcome = 1;
    return r;
}

plain_result plain_decide_by_candidates(const uint8_t *book, uint8_t *marks, uint8_t *placement) {
    return decide(eliminate_by_candidates, book, marks, placement);
}

plain_result plain_decide_by_classes(const uint8_t *book, uint8_t *marks, uint8_t *placement) {
    return decide(eliminate_by_classes, book, marks, placement);
}
