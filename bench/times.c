// Times the product's decider against the plain ones on the books of the files named.
#include "../include/zegbiko.h"
#include "plain.h"
#include "race.h"

static verdict by_plain(plain_decider *decide, const hard_book *b, uint8_t *marks, uint8_t *placement) {
    plain_result r = decide(b->bytes, marks, placement);
    return (verdict){r.outcome, r.survivors};
}

static verdict by_candidates(const hard_book *b, uint8_t *marks, uint8_t *placement) {
    return by_plain(plain_decide_by_candidates, b, marks, placement);
}

static verdict by_classes(const hard_book *b, uint8_t *marks, uint8_t *placement) {
    return by_plain(plain_decide_by_classes, b, marks, placement);
}

static verdict by_product(const hard_book *b, uint8_t *marks, uint8_t *placement) {
    zegbiko_decided r = zegbiko_decide(b->bytes, b->length, marks, MOST_CANDIDATES, placement, PLACEMENT_BYTES);
    return (verdict){r.outcome, r.survivors};
}

int main(int argc, char **argv) {
    (void)argc;
    static const racer racers[] = {{"by cand.", by_candidates}, {"by class", by_classes}, {"product", by_product}};
    return race(racers, 3, 3, (book_files){.names = argv + 1});
}
