// Times the deciders of two libraries on the books of the files named. Each library is linked several times, so that no placement of the code
// in memory favours one of them; `compare` gives their deciders these names.
#include "../include/zegbiko.h"
#include "plain.h"
#include "race.h"

enum { COPIES = 4 };
typedef zegbiko_decided decider(const uint8_t *, size_t, uint8_t *, size_t, uint8_t *, size_t);
decider first_0, first_1, first_2, first_3, second_0, second_1, second_2, second_3;

static verdict by(decider *decide, const hard_book *b, uint8_t *marks, uint8_t *placement) {
    zegbiko_decided r = decide(b->bytes, b->length, marks, MOST_CANDIDATES, placement, PLACEMENT_BYTES);
    return (verdict){r.outcome, r.survivors};
}

static verdict by_first(const hard_book *b, uint8_t *marks, uint8_t *placement) {
    static decider *const copies[COPIES] = {first_0, first_1, first_2, first_3};
    static unsigned turn;
    return by(copies[turn++ % COPIES], b, marks, placement);
}

static verdict by_second(const hard_book *b, uint8_t *marks, uint8_t *placement) {
    static decider *const copies[COPIES] = {second_0, second_1, second_2, second_3};
    static unsigned turn;
    return by(copies[turn++ % COPIES], b, marks, placement);
}

int main(int argc, char **argv) {
    (void)argc;
    static const racer racers[] = {{"first", by_first}, {"second", by_second}};
    return race(racers, 2, 4 * COPIES, (book_files){.names = argv + 1});
}
