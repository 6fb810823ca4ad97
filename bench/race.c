// Runs some deciders on each book of some files, in turn, and prints the best time of each, and ratios.
#define _POSIX_C_SOURCE 200809L
#include "race.h"
#include "plain_book.h"
#include <stdbool.h>
#include <string.h>
#include <time.h>

enum { MOST_ROUNDS = 100 };
static const double ENOUGH_MS = 1000; // a decider that is quick runs a book more often, for about so long
static const double WORTH_MS = 1;     // the ratio of a quicker book says little, and is not counted among the greatest
static const uint8_t UNTOUCHED = 0xA7;

// What a decider did with a book: its answer, every byte that it could write, its best time, and the time of all rounds.
typedef struct {
    verdict is;
    uint8_t marks[MOST_CANDIDATES];
    uint8_t placement[PLACEMENT_BYTES];
    double best, spent;
} lane;

double clock_ms(void) {
    struct timespec t;
    clock_gettime(CLOCK_THREAD_CPUTIME_ID, &t);
    return t.tv_sec * 1e3 + t.tv_nsec / 1e6;
}

static void run_one(racer r, const hard_book *b, lane *l) {
    memset(l->marks, UNTOUCHED, sizeof l->marks);
    memset(l->placement, UNTOUCHED, sizeof l->placement);
    double start = clock_ms();
    l->is = r.decide(b, l->marks, l->placement);
    double t = clock_ms() - start;
    if (t < l->best) l->best = t;
    l->spent += t;
}

// What is wrong with an answer beside the first racer's and the file's, or NULL.
static const char *difference(const hard_book *b, const lane *first, const lane *l) {
    if (l->is.outcome == 0) return "it is refused";
    if (l->is.outcome != first->is.outcome) return "the outcomes differ";
    if (l->is.survivors != first->is.survivors) return "the numbers of survivors differ";
    if (memcmp(l->marks, first->marks, sizeof l->marks) != 0) return "the marks differ";
    if (memcmp(l->placement, first->placement, sizeof l->placement) != 0) return "the placements differ";
    if (l->is.outcome != (size_t)b->outcome || l->is.survivors != (size_t)b->survivors) return "the file says otherwise";
    return NULL;
}

// Runs a book until each racer has had its rounds and enough time, in turn; what is wrong with the answers, or NULL.
static const char *run(const racer *racers, int count, int rounds, const hard_book *b, lane *lanes) {
    bool more = true;
    for (int round = 0; round < MOST_ROUNDS && more; round++) {
        const char *wrong = NULL;
        more = false;
        for (int i = 0; i < count; i++) {
            if (round >= rounds && lanes[i].spent >= ENOUGH_MS) continue;
            more = true;
            run_one(racers[i], b, &lanes[i]);
            if (!wrong) wrong = difference(b, &lanes[0], &lanes[i]);
        }
        if (wrong) return wrong;
    }
    return NULL;
}

// Runs a book and prints its line; false if the answers differ.
static bool show(const racer *racers, int count, int rounds, const hard_book *b, lane *lanes) {
    for (int i = 0; i < count; i++) lanes[i] = (lane){.best = 1e30};
    printf("%-24s ", b->name);
    fflush(stdout);
    const char *wrong = run(racers, count, rounds, b, lanes);
    if (wrong) {
        printf("ERROR: %s", wrong);
        for (int i = 0; i < count; i++) printf("; %s: outcome %zu, survivors %zu", racers[i].name, lanes[i].is.outcome, lanes[i].is.survivors);
        printf("\n");
        return false;
    }
    book k = sections(b->bytes);
    printf("%10d %9zu %7zu", count_candidates(&k), lanes[0].is.survivors, lanes[0].is.outcome);
    for (int i = 0; i < count; i++) printf(" %11.2f", lanes[i].best);
    for (int i = 0; i < count - 1; i++) printf(" %10.3f", lanes[count - 1].best / lanes[i].best);
    printf("\n");
    return true;
}

static void print_head(const racer *racers, int count) {
    printf("%-24s %10s %9s %7s", "book", "candidates", "survivors", "outcome");
    for (int i = 0; i < count; i++) printf(" %8s ms", racers[i].name);
    for (int i = 0; i < count - 1; i++) printf(" / %8s", racers[i].name);
    printf("\n");
}

// The book with the greatest of some number.
typedef struct {
    double value;
    char name[sizeof((hard_book *)0)->name];
} record;

static void note(record *r, double value, const hard_book *b) {
    if (value <= r->value) return;
    r->value = value;
    memcpy(r->name, b->name, sizeof r->name);
}

int race(const racer *racers, int count, int rounds, book_files files) {
    static hard_book b;
    static lane lanes[MOST_RACERS];
    const lane *last = &lanes[count - 1], *beside = last - 1;
    record ratio = {0}, time = {0};
    int books = 0, errors = 0;
    print_head(racers, count);
    for (; next_book(&files, &b); books++) {
        if (!show(racers, count, rounds, &b, lanes)) {
            errors++;
            continue;
        }
        note(&time, last->best, &b);
        if (last->best >= WORTH_MS) note(&ratio, last->best / beside->best, &b);
    }
    if (errors || !books) {
        printf("%d books, %d with an error\n", books, errors);
        return 1;
    }
    const char *of = racers[count - 1].name, *to = racers[count - 2].name;
    printf("%d books, all answers equal; the longest for %s: %.2f ms (%s)\n", books, of, time.value, time.name);
    if (ratio.value > 0) printf("greatest ratio %s / %s, from %.0f ms on: %.2f (%s)\n", of, to, WORTH_MS, ratio.value, ratio.name);
    return 0;
}
