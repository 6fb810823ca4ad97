// Times the product's table of implied rules on the books of the files named: deciding, filling the table, and, for what the table costs beyond the
// elimination, a plain loop over the same survivors.
#include "../include/zegbiko.h"
#include "plain_implied.h"
#include "race.h"
#include <string.h>

enum { TABLE_BYTES = MOST_TERMS * MOST_TERMS, LEAST_ROUNDS = 5, MOST_ROUNDS = 200 };
static const double ENOUGH_MS = 1000; // a book that is quick runs more often, for about so long
static const double WORTH_MS = 1;     // the ratio of a quicker book says little, and is not counted among the greatest
static const uint8_t UNTOUCHED = 0xA7;

enum { DECIDE, IMPLIED, PLAIN, LANES };

static hard_book b;
static zegbiko_decided decided;
static zegbiko_implied implied;
static uint8_t placement[PLACEMENT_BYTES];
static uint8_t marks[LANES][MOST_CANDIDATES], table[LANES][TABLE_BYTES]; // deciding fills no table, the plain loop sets no marks

static void run_one(int lane) {
    switch (lane) {
    case DECIDE: decided = zegbiko_decide(b.bytes, b.length, marks[DECIDE], MOST_CANDIDATES, placement, PLACEMENT_BYTES); break;
    case IMPLIED: implied = zegbiko_implied_rules(b.bytes, b.length, marks[IMPLIED], MOST_CANDIDATES, table[IMPLIED], TABLE_BYTES); break;
    default: plain_implied_rules(b.bytes, marks[DECIDE], table[PLAIN]);
    }
}

// What is wrong with the answers, or NULL. All bytes are compared, also those that must keep their contents.
static const char *difference(void) {
    if (decided.refusal || implied.refusal) return "it is refused";
    if (decided.outcome != b.outcome || decided.survivors != (size_t)b.survivors) return "the file says otherwise";
    if (implied.survivors != decided.survivors) return "the numbers of survivors differ";
    if (memcmp(marks[DECIDE], marks[IMPLIED], sizeof marks[0]) != 0) return "the marks differ";
    if (memcmp(table[IMPLIED], table[PLAIN], sizeof table[0]) != 0) return "the tables differ";
    return NULL;
}

// Runs all three in turn, and notes the best time of each.
static const char *run(double best[LANES]) {
    double spent = 0;
    for (int lane = 0; lane < LANES; lane++) best[lane] = 1e30;
    for (int round = 0; round < LEAST_ROUNDS || (round < MOST_ROUNDS && spent < LANES * ENOUGH_MS); round++) {
        memset(marks, UNTOUCHED, sizeof marks);
        memset(table, UNTOUCHED, sizeof table);
        for (int lane = 0; lane < LANES; lane++) {
            double start = clock_ms();
            run_one(lane);
            double t = clock_ms() - start;
            if (t < best[lane]) best[lane] = t;
            spent += t;
        }
        const char *wrong = difference();
        if (wrong) return wrong;
    }
    return NULL;
}

static int ones(int terms) {
    int n = 0;
    for (int i = 0; i < terms * terms; i++) n += table[PLAIN][i];
    return n;
}

int main(int argc, char **argv) {
    (void)argc;
    book_files files = {.names = argv + 1};
    int books = 0, errors = 0;
    double greatest = 0;
    printf("%-24s %10s %9s %5s %5s %9s %10s %8s %8s %7s\n", "book", "candidates", "survivors", "terms", "ones", "decide ms", "implied ms", "table ms",
           "plain ms", "/ plain");
    for (; next_book(&files, &b); books++) {
        double best[LANES];
        printf("%-24s ", b.name);
        fflush(stdout);
        const char *wrong = run(best);
        if (wrong) {
            printf("ERROR: %s\n", wrong);
            errors++;
            continue;
        }
        book k = sections(b.bytes);
        double beyond = best[IMPLIED] - best[DECIDE], ratio = beyond / best[PLAIN];
        if (best[PLAIN] >= WORTH_MS && ratio > greatest) greatest = ratio;
        printf("%10d %9zu %5d %5d %9.3f %10.3f %8.3f %8.3f %7.2f\n", count_candidates(&k), decided.survivors, k.term_count, ones(k.term_count),
               best[DECIDE], best[IMPLIED], beyond, best[PLAIN], ratio);
    }
    if (errors || !books) {
        printf("%d books, %d with an error\n", books, errors);
        return 1;
    }
    printf("%d books, all tables equal; greatest ratio table / plain, from %.0f ms on: %.2f\n", books, WORTH_MS, greatest);
    return 0;
}
