// Type elimination by classes. Candidates that give the quantified terms equal grades form a class of sources: they need the same witnesses, so
// they go or stay together. Candidates that give the children equal grades form a class of targets: as a witness, one is as good as another.
#include "plain_elimination.h"
#include <string.h>

enum { BLOCK = 64 }; // targets that share a zone; 32 and 128 are no better on the whole

// Classes, numbered in the order in which they occur.
typedef struct {
    int count;
    uint8_t rows[MOST_CANDIDATES][MOST_QUANTIFIED]; // the grades that make each
    uint16_t of[MOST_CANDIDATES];                   // the class of each candidate
    uint8_t has[MOST_CANDIDATES];                   // whether a candidate in it is left, at the start of a sweep

    // At place n: one more than the class whose row, read as a number in base N + 1, is n. There are at most as many rows as candidates.
    uint16_t numbered[MOST_CANDIDATES];
} classes;

static classes sources, targets;

// The lowest and the highest grade of each slot in a block of consecutive targets. Later slots change least from row to row, so that in a block
// most of them have one grade alone, and a whole block can be passed over at once.
typedef struct {
    uint8_t lowest[MOST_QUANTIFIED], highest[MOST_QUANTIFIED];
} zone;

static zone zones[MOST_CANDIDATES / BLOCK];

// The candidates that are left, ascending.
static uint16_t left[MOST_CANDIDATES];

// One more than the target that was last found to witness slot q of a source; 0 before the first search.
static uint16_t memory[MOST_CANDIDATES][MOST_QUANTIFIED];

static void clear(classes *k) {
    k->count = 0;
    memset(k->numbered, 0, sizeof k->numbered);
}

static void classify(classes *k, const slots *s, int c, const uint8_t *row) {
    int n = 0;
    for (int q = 0; q < s->count; q++) n = n * (s->steps + 1) + row[q];
    if (!k->numbered[n]) {
        memcpy(k->rows[k->count], row, MOST_QUANTIFIED);
        k->numbered[n] = ++k->count;
    }
    k->of[c] = k->numbered[n] - 1;
}

// Makes the classes and marks the candidates that meet every rule; gives their number.
static int fill(const book *k, const slots *s, int count, uint8_t *marks) {
    int n = 0;
    clear(&sources);
    clear(&targets);
    for (int c = 0; c < count; c++) {
        uint8_t own[MOST_QUANTIFIED] = {0}, child[MOST_QUANTIFIED] = {0};
        marks[c] = read_candidate(k, s, c, own, child);
        classify(&sources, s, c, own);
        classify(&targets, s, c, child);
        if (marks[c]) left[n++] = c;
    }
    return n;
}

static void make_zones(const slots *s) {
    for (int t = 0; t < targets.count; t++) {
        zone *z = &zones[t / BLOCK];
        const uint8_t *row = targets.rows[t];
        if (t % BLOCK == 0) {
            memcpy(z->lowest, row, MOST_QUANTIFIED);
            memcpy(z->highest, row, MOST_QUANTIFIED);
        }
        for (int q = 0; q < s->count; q++) {
            if (row[q] < z->lowest[q]) z->lowest[q] = row[q];
            if (row[q] > z->highest[q]) z->highest[q] = row[q];
        }
    }
}

// What a box asks of one slot: a grade of low or more, and of no more than `over` above it.
typedef struct {
    uint8_t slot, low, over;
} bound;

// The bounds of a box that bind, that of slot q first: most rows fail there. Then the later slots, which change least from row to row, so that
// the processor foresees how the test ends. Gives their number.
static int list_bounds(const slots *s, const uint8_t *own, int q, bound bounds[MOST_QUANTIFIED]) {
    uint8_t low[MOST_QUANTIFIED], high[MOST_QUANTIFIED];
    int n = 0;
    make_box(s, own, q, low, high);
    bounds[n++] = (bound){q, low[q], high[q] - low[q]};
    for (int j = s->count - 1; j >= 0; j--)
        if (j != q && (low[j] > 0 || high[j] < s->steps)) bounds[n++] = (bound){j, low[j], high[j] - low[j]};
    return n;
}

static inline bool within(const bound *b, const uint8_t *row) { return (uint8_t)(row[b->slot] - b->low) <= b->over; }

static bool inside(const bound *bounds, int n, const uint8_t *row) {
    for (int x = 1; x < n; x++)
        if (!within(&bounds[x], row)) return false;
    return true;
}

// Whether some bound leaves nothing of a zone: then no row of its block lies in the box.
static bool apart(const bound *bounds, int n, const zone *z) {
    for (int x = 0; x < n; x++) {
        bound b = bounds[x];
        if (z->highest[b.slot] < b.low || b.low + b.over < z->lowest[b.slot]) return true;
    }
    return false;
}

// Looks for a witness of slot q of a source, past the one remembered, and remembers it.
static bool next_witness(const slots *s, int source, int q) {
    bound bounds[MOST_QUANTIFIED];
    int n = list_bounds(s, sources.rows[source], q, bounds);
    bound first = bounds[0];
    for (int t = memory[source][q]; t < targets.count; t++) {
        if (t % BLOCK == 0 && apart(bounds, n, &zones[t / BLOCK])) {
            t += BLOCK - 1;
            continue;
        }
        if (within(&first, targets.rows[t]) && inside(bounds, n, targets.rows[t]) && targets.has[t]) {
            memory[source][q] = t + 1;
            return true;
        }
    }
    return false;
}

// Whether each quantified term of a source has a witness.
static bool supported(const slots *s, int source) {
    for (int q = 0; q < s->count; q++) {
        int w = memory[source][q];
        if (w > 0 && targets.has[w - 1]) continue;
        if (!next_witness(s, source, q)) return false;
    }
    return true;
}

// Notes which classes the n candidates have that are left.
static void look(int n) {
    memset(sources.has, 0, sources.count);
    memset(targets.has, 0, targets.count);
    for (int i = 0; i < n; i++) sources.has[sources.of[left[i]]] = targets.has[targets.of[left[i]]] = 1;
}

// Takes away the candidates of sources that are not supported; gives the number of those left.
static int sweep(const slots *s, uint8_t *marks, int n) {
    int kept = 0;
    look(n);
    for (int i = 0; i < sources.count; i++)
        if (sources.has[i]) sources.has[i] = supported(s, i);
    for (int i = 0; i < n; i++) {
        int c = left[i];
        if (sources.has[sources.of[c]]) left[kept++] = c;
        else marks[c] = 0;
    }
    return kept;
}

int eliminate_by_classes(const book *k, int count, uint8_t *marks) {
    slots s = collect_slots(k);
    int n = fill(k, &s, count, marks);
    make_zones(&s);
    memset(memory, 0, sources.count * sizeof memory[0]);
    for (int before = -1; before != n;) {
        before = n;
        n = sweep(&s, marks, n);
    }
    return n;
}
