// Type elimination by candidates: each is looked at by itself, and remembers its witnesses.
#include "plain_elimination.h"
#include <string.h>

// Row c: what candidate c gives the quantified terms themselves, and their children.
static uint8_t own[MOST_CANDIDATES][MOST_QUANTIFIED];
static uint8_t child[MOST_CANDIDATES][MOST_QUANTIFIED];

// One more than the candidate that was last found to witness slot q of candidate c; 0 before the first search.
static uint16_t memory[MOST_CANDIDATES][MOST_QUANTIFIED];

// Fills the tables and marks the candidates that meet every rule; gives their number.
static int fill(const book *k, const slots *s, int count, uint8_t *marks) {
    int left = 0;
    for (int c = 0; c < count; c++) {
        marks[c] = read_candidate(k, s, c, own[c], child[c]);
        left += marks[c];
    }
    return left;
}

static bool inside(const slots *s, const uint8_t *low, const uint8_t *high, const uint8_t *row) {
    for (int j = 0; j < s->count; j++)
        if (row[j] < low[j] || high[j] < row[j]) return false;
    return true;
}

// Looks for a witness of slot q of candidate c, past the one remembered, and remembers it.
static bool next_witness(const slots *s, int count, const uint8_t *marks, int c, int q) {
    uint8_t low[MOST_QUANTIFIED], high[MOST_QUANTIFIED];
    make_box(s, own[c], q, low, high);
    for (int d = memory[c][q]; d < count; d++) {
        if (marks[d] && inside(s, low, high, child[d])) {
            memory[c][q] = d + 1;
            return true;
        }
    }
    return false;
}

// Whether each quantified term of candidate c has a witness among the marked.
static bool supported(const slots *s, int count, const uint8_t *marks, int c) {
    for (int q = 0; q < s->count; q++) {
        int w = memory[c][q];
        if (w > 0 && marks[w - 1]) continue;
        if (!next_witness(s, count, marks, c, q)) return false;
    }
    return true;
}

// Sweeps over the candidates until a sweep takes none away.
int eliminate_by_candidates(const book *k, int count, uint8_t *marks) {
    slots s = collect_slots(k);
    int left = fill(k, &s, count, marks);
    memset(memory, 0, count * sizeof memory[0]);
    for (int before = -1; before != left;) {
        before = left;
        for (int c = 0; c < count; c++) {
            if (marks[c] && !supported(&s, count, marks, c)) {
                marks[c] = 0;
                left--;
            }
        }
    }
    return left;
}
