// Pruning: takes candidates from individuals that are in no placement, or not in the first one.
#include "plain_placing.h"
#include <string.h>

// ---- one candidate a class

// The terms whose grades at individual j matter to another individual; gives their number.
static int list_read(const placing *p, int j, uint8_t read[MOST_TERMS]) {
    bool seen[MOST_TERMS] = {false};
    for (int x = 0; x < p->first[p->individuals]; x++) {
        const constraint *t = &p->constraints[x];
        if (t->source == t->target) continue;
        if (t->source == j) seen[t->own] = true;
        if (t->target == j) seen[t->child] = true;
    }
    int n = 0;
    for (int i = 0; i < MOST_TERMS; i++)
        if (seen[i]) read[n++] = i;
    return n;
}

// Some number made from the grades that are read.
static unsigned number(const uint8_t *row, const uint8_t *read, int n) {
    unsigned h = 0;
    for (int x = 0; x < n; x++) h = (31 * h + row[read[x]]) % 16381;
    return h;
}

static bool alike(const uint8_t *a, const uint8_t *b, const uint8_t *read, int n) {
    for (int x = 0; x < n; x++)
        if (a[read[x]] != b[read[x]]) return false;
    return true;
}

// `kept` has, for each number, one more than the last candidate kept that has it. Two classes may have one number: then some of a class are
// missed, and stay.
static void thin_one(placing *p, int j) {
    static uint16_t kept[16384];
    uint8_t read[MOST_TERMS], *may = p->table[j];
    int n = list_read(p, j, read);
    memset(kept, 0, sizeof kept);
    for (int c = 0; c < p->count; c++) {
        if (!may[c]) continue;
        uint16_t *last = &kept[number(p->rows[c], read, n)];
        if (*last && alike(p->rows[*last - 1], p->rows[c], read, n)) may[c] = 0;
        else *last = c + 1;
    }
}

// ---- gaps

// Notes in the cell of each candidate that is not allowed how many such there are from there on, and one.
static void note_gaps(uint8_t *may, int count) {
    int gap = 0;
    for (int c = count - 1; c >= 0; c--) {
        if (may[c] == 1) {
            gap = 0;
            continue;
        }
        if (gap < 254) gap++;
        may[c] = gap + 1;
    }
}

void thin(placing *p) {
    for (int j = 0; j < p->individuals; j++) {
        thin_one(p, j);
        note_gaps(p->table[j], p->count);
    }
}

// ---- arc consistency

// What is asked of a row: that the term's grade lies within low and high.
typedef struct {
    uint8_t term, low, high;
} bound;

// What the source's row asks of the target by a constraint.
static bound of_target(int steps, const constraint *t, const uint8_t *source) {
    int own = source[t->own];
    bound b = {t->child, 0, steps};
    if (t->kind == SOME && own < t->level) b.high = own;
    if (t->kind == ALL && own > steps - t->level) b.low = own;
    return b;
}

// What the target's row asks of the source.
static bound of_source(int steps, const constraint *t, const uint8_t *target) {
    int child = target[t->child], least = steps - t->level;
    bound b = {t->own, 0, steps};
    if (t->kind == SOME) b.low = child < t->level ? child : t->level;
    else b.high = child > least ? child : least;
    return b;
}

// The box: what the row of individual j asks of the other one by the n constraints between them; gives the number of bounds.
static int make_box(int steps, const constraint *constraints, int n, int j, const uint8_t *row, bound *box) {
    int m = 0;
    for (int x = 0; x < n; x++) {
        const constraint *t = &constraints[x];
        bound b = t->source == j ? of_target(steps, t, row) : of_source(steps, t, row);
        if (b.low > 0 || b.high < steps) box[m++] = b;
    }
    return m;
}

static bool inside(const bound *box, int m, const uint8_t *row) {
    for (int x = 0; x < m; x++) {
        int g = row[box[x].term];
        if (g < box[x].low || box[x].high < g) return false;
    }
    return true;
}

// The first candidate from c on and below `end` that individual i may have and that is inside the box; `end` or more if there is none.
static int seek(const placing *p, const bound *box, int m, int i, int c, int end) {
    const uint8_t *may = p->table[i];
    for (c = next_allowed(may, c, end); c < end; c = next_allowed(may, c + 1, end))
        if (inside(box, m, p->rows[c])) break;
    return c;
}

// Whether there is one at all. The search begins at the one that was found last time, which often is inside the next box too.
static bool seek_around(const placing *p, const bound *box, int m, int i, int *hint) {
    int d = seek(p, box, m, i, *hint, p->count);
    if (d >= p->count) {
        d = seek(p, box, m, i, 0, *hint);
        if (d >= *hint) return false;
    }
    *hint = d;
    return true;
}

// Selects the constraints between two individuals; gives their number.
static int select_constraints(const placing *p, int earlier, int later, constraint *constraints) {
    int n = 0;
    for (int x = p->others[later]; x < p->first[later + 1]; x++)
        if (p->constraints[x].source == earlier || p->constraints[x].target == earlier) constraints[n++] = p->constraints[x];
    return n;
}

// Takes from individual j the candidates with which none fits that i may have. Whether there was one.
static bool revise(placing *p, int j, int i) {
    constraint constraints[MOST_CONSTRAINTS];
    bound box[MOST_CONSTRAINTS];
    int n = i < j ? select_constraints(p, i, j, constraints) : select_constraints(p, j, i, constraints);
    if (n == 0) return false;
    bool taken = false;
    uint8_t *may = p->table[j];
    int hint = 0;
    for (int c = next_allowed(may, 0, p->count); c < p->count; c = next_allowed(may, c + 1, p->count)) {
        int m = make_box(p->steps, constraints, n, j, p->rows[c], box);
        if (m == 0 || seek_around(p, box, m, i, &hint)) continue;
        may[c] = 0;
        taken = true;
    }
    return taken;
}

// Takes from individual j the candidates with which some other individual has none that fits. Whether there was one.
static bool revise_all(placing *p, int j) {
    bool taken = false;
    for (int i = 0; i < p->individuals; i++)
        if (i != j && revise(p, j, i)) taken = true;
    if (taken) note_gaps(p->table[j], p->count);
    return taken;
}

void prune(placing *p) {
    for (bool taken = true; taken;) {
        taken = false;
        for (int j = 0; j < p->individuals; j++)
            if (revise_all(p, j)) taken = true;
    }
}
