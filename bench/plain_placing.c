// Placing the individuals: a filter by what is claimed of each alone, pruning, and then a depth-first search.
#include "plain_placing.h"

static placing tables; // too large for a stack

static void fill_rows(placing *p, const book *k, const uint8_t *marks) {
    for (int c = 0; c < p->count; c++)
        if (marks[c]) grades(k, c, p->rows[c]);
}

// Appends the constraints of a link claim, one for each quantified term that binds its role; gives their number.
static int add_constraints(placing *p, const book *k, const uint8_t *link, int n) {
    for (int i = 0; i < k->term_count; i++) {
        const uint8_t *t = k->terms + 3 * i;
        bool quantified = t[0] == SOME || t[0] == ALL;
        if (quantified && binds(k->upward, t[1], link[0])) p->constraints[n++] = (constraint){link[1], link[2], t[0], link[3], i, t[2]};
    }
    return n;
}

// Appends the constraints of the link claims whose later individual is j: those of j and itself, or those of j and an earlier one.
static int add_claims(placing *p, const book *k, int j, bool itself, int n) {
    for (int i = 0; i < k->link_count; i++) {
        const uint8_t *l = k->links + 4 * i;
        int later = l[1] > l[2] ? l[1] : l[2];
        if (later == j && (l[1] == l[2]) == itself) n = add_constraints(p, k, l, n);
    }
    return n;
}

static void collect_constraints(placing *p, const book *k) {
    int n = 0;
    for (int j = 0; j < p->individuals; j++) {
        p->first[j] = n;
        n = p->others[j] = add_claims(p, k, j, true, n);
        n = add_claims(p, k, j, false, n);
    }
    p->first[p->individuals] = n;
}

// Whether the rows of the source and of the target meet the constraint.
static bool met(int steps, const constraint *t, const uint8_t *source, const uint8_t *target) {
    int own = source[t->own], child = target[t->child];
    if (t->kind == SOME) return (child < t->level ? child : t->level) <= own;
    return own <= (child > steps - t->level ? child : steps - t->level);
}

static bool meets_members(const book *k, int j, const uint8_t *row) {
    for (int i = 0; i < k->member_count; i++) {
        const uint8_t *m = k->members + 4 * i;
        if (is_about(m, j) && !is_as_claimed(m, row[m[1]])) return false;
    }
    return true;
}

static bool meets_itself(const placing *p, int j, const uint8_t *row) {
    for (int x = p->first[j]; x < p->others[j]; x++)
        if (!met(p->steps, &p->constraints[x], row, row)) return false;
    return true;
}

static void filter(placing *p, const book *k, const uint8_t *marks) {
    for (int c = 0; c < p->count; c++)
        for (int j = 0; j < p->individuals; j++)
            p->table[j][c] = marks[c] && meets_members(k, j, p->rows[c]) && meets_itself(p, j, p->rows[c]);
}

static bool someone_has_none(const placing *p) {
    for (int j = 0; j < p->individuals; j++)
        if (next_allowed(p->table[j], 0, p->count) >= p->count) return true;
    return false;
}

// Whether the last of those placed meets the constraints with those before it.
static bool fits(const placing *p, const int *at, int last) {
    for (int x = p->others[last]; x < p->first[last + 1]; x++) {
        const constraint *t = &p->constraints[x];
        if (!met(p->steps, t, p->rows[at[t->source]], p->rows[at[t->target]])) return false;
    }
    return true;
}

// Places each individual at the first candidate that fits those before it; false if there is none for one of them.
static bool place_at_once(const placing *p, int *at) {
    for (int j = 0; j < p->individuals; j++) {
        at[j] = next_allowed(p->table[j], 0, p->count);
        while (at[j] < p->count && !fits(p, at, j)) at[j] = next_allowed(p->table[j], at[j] + 1, p->count);
        if (at[j] >= p->count) return false;
    }
    return true;
}

static bool search(const placing *p, int next, int *at) {
    if (next == p->individuals) return true;
    const uint8_t *may = p->table[next];
    for (int c = next_allowed(may, 0, p->count); c < p->count; c = next_allowed(may, c + 1, p->count)) {
        at[next] = c;
        if (fits(p, at, next) && search(p, next + 1, at)) return true;
    }
    return false;
}

bool place(const book *k, int count, int individuals, const uint8_t *marks, int at[MOST_INDIVIDUALS]) {
    placing *p = &tables;
    p->steps = k->steps;
    p->count = count;
    p->individuals = individuals;
    fill_rows(p, k, marks);
    collect_constraints(p, k);
    filter(p, k, marks);
    if (someone_has_none(p)) return false;
    thin(p);
    if (place_at_once(p, at)) return true;
    prune(p);
    return !someone_has_none(p) && search(p, 0, at);
}
