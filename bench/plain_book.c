// A book's sections, and the grades of its candidates.
#include "plain_book.h"
#include <string.h>

static int two_bytes(const uint8_t *b) { return b[0] << 8 | b[1]; }

// Each role reaches itself and the upper role of each pair whose lower role it is; then by way of each role in turn.
static void reach_upward(book *k, const uint8_t *pairs, int count) {
    for (int r = 0; r < ROLES; r++) k->upward[r] = 1 << r;
    for (int i = 0; i < count; i++) k->upward[pairs[2 * i]] |= 1 << pairs[2 * i + 1];
    for (int by = 0; by < ROLES; by++)
        for (int r = 0; r < ROLES; r++)
            if (binds(k->upward, by, r)) k->upward[r] |= k->upward[by];
}

// Copies the terms. Of those that have one name all but the first become repeated ones.
static void copy_terms(book *k, const uint8_t *terms) {
    int next[NAMES] = {0}; // one more than the name's first term; 0 before that
    memcpy(k->terms, terms, 3 * k->term_count);
    for (int i = 0; i < k->term_count; i++) {
        uint8_t *t = k->terms + 3 * i;
        if (t[0] != NAME) continue;
        int first = next[t[1]] - 1;
        if (first < 0) {
            next[t[1]] = i + 1;
        } else {
            t[0] = REPEATED;
            t[1] = first;
        }
    }
}

book sections(const uint8_t *b) {
    book k = {
        .steps = b[1],
        .term_count = two_bytes(b + 4),
        .rules = b + two_bytes(b + 6),
        .rule_count = two_bytes(b + 8),
        .members = b + two_bytes(b + 10),
        .member_count = two_bytes(b + 12),
        .links = b + two_bytes(b + 14),
        .link_count = two_bytes(b + 16),
    };
    copy_terms(&k, b + two_bytes(b + 2));
    if (b[0] == 2) reach_upward(&k, b + two_bytes(b + 18), two_bytes(b + 20));
    else reach_upward(&k, NULL, 0);
    return k;
}

static bool is_place(int kind) { return kind == NAME || kind == SOME || kind == ALL; }

int count_candidates(const book *k) {
    int count = 1;
    for (int i = 0; i < k->term_count; i++) {
        if (!is_place(k->terms[3 * i])) continue;
        count *= k->steps + 1;
        if (count > MOST_CANDIDATES) return 0;
    }
    return count;
}

int count_individuals(const book *k) {
    int most = 0;
    for (int i = 0; i < k->member_count; i++)
        for (int j = most; j < MOST_INDIVIDUALS; j++)
            if (is_about(k->members + 4 * i, j)) most = j + 1;
    for (int i = 0; i < k->link_count; i++) {
        if (k->links[4 * i + 1] >= most) most = k->links[4 * i + 1] + 1;
        if (k->links[4 * i + 2] >= most) most = k->links[4 * i + 2] + 1;
    }
    return most;
}

void grades(const book *k, unsigned c, uint8_t row[MOST_TERMS]) {
    unsigned base = k->steps + 1;
    for (int i = 0; i < k->term_count; i++) {
        const uint8_t *t = k->terms + 3 * i;
        switch (t[0]) {
        case NOT: row[i] = k->steps - row[t[1]]; break;
        case AND: row[i] = row[t[1]] < row[t[2]] ? row[t[1]] : row[t[2]]; break;
        case OR: row[i] = row[t[1]] > row[t[2]] ? row[t[1]] : row[t[2]]; break;
        case TOP: row[i] = k->steps; break;
        case BOTTOM: row[i] = 0; break;
        case REPEATED: row[i] = row[t[1]]; break;
        default: row[i] = c % base; c /= base;
        }
    }
}
