// The table of implied rules, as one would write it in C: the grades of the marked candidates, then for each two terms the candidates until one
// refutes that the left term is nowhere greater.
#include "plain_implied.h"

static uint8_t rows[MOST_CANDIDATES][MOST_TERMS];

static int fill(const book *k, const uint8_t *marks) {
    int count = count_candidates(k), n = 0;
    for (int c = 0; c < count; c++)
        if (marks[c]) grades(k, c, rows[n++]);
    return n;
}

static bool bounds(int n, int left, int right) {
    for (int i = 0; i < n; i++)
        if (rows[i][left] > rows[i][right]) return false;
    return true;
}

void plain_implied_rules(const uint8_t *bytes, const uint8_t *marks, uint8_t *table) {
    book k = sections(bytes);
    int n = fill(&k, marks);
    for (int left = 0; left < k.term_count; left++)
        for (int right = 0; right < k.term_count; right++) *table++ = bounds(n, left, right);
}
