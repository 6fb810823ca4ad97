// What both ways of elimination share: the quantified terms as slots, what a candidate gives them, and boxes.
#include "plain_elimination.h"
#include <string.h>

slots collect_slots(const book *k) {
    slots s = {.steps = k->steps};
    memcpy(s.upward, k->upward, sizeof s.upward);
    for (int i = 0; i < k->term_count; i++) {
        const uint8_t *t = k->terms + 3 * i;
        if (t[0] == SOME || t[0] == ALL) s.at[s.count++] = (slot){t[0], t[1], i, t[2]};
    }
    return s;
}

static bool meets_rules(const book *k, const uint8_t *row) {
    for (int i = 0; i < k->rule_count; i++)
        if (row[k->rules[2 * i]] > row[k->rules[2 * i + 1]]) return false;
    return true;
}

bool read_candidate(const book *k, const slots *s, int c, uint8_t own[MOST_QUANTIFIED], uint8_t child[MOST_QUANTIFIED]) {
    uint8_t row[MOST_TERMS];
    grades(k, c, row);
    for (int q = 0; q < s->count; q++) {
        own[q] = row[s->at[q].term];
        child[q] = row[s->at[q].child];
    }
    return meets_rules(k, row);
}

// With the link that the grade asks for, an "all" that the link does not excuse asks its child for its own grade or more, a "some" for its own
// grade or less.
void make_box(const slots *s, const uint8_t *own, int q, uint8_t low[MOST_QUANTIFIED], uint8_t high[MOST_QUANTIFIED]) {
    int grade = own[q];
    int link = s->at[q].kind == SOME ? grade : s->steps - grade;
    for (int j = 0; j < s->count; j++) {
        int g = own[j];
        low[j] = 0;
        high[j] = s->steps;
        if (!binds(s->upward, s->at[j].role, s->at[q].role)) continue;
        if (s->at[j].kind == ALL && g > s->steps - link) low[j] = g;
        if (s->at[j].kind == SOME && g < link) high[j] = g;
    }
    if (s->at[q].kind == SOME) low[q] = grade;
    else high[q] = grade;
}
