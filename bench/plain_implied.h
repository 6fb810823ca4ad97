// The table of implied rules, plainly.
#ifndef PLAIN_IMPLIED_H
#define PLAIN_IMPLIED_H
#include "plain_book.h"

// Fills a byte for each ordered pair of terms, row by row: 1 if no marked candidate grades the left term above the right one, else 0.
void plain_implied_rules(const uint8_t *book, const uint8_t *marks, uint8_t *table);

#endif
