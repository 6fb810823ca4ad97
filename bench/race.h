// Deciders on the same books, in turn.
#ifndef RACE_H
#define RACE_H
#include "books.h"

enum { MOST_RACERS = 3 };

typedef struct {
    size_t outcome, survivors; // outcome 0: refused
} verdict;

typedef struct {
    const char *name;
    verdict (*decide)(const hard_book *b, uint8_t *marks, uint8_t *placement);
} racer;

// Milliseconds that this thread has had of the processor: what others do on the machine does not count.
double clock_ms(void);

// Prints, for each book of the files, the best time of each of two or three deciders in so many rounds or more, and the last one's as a
// multiple of each other's. Gives the exit status: 1 if there is no book, or any difference of answers, from each other or from what the file
// says.
int race(const racer *racers, int count, int rounds, book_files files);

#endif
