// Measures how much stack the product uses for deciding, and for the table of implied rules: each call is made on a thread whose stack was painted,
// and afterwards the paint is looked for from the far end.
#define _GNU_SOURCE
#include "../include/zegbiko.h"
#include "books.h"
#include "plain.h"
#include <pthread.h>
#include <stdlib.h>
#include <string.h>
#include <sys/mman.h>

enum { STACK_BYTES = 16 << 20, PAINT = 0xA7 };

static hard_book book;
static uint8_t marks[MOST_CANDIDATES], placement[PLACEMENT_BYTES], table[ZEGBIKO_TABLE];
static uint8_t *stack; // its lowest byte; a stack grows downwards
static uint8_t *start; // where the thread's own frame ends and the call begins

static void *decide(void *unused) {
    (void)unused;
    start = __builtin_frame_address(0);
    zegbiko_decide(book.bytes, book.length, marks, sizeof marks, placement, sizeof placement);
    return NULL;
}

static void *imply(void *unused) {
    (void)unused;
    start = __builtin_frame_address(0);
    zegbiko_implied_rules(book.bytes, book.length, marks, sizeof marks, table, sizeof table);
    return NULL;
}

static void must(int right, const char *what) {
    if (right) return;
    fprintf(stderr, "%s failed\n", what);
    exit(2);
}

// The bytes between the call and the lowest one that lost its paint.
static size_t used(void *call(void *)) {
    pthread_t thread;
    pthread_attr_t where;
    memset(stack, PAINT, STACK_BYTES);
    must(pthread_attr_init(&where) == 0 && pthread_attr_setstack(&where, stack, STACK_BYTES) == 0, "placing a stack");
    must(pthread_create(&thread, &where, call, NULL) == 0 && pthread_join(thread, NULL) == 0, "a thread");
    uint8_t *low = stack;
    while (*low == PAINT) low++;
    return start - low;
}

int main(int argc, char **argv) {
    (void)argc;
    book_files files = {.names = argv + 1};
    static hard_book worst[2];
    static void *(*const calls[])(void *) = {decide, imply};
    size_t most[2] = {0};
    stack = mmap(NULL, STACK_BYTES, PROT_READ | PROT_WRITE, MAP_PRIVATE | MAP_ANONYMOUS | MAP_STACK, -1, 0);
    must(stack != MAP_FAILED, "a stack");
    while (next_book(&files, &book)) {
        printf("%-24s", book.name);
        for (int i = 0; i < 2; i++) {
            size_t bytes = used(calls[i]);
            printf(" %9zu bytes", bytes);
            if (bytes <= most[i]) continue;
            most[i] = bytes;
            worst[i] = book;
        }
        printf("\n");
        fflush(stdout);
    }
    printf("most stack used for implied rules: %zu bytes (%s)\n", most[1], worst[1].name);
    printf("most stack used: %zu bytes (%s)\n", most[0], worst[0].name);
    return 0;
}
