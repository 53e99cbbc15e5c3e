/* What a service keeps of pairs of a write and a read, kept by threads that do nothing else: of each event 56 bytes
 * behind those of one vector and 64 behind those of another, and of a pair of a page a block for the bytes that were
 * read. Prints nanoseconds of the clock for a pair, by one thread, and for a pair of each of four at once.
 * One word: how many pairs of a byte; of a page it's a tenth. */
#include <pthread.h>
#include <stdio.h>
#include <stdlib.h>
#include <string.h>
#include <time.h>

enum { THREADS = 4, ENTRY = 56, EVENT = 64, PAGE = 4096 };

/* As much room again whenever there is none, as the service's vectors have it. */
struct vector {
    char *bytes;
    size_t used, room;
};

/* What a thread keeps: so many pairs of so many bytes. */
struct record {
    long pairs;
    size_t size;
};

static double seconds(void) {
    struct timespec now;
    clock_gettime(CLOCK_MONOTONIC, &now);
    return (double)now.tv_sec + (double)now.tv_nsec * 1e-9;
}

static void *checked(void *memory) {
    if (!memory) {
        fprintf(stderr, "record: no memory\n");
        exit(1);
    }
    return memory;
}

static void append(struct vector *to, const char *from, size_t size) {
    if (to->used + size > to->room) {
        to->room = to->room ? 2 * to->room : 4 * size;
        to->bytes = checked(realloc(to->bytes, to->room));
    }
    memcpy(to->bytes + to->used, from, size);
    to->used += size;
}

/* The record stays until the program ends, as a service's does until it is closed. */
static void *keep(void *word) {
    const struct record *record = word;
    struct vector entries = {0, 0, 0}, events = {0, 0, 0};
    char event[EVENT] = {1};
    for (long i = 0; i < record->pairs; i++) {
        for (int step = 0; step < 2; step++) {
            append(&entries, event, ENTRY);
            append(&events, event, EVENT);
        }
        if (record->size > 1) memset(checked(malloc(record->size)), 1, record->size);
    }
    return 0;
}

/* Nanoseconds for a pair of each of so many threads. */
static double timed(int threads, struct record record) {
    pthread_t each[THREADS];
    double start = seconds();
    for (int i = 0; i < threads; i++) {
        if (pthread_create(&each[i], 0, keep, &record)) checked(0);
    }
    for (int i = 0; i < threads; i++) pthread_join(each[i], 0);
    return (seconds() - start) * 1e9 / (double)record.pairs;
}

int main(int argc, char **argv) {
    long pairs = argc > 1 ? atol(argv[1]) : 50000;
    const struct record records[2] = {{pairs, 1}, {(pairs + 9) / 10, PAGE}};
    for (int i = 0; i < 2; i++) {
        printf("record %zu bytes: %.0f ns a pair of one thread", records[i].size, timed(1, records[i]));
        printf("; %.0f for a pair of each of %d at once\n", timed(THREADS, records[i]), THREADS);
    }
}
