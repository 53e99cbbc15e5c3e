/* The peer of crates/pf_bench: the same pairs of a write and a read through the kernel's pipe, in one process,
 * and through two memcpy. Prints a line a size: bytes, nanoseconds a pair through the pipe, through memcpy.
 * Then the same tees and splices from one pipe to another, after which both are read empty. Prints a line a size:
 * bytes, nanoseconds of the tee alone, of the splice alone, the clock's own taken off. */
#define _GNU_SOURCE
#include <fcntl.h>
#include <stdio.h>
#include <stdlib.h>
#include <string.h>
#include <time.h>
#include <unistd.h>

/* How many pairs, tees or splices are timed together. The least of all these times counts: what else the machine
 * does only adds to them. */
enum { BATCH = 100 };

static double seconds(void) {
    struct timespec now;
    clock_gettime(CLOCK_MONOTONIC, &now);
    return (double)now.tv_sec + (double)now.tv_nsec * 1e-9;
}

static char source[65536], page[65536], sink[65536];

enum crossing { TEE, SPLICE };

static ssize_t cross(enum crossing crossing, int from, int to, size_t size) {
    if (crossing == TEE) return tee(from, to, size, SPLICE_F_NONBLOCK);
    return splice(from, NULL, to, NULL, size, SPLICE_F_NONBLOCK);
}

/* Nanoseconds of a tee or a splice alone; below 0 where a call moved another number of bytes. */
static double time_crossing(enum crossing crossing, const int *source_ends, const int *sink_ends, size_t size, long rounds) {
    double least = 1e9, least_clock = 1e9;
    for (long done = 0; done < rounds; done += BATCH) {
        double spent = 0, clock = 0;
        for (int i = 0; i < BATCH; i++) {
            if (write(source_ends[1], source, size) != (ssize_t)size) return -1;
            double start = seconds();
            ssize_t crossed = cross(crossing, source_ends[0], sink_ends[1], size);
            spent += seconds() - start;
            start = seconds();
            clock += seconds() - start;
            if (crossed != (ssize_t)size) return -1;
            if (read(sink_ends[0], sink, size) != (ssize_t)size) return -1;
            if (crossing == TEE && read(source_ends[0], sink, size) != (ssize_t)size) return -1;
        }
        if (spent < least) least = spent;
        if (clock < least_clock) least_clock = clock;
    }
    return (least - least_clock) * 1e9 / BATCH;
}

int main(int argc, char **argv) {
    long pairs = argc > 1 ? atol(argv[1]) : 500000;
    size_t sizes[] = {1, 64, 512, 4096, 65536};
    size_t crossed_sizes[] = {1, 65536};
    int ends[2], sink_ends[2];
    if (pipe(ends) != 0 || pipe(sink_ends) != 0) return 1;
    if (fcntl(ends[1], F_SETPIPE_SZ, 65536) < 0 || fcntl(sink_ends[1], F_SETPIPE_SZ, 65536) < 0) return 1;
    memset(source, 97, sizeof source);
    for (size_t k = 0; k < sizeof sizes / sizeof *sizes; k++) {
        size_t size = sizes[k];
        double piped = 1e9, copied = 1e9;
        for (long done = 0; done < pairs; done += BATCH) {
            double start = seconds();
            for (int i = 0; i < BATCH; i++) {
                if (write(ends[1], source, size) != (ssize_t)size) return 1;
                if (read(ends[0], sink, size) != (ssize_t)size) return 1;
            }
            double spent = seconds() - start;
            if (spent < piped) piped = spent;
        }
        for (long done = 0; done < pairs; done += BATCH) {
            double start = seconds();
            for (int i = 0; i < BATCH; i++) {
                memcpy(page, source, size);
                __asm__ volatile("" : : "r"(page), "r"(source) : "memory");
                memcpy(sink, page, size);
                __asm__ volatile("" : : "r"(sink), "r"(page) : "memory");
            }
            double spent = seconds() - start;
            if (spent < copied) copied = spent;
        }
        printf("kernel %zu bytes: %.1f ns a pair; two memcpy: %.1f ns\n", size, piped * 1e9 / BATCH, copied * 1e9 / BATCH);
    }
    for (size_t k = 0; k < sizeof crossed_sizes / sizeof *crossed_sizes; k++) {
        size_t size = crossed_sizes[k];
        double teed = time_crossing(TEE, ends, sink_ends, size, pairs);
        double spliced = time_crossing(SPLICE, ends, sink_ends, size, pairs);
        if (teed < 0 || spliced < 0) return 1;
        printf("kernel %zu bytes: %.1f ns a tee, %.1f ns a splice\n", size, teed, spliced);
    }
    return 0;
}
