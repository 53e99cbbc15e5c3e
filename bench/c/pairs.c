/* Pairs of a write and a read of so many bytes, through the C library and through the kernel's pipe, and the two copies
 * that such a pair can't do without (memcpy), in one process, by turns. Prints a line a size: bytes, nanoseconds a pair
 * through the library, through the kernel, of two copies, and the library's ratios to both.
 * One word: how many pairs of each size. With a second word, only pairs of so many bytes, at most 65,536, through the
 * library, for a count of instructions. */
#define _GNU_SOURCE
#include "../../include/sagthrey.h"
#include <fcntl.h>
#include <stdio.h>
#include <stdlib.h>
#include <string.h>
#include <time.h>
#include <unistd.h>

/* How many pairs are timed together. The least of all these times counts: what else the machine does only adds to
 * them. */
enum { BATCH = 100 };

static char source[65536], sink[65536], between[65536];

static double seconds(void) {
    struct timespec now;
    clock_gettime(CLOCK_MONOTONIC, &now);
    return (double)now.tv_sec + (double)now.tv_nsec * 1e-9;
}

static void stop(const char *what) {
    fprintf(stderr, "pairs: %s\n", what);
    exit(1);
}

static void ours(sag_hub *h, const uint32_t fds[2], size_t size, long pairs) {
    for (long i = 0; i < pairs; i++) {
        if (sag_write(h, 0, 1, fds[1], source, size) != (int64_t)size) stop("a write through the library");
        if (sag_read(h, 0, 1, fds[0], sink, size) != (int64_t)size) stop("a read through the library");
    }
}

static void kernels(const int ends[2], size_t size, long pairs) {
    for (long i = 0; i < pairs; i++) {
        if (write(ends[1], source, size) != (ssize_t)size) stop("a write through the kernel");
        if (read(ends[0], sink, size) != (ssize_t)size) stop("a read through the kernel");
    }
}

static void copies(size_t size, long pairs) {
    for (long i = 0; i < pairs; i++) {
        memcpy(between, source, size);
        __asm__ volatile("" ::: "memory");  /* so that each copy is made */
        memcpy(sink, between, size);
        __asm__ volatile("" ::: "memory");
    }
}

int main(int argc, char **argv) {
    long pairs = argc > 1 ? atol(argv[1]) : 100000;
    const sag_limits limits = {32, SAG_DEFAULT_SOFT, SAG_DEFAULT_HARD, SAG_DEFAULT_MAX};
    const uint32_t no_groups[1] = {0};
    uint32_t fds[2];
    int ends[2];
    sag_hub hub = SAG_SHUT;
    if (sag_open(32, &limits, 1, &hub) != 0) stop("no hub");
    if (sag_spawn(&hub, 0, 1000, 1000, no_groups, 0, 022) != 1 || sag_pipe(&hub, 0, 1, true, fds) != 0) stop("no pipe");
    if (argc > 2) {
        ours(&hub, fds, (size_t)atol(argv[2]), pairs);
        sag_free(&hub);
        return 0;
    }
    if (pipe(ends) != 0 || fcntl(ends[1], F_SETPIPE_SZ, 65536) < 0) stop("no pipe of the kernel's");
    const size_t sizes[] = {1, 64, 512, 4096, 65536};
    for (size_t s = 0; s < sizeof sizes / sizeof *sizes; s++) {
        double least = 1e9, least_kernel = 1e9, least_copies = 1e9;
        for (long done = 0; done < pairs; done += BATCH) {
            double start = seconds();
            ours(&hub, fds, sizes[s], BATCH);
            double middle = seconds();
            kernels(ends, sizes[s], BATCH);
            double end = seconds();
            copies(sizes[s], BATCH);
            double copied = seconds();
            if (middle - start < least) least = middle - start;
            if (end - middle < least_kernel) least_kernel = end - middle;
            if (copied - end < least_copies) least_copies = copied - end;
        }
        printf("%zu bytes: %.0f ns through the library, %.0f through the kernel, ratio %.3f; ", sizes[s],
            least * 1e9 / BATCH, least_kernel * 1e9 / BATCH, least / least_kernel);
        printf("%.0f for two copies, ratio %.2f\n", least_copies * 1e9 / BATCH, least / least_copies);
    }
    sag_free(&hub);
    return 0;
}
