/* Each call of the library, with results that are wanted of it: what the manual pages that sagthrey.h names and
 * docs/SPECIFICATION.md say. Each error that the header names is told, paths are of up to 1,023 bytes, and calls wait.
 *
 * The heap is this program's: the linker puts the functions below in place of malloc, realloc and free (--wrap). So it
 * is counted what the library gives back; and all is done twice, first with ample memory, then with each request that a
 * call makes refused in turn. A call tells SAG_NOMEM only where a request was refused, and made again it tells what it
 * tells with ample memory. One that wants no memory makes no request. wrong/bodies.c has wrong libraries, and this
 * program finds each out. */
#include "../../include/sagthrey.h"
#include <errno.h>
#include <stdio.h>
#include <stdlib.h>
#include <string.h>

enum { PAGE = 4096, PIPE = 16 * PAGE, LONGEST_WRITE = 1048576, LONGEST_PATH = 1023, UNTOUCHED = 0xee, STALE = 0xa5 };
enum { IN_PLACE = 14 }; /* so many bytes are kept without memory of the heap */

/* The heap */

static struct {
    size_t held;    /* how many blocks were asked for and not given back */
    size_t granted; /* how many requests more are granted, SIZE_MAX: all */
    bool refused;   /* whether one was refused since */
} heap = {0, SIZE_MAX, false};

void *__real_malloc(size_t size);
void *__real_realloc(void *block, size_t size);
void __real_free(void *block);
void *__wrap_malloc(size_t size);
void *__wrap_realloc(void *block, size_t size);
void __wrap_free(void *block);

static void heap_grants(size_t requests) {
    heap.granted = requests;
    heap.refused = false;
}

static bool is_granted(void) {
    heap.refused = heap.refused || heap.granted == 0;
    if (heap.granted > 0 && heap.granted < SIZE_MAX) heap.granted--;
    return !heap.refused;
}

void *__wrap_malloc(size_t size) {
    void *block = is_granted() ? __real_malloc(size) : NULL;
    if (block == NULL) return NULL;
    heap.held++;
    return memset(block, STALE, size);
}

void *__wrap_realloc(void *block, size_t size) {
    void *moved = is_granted() ? __real_realloc(block, size) : NULL;
    heap.held += block == NULL && moved != NULL;
    return moved;
}

void __wrap_free(void *block) {
    heap.held -= block != NULL;
    __real_free(block);
}

/* What is wanted */

static bool refuses; /* whether each request is refused in turn */

static void want(bool holds, int line, const char *what) {
    if (holds) return;
    printf("each_call.c:%d: this doesn't hold: %s\n", line, what);
    exit(1);
}
#define WANT(e) want((e), __LINE__, #e)

static void compare(int line, const char *call, int64_t wanted, int64_t told) {
    heap_grants(SIZE_MAX);
    if (told == wanted) return;
    printf("each_call.c:%d: %s tells %lld and was to tell %lld\n", line, call, (long long)told, (long long)wanted);
    exit(1);
}

/* A call tells this. Where requests are refused, it is made again with one more of them granted. */
#define TELLS(wanted, ...)                                        \
    do {                                                          \
        size_t granted = refuses ? 0 : SIZE_MAX;                  \
        int64_t told;                                             \
        do {                                                      \
            heap_grants(granted++);                               \
            told = (int64_t)(__VA_ARGS__);                        \
        } while (told == SAG_NOMEM && heap.refused);              \
        compare(__LINE__, #__VA_ARGS__, (int64_t)(wanted), told); \
    } while (0)

/* The same though its one request is refused: it copies bytes of its caller's before it is found that nobody lives. */
#define TELLS_THOUGH_REFUSED(wanted, ...)                                     \
    do {                                                                      \
        heap_grants(refuses ? 0 : SIZE_MAX);                                  \
        int64_t told = (int64_t)(__VA_ARGS__);                                \
        compare(__LINE__, #__VA_ARGS__, (int64_t)(wanted), told);             \
    } while (0)

/* The same of a call that wants no memory, and makes no request. */
#define TELLS_WITHOUT_HEAP(wanted, ...)                                       \
    do {                                                                      \
        heap_grants(0);                                                       \
        int64_t told = (int64_t)(__VA_ARGS__);                                \
        want(!heap.refused, __LINE__, "no request is made by " #__VA_ARGS__); \
        compare(__LINE__, #__VA_ARGS__, (int64_t)(wanted), told);             \
    } while (0)

/* The hub that all calls go to, and what they are given */

static sag_hub hub = SAG_SHUT;
static const uint32_t no_groups[1] = {0};
static uint8_t pattern[LONGEST_WRITE + 1], copy[LONGEST_WRITE], into[LONGEST_WRITE + 1], path[LONGEST_PATH + 1];

#define PATH(text) (text), sizeof(text) - 1

/* Whether the buffer has so many bytes of the pattern, from a place of it on, and is behind them as it was. */
static bool got(size_t from, size_t count) {
    bool is_same = memcmp(into, pattern + from, count) == 0;
    for (size_t i = count; i < sizeof into; i++) is_same = is_same && into[i] == UNTOUCHED;
    memset(into, UNTOUCHED, sizeof into);
    return is_same;
}

/* Opens the hub with one namespace of these limits, for which all frames are kept. */
static void begin(uint32_t reserve, uint32_t soft, uint32_t hard) {
    const sag_limits limits = {reserve, soft, hard, SAG_DEFAULT_MAX};
    WANT(heap.held == 0);
    TELLS(0, sag_open(reserve, &limits, 1, &hub));
}

/* Frees the hub with all that is left in it, and then a shut handle. */
static void end(void) {
    heap_grants(0);
    sag_free(&hub);
    WANT(heap.held == 0 && !heap.refused);
    sag_free(&hub);
    TELLS_WITHOUT_HEAP(false, sag_lives(&hub, 0));
    WANT(heap.held == 0);
    heap_grants(SIZE_MAX);
}

/* What the pipe of a descriptor is ready for. */
static bool is_ready(uint32_t pid, uint32_t fd, uint64_t bytes, uint64_t room, bool has_reader, bool has_writer) {
    sag_ready ready = {7, 7, !has_reader, !has_writer};
    TELLS_WITHOUT_HEAP(0, sag_readiness(&hub, 0, pid, fd, &ready));
    return ready.bytes == bytes && ready.room == room && ready.has_reader == has_reader &&
           ready.has_writer == has_writer;
}

/* Each call of a process that is refused where there is none, with arguments that would do: for what is the same of
 * all. */
static int64_t step(int which, uint32_t ns, uint32_t pid) {
    uint32_t fds[2];
    sag_meta meta;
    switch (which) {
    case 0: return sag_exit(&hub, ns, pid);
    case 1: return sag_resume(&hub, ns, pid, into, sizeof into);
    case 2: return sag_fork(&hub, ns, pid);
    case 3: return sag_pipe(&hub, ns, pid, false, fds);
    case 4: return sag_read(&hub, ns, pid, 0, into, 1);
    case 5: return sag_write(&hub, ns, pid, 1, pattern, 1);
    case 6: return sag_tee(&hub, ns, pid, 0, 3, 1, true);
    case 7: return sag_splice(&hub, ns, pid, 0, 3, 1, true);
    case 8: return sag_set_pipe_size(&hub, ns, pid, 0, PAGE);
    case 9: return sag_pipe_size(&hub, ns, pid, 0);
    case 10: return sag_close(&hub, ns, pid, 0);
    case 11: return sag_dup(&hub, ns, pid, 0);
    case 12: return sag_set_nonblock(&hub, ns, pid, 0, true);
    case 13: return sag_mkdir(&hub, ns, pid, PATH("/d"), 0700);
    case 14: return sag_mkfifo(&hub, ns, pid, PATH("/f"), 0600);
    case 15: return sag_unlink(&hub, ns, pid, PATH("/f"));
    case 16: return sag_rmdir(&hub, ns, pid, PATH("/d"));
    case 17: return sag_chmod(&hub, ns, pid, PATH("/f"), 0600);
    case 18: return sag_open_path(&hub, ns, pid, PATH("/f"), SAG_READ | SAG_WRITE);
    case 19: return sag_stat(&hub, ns, pid, PATH("/f"), &meta);
    case 20: return sag_list(&hub, ns, pid, PATH("/"), into, sizeof into);
    case 21: return sag_readiness(&hub, ns, pid, 0, &(sag_ready){0, 0, false, false});
    }
    return 0;
}
enum { EXIT = 0, RESUME = 1, STEPS = 22 };

/* Each call with a path. */
static int64_t walk(int which, uint32_t pid, const void *at, size_t length) {
    sag_meta meta;
    switch (which) {
    case 0: return sag_mkdir(&hub, 0, pid, at, length, 0700);
    case 1: return sag_mkfifo(&hub, 0, pid, at, length, 0600);
    case 2: return sag_unlink(&hub, 0, pid, at, length);
    case 3: return sag_rmdir(&hub, 0, pid, at, length);
    case 4: return sag_chmod(&hub, 0, pid, at, length, 0700);
    case 5: return sag_open_path(&hub, 0, pid, at, length, SAG_READ | SAG_NONBLOCK);
    case 6: return sag_stat(&hub, 0, pid, at, length, &meta);
    case 7: return sag_list(&hub, 0, pid, at, length, into, sizeof into);
    }
    return 0;
}
enum { WALKS = 8 };

/* Hubs */

static void hubs(void) {
    sag_limits limits[65];
    for (int i = 0; i < 65; i++) limits[i] = (sag_limits){1, SAG_DEFAULT_SOFT, SAG_DEFAULT_HARD, 65536};
    sag_limits wrong[] = {{65537, 0, 0, 65536}, {0, 0, 0, 65535}, {0, 0, 0, 32768}, {0, 0, 0, 536870912}};
    for (size_t i = 0; i < sizeof wrong / sizeof *wrong; i++) {
        TELLS_WITHOUT_HEAP(-EINVAL, sag_open(65536, &wrong[i], 1, &hub));
    }
    TELLS_WITHOUT_HEAP(-EINVAL, sag_open(65537, limits, 1, &hub)); /* too many frames */
    TELLS_WITHOUT_HEAP(-EINVAL, sag_open(65, limits, 65, &hub));   /* too many namespaces */
    TELLS_WITHOUT_HEAP(-EINVAL, sag_open(63, limits, 64, &hub));   /* too few frames for the reservations */
    TELLS_WITHOUT_HEAP(0, sag_free_frames(&hub));
    TELLS(0, sag_open(0, limits, 0, &hub)); /* of nothing */
    TELLS_WITHOUT_HEAP(false, sag_lives(&hub, 0));
    end();

    TELLS(0, sag_open(100, limits, 64, &hub));
    TELLS_WITHOUT_HEAP(100, sag_free_frames(&hub));
    TELLS_WITHOUT_HEAP(-EBUSY, sag_open(100, limits, 64, &hub));
    TELLS_WITHOUT_HEAP(-EBUSY, sag_open(63, limits, 64, &hub));
    TELLS_WITHOUT_HEAP(true, sag_lives(&hub, 0) && sag_lives(&hub, 63));
    TELLS_WITHOUT_HEAP(false, sag_lives(&hub, 64));
    TELLS_WITHOUT_HEAP(0, sag_held(&hub, 63));
    TELLS_WITHOUT_HEAP(SAG_NONAMESPACE, sag_held(&hub, 64));
    end();

    if (refuses) return;
    limits[0].reserve = 65536;
    TELLS(0, sag_open(65536, limits, 1, &hub));
    TELLS_WITHOUT_HEAP(65536, sag_free_frames(&hub));
    end();
}

/* A namespace is admitted and retired, and gives back all that it had; the numbers and the places come to an end. */
static void namespaces(void) {
    const sag_limits none = {0, 0, 0, 65536}, all = {32, 0, 0, 65536}, more = {65537, 0, 0, 65536};
    uint32_t fds[2];
    begin(1, 0, 0);
    TELLS_WITHOUT_HEAP(-EINVAL, sag_admit(&hub, &more));
    TELLS_WITHOUT_HEAP(-ENOMEM, sag_admit(&hub, &all)); /* no frame is in nobody's reservation */
    TELLS_WITHOUT_HEAP(SAG_NONAMESPACE, sag_retire(&hub, 1));
    end();

    const sag_limits first = {1, 0, 0, 65536};
    TELLS(0, sag_open(33, &first, 1, &hub));
    for (uint32_t ns = 1; ns < 4; ns++) {
        size_t before = heap.held;
        TELLS(ns, sag_admit(&hub, &all));
        TELLS_WITHOUT_HEAP(-ENOMEM, sag_admit(&hub, &first));
        TELLS(1, sag_spawn(&hub, ns, 1000, 1000, (const uint32_t[]){1, 2, 3}, 3, 022));
        TELLS(0, sag_mkdir(&hub, ns, 1, PATH("/a directory with a long name"), 0700));
        TELLS(0, sag_mkfifo(&hub, ns, 1, PATH("/a directory with a long name/and a FIFO in it"), 0600));
        TELLS(0, sag_pipe(&hub, ns, 1, false, fds));
        TELLS(SAG_PARKED, sag_write(&hub, ns, 1, fds[1], pattern, PIPE + 1));
        TELLS_WITHOUT_HEAP(16, sag_held(&hub, ns));
        TELLS_WITHOUT_HEAP(17, sag_free_frames(&hub));
        TELLS_WITHOUT_HEAP(-EBUSY, sag_retire(&hub, ns));
        TELLS_WITHOUT_HEAP(0, sag_exit(&hub, ns, 1));
        TELLS_WITHOUT_HEAP(0, sag_held(&hub, ns));
        TELLS_WITHOUT_HEAP(0, sag_retire(&hub, ns));
        TELLS_WITHOUT_HEAP(false, sag_lives(&hub, ns));
        TELLS_WITHOUT_HEAP(SAG_NONAMESPACE, sag_retire(&hub, ns));
        WANT(heap.held == before);
    }
    end();

    TELLS(0, sag_open(0, &none, 1, &hub));
    for (uint32_t ns = 1; ns < 64; ns++) TELLS(ns, sag_admit(&hub, &none));
    TELLS_WITHOUT_HEAP(-ENOSPC, sag_admit(&hub, &none)); /* 64 live */
    for (uint32_t ns = 64; ns < 1024; ns++) {
        TELLS_WITHOUT_HEAP(0, sag_retire(&hub, ns - 1));
        TELLS(ns, sag_admit(&hub, &none));
    }
    TELLS_WITHOUT_HEAP(0, sag_retire(&hub, 0));
    TELLS_WITHOUT_HEAP(-ENOSPC, sag_admit(&hub, &none)); /* 1,024 were given a number */
    end();
}

/* What is told of a namespace that isn't there, a process that doesn't live, and one that waits, by each call alike. */
static void nobody(void) {
    const sag_limits limits = {16, 0, 0, 65536};
    uint32_t fds[2] = {7, 7};
    sag_ready ready = {7, 7, true, false};
    for (int open = 0; open < 2; open++) {
        if (open) begin(16, 0, 0);
        uint32_t ns = open ? 1 : 0;
        for (int i = 0; i < STEPS; i++) TELLS_WITHOUT_HEAP(SAG_NONAMESPACE, step(i, ns, 1));
        TELLS_THOUGH_REFUSED(SAG_NONAMESPACE, sag_spawn(&hub, ns, 0, 0, no_groups, 1, 0));
        TELLS_THOUGH_REFUSED(SAG_NONAMESPACE, sag_mkdir(&hub, ns, 1, PATH("/a path that is copied"), 0700));
        TELLS_WITHOUT_HEAP(SAG_NONAMESPACE, sag_held(&hub, ns));
        TELLS_WITHOUT_HEAP(SAG_NONAMESPACE, sag_retire(&hub, ns));
        TELLS_WITHOUT_HEAP(SAG_NONAMESPACE, sag_pipe(&hub, ns, 1, false, fds));
        TELLS_WITHOUT_HEAP(SAG_NONAMESPACE, sag_readiness(&hub, ns, 1, 0, &ready));
        TELLS_WITHOUT_HEAP(false, sag_can_go_on(&hub, ns, 1));
        TELLS_WITHOUT_HEAP(0, sag_next_to_go_on(&hub, ns, 0));
        if (!open) TELLS_WITHOUT_HEAP(SAG_NONAMESPACE, sag_admit(&hub, &limits));
    }
    for (int i = 0; i < STEPS; i++) TELLS_WITHOUT_HEAP(-ESRCH, step(i, 0, 1));
    TELLS_WITHOUT_HEAP(false, sag_can_go_on(&hub, 0, 1));
    TELLS_WITHOUT_HEAP(0, sag_next_to_go_on(&hub, 0, 0));
    WANT(fds[0] == 7 && fds[1] == 7 && ready.bytes == 7 && ready.room == 7 && ready.has_reader && !ready.has_writer);

    TELLS(1, sag_spawn(&hub, 0, 1000, 1000, no_groups, 0, 0));
    TELLS(0, sag_pipe(&hub, 0, 1, false, fds));
    TELLS_WITHOUT_HEAP(SAG_PARKED, sag_read(&hub, 0, 1, 0, into, 1));
    for (int i = RESUME + 1; i < STEPS; i++) TELLS_WITHOUT_HEAP(-EBUSY, step(i, 0, 1));
    TELLS_WITHOUT_HEAP(SAG_PARKED, step(RESUME, 0, 1));
    TELLS_WITHOUT_HEAP(0, step(EXIT, 0, 1));
    TELLS_WITHOUT_HEAP(-ESRCH, step(EXIT, 0, 1));
    end();
}

/* Processes */

static void processes(void) {
    uint32_t groups[33];
    for (uint32_t i = 0; i < 33; i++) groups[i] = 100 + i;
    begin(16, 0, 0);
    TELLS(-EINVAL, sag_spawn(&hub, 0, 1000, 1000, groups, 33, 0));
    TELLS(-EINVAL, sag_spawn(&hub, 0, 1000, 1000, groups, 32, 01000));
    TELLS_WITHOUT_HEAP(-EINVAL, sag_spawn(&hub, 0, 1000, 1000, no_groups, 0, 01000));
    TELLS(1, sag_spawn(&hub, 0, 1000, 1000, groups, 32, 0777));
    TELLS(2, sag_spawn(&hub, 0, 1001, 131, no_groups, 0, 0));
    TELLS(3, sag_spawn(&hub, 0, 1002, 1002, groups, 31, 0));

    /* One is of the group 131, its last, and one isn't: credentials(7). A fork's process is as the one that forked. */
    TELLS(0, sag_mkfifo(&hub, 0, 2, PATH("/of the group 131"), 0640));
    TELLS(0, sag_open_path(&hub, 0, 1, PATH("/of the group 131"), SAG_READ | SAG_NONBLOCK));
    TELLS(-EACCES, sag_open_path(&hub, 0, 1, PATH("/of the group 131"), SAG_READ | SAG_WRITE));
    TELLS(-EACCES, sag_open_path(&hub, 0, 3, PATH("/of the group 131"), SAG_READ | SAG_NONBLOCK));
    TELLS(4, sag_fork(&hub, 0, 1));
    TELLS(1, sag_open_path(&hub, 0, 4, PATH("/of the group 131"), SAG_READ | SAG_NONBLOCK));
    TELLS_WITHOUT_HEAP(0, sag_close(&hub, 0, 4, 0));
    TELLS_WITHOUT_HEAP(-EBADF, sag_close(&hub, 0, 1, 1));
    TELLS_WITHOUT_HEAP(0, sag_close(&hub, 0, 1, 0));

    /* Pids are the least that are free, and there are 256. */
    TELLS_WITHOUT_HEAP(0, sag_exit(&hub, 0, 2));
    TELLS(2, sag_fork(&hub, 0, 3));
    for (uint32_t pid = 5; pid < 256; pid++) TELLS(pid, sag_fork(&hub, 0, 4));
    TELLS(256, sag_spawn(&hub, 0, 0, 0, groups, 1, 0));
    TELLS(-EAGAIN, sag_spawn(&hub, 0, 0, 0, groups, 1, 0));
    TELLS_WITHOUT_HEAP(-EAGAIN, sag_spawn(&hub, 0, 0, 0, no_groups, 0, 0));
    TELLS_WITHOUT_HEAP(-EAGAIN, sag_fork(&hub, 0, 1));
    TELLS_WITHOUT_HEAP(0, sag_exit(&hub, 0, 100));
    TELLS(100, sag_spawn(&hub, 0, 0, 0, groups, 0, 0));
    TELLS_WITHOUT_HEAP(-ESRCH, sag_exit(&hub, 0, 257));
    TELLS_WITHOUT_HEAP(-ESRCH, sag_exit(&hub, 0, 0));
    TELLS_WITHOUT_HEAP(-EINVAL, sag_resume(&hub, 0, 100, into, 1)); /* it waits in no call */
    TELLS_WITHOUT_HEAP(-ESRCH, sag_resume(&hub, 0, 257, into, 1));
    end();
}

/* Pipes */

static void reads_and_writes(void) {
    uint32_t fds[2] = {7, 7};
    begin(32, 0, 0);
    TELLS(1, sag_spawn(&hub, 0, 1000, 1000, no_groups, 0, 022));
    TELLS(0, sag_pipe(&hub, 0, 1, false, fds));
    WANT(fds[0] == 0 && fds[1] == 1);
    TELLS(0, sag_pipe(&hub, 0, 1, true, fds));
    WANT(fds[0] == 2 && fds[1] == 3);
    TELLS_WITHOUT_HEAP(PIPE, sag_pipe_size(&hub, 0, 1, 0));
    TELLS_WITHOUT_HEAP(-EBADF, sag_pipe_size(&hub, 0, 1, 4));
    TELLS_WITHOUT_HEAP(-EBADF, sag_pipe_size(&hub, 0, 1, 256));
    TELLS_WITHOUT_HEAP(-EBADF, sag_readiness(&hub, 0, 1, 4, &(sag_ready){0, 0, false, false}));
    WANT(is_ready(1, 0, 0, PIPE, true, true));

    TELLS_WITHOUT_HEAP(5, sag_write(&hub, 0, 1, 1, pattern, 5));
    WANT(is_ready(1, 1, 5, PIPE - 5, true, true));
    TELLS_WITHOUT_HEAP(0, sag_read(&hub, 0, 1, 0, into, 0));
    TELLS_WITHOUT_HEAP(3, sag_read(&hub, 0, 1, 0, into, 3));
    WANT(got(0, 3));
    TELLS_WITHOUT_HEAP(2, sag_read(&hub, 0, 1, 0, into, sizeof into));
    WANT(got(3, 2));
    TELLS_WITHOUT_HEAP(-EBADF, sag_read(&hub, 0, 1, 1, into, 1));
    TELLS_WITHOUT_HEAP(-EBADF, sag_read(&hub, 0, 1, 4, into, 1));
    TELLS_WITHOUT_HEAP(-EBADF, sag_write(&hub, 0, 1, 0, pattern, 1));
    TELLS_WITHOUT_HEAP(-EBADF, sag_write(&hub, 0, 1, 4, pattern, LONGEST_WRITE + 1));
    TELLS_WITHOUT_HEAP(-EINVAL, sag_write(&hub, 0, 1, 1, pattern, LONGEST_WRITE + 1));

    /* With O_NONBLOCK: a write of at most a page goes in whole or not at all, of a longer one as much as there is room
     * for (pipe(7)). */
    TELLS_WITHOUT_HEAP(-EAGAIN, sag_read(&hub, 0, 1, 2, into, 1));
    TELLS_WITHOUT_HEAP(PIPE, sag_write(&hub, 0, 1, 3, pattern, LONGEST_WRITE));
    TELLS_WITHOUT_HEAP(-EAGAIN, sag_write(&hub, 0, 1, 3, pattern, 1));
    TELLS_WITHOUT_HEAP(-EAGAIN, sag_write(&hub, 0, 1, 3, pattern, LONGEST_WRITE));
    TELLS_WITHOUT_HEAP(PAGE, sag_read(&hub, 0, 1, 2, into, PAGE));
    WANT(got(0, PAGE));
    TELLS_WITHOUT_HEAP(PAGE, sag_write(&hub, 0, 1, 3, pattern + PIPE, 2 * PAGE));
    TELLS_WITHOUT_HEAP(PIPE, sag_read(&hub, 0, 1, 2, into, sizeof into));
    WANT(got(PAGE, PIPE));
    TELLS_WITHOUT_HEAP(-EAGAIN, sag_read(&hub, 0, 1, 2, into, 1));

    /* The end of the file, and a pipe that nobody reads. */
    TELLS_WITHOUT_HEAP(1, sag_write(&hub, 0, 1, 3, pattern, 1));
    TELLS_WITHOUT_HEAP(0, sag_close(&hub, 0, 1, 3));
    TELLS_WITHOUT_HEAP(1, sag_read(&hub, 0, 1, 2, into, 2));
    WANT(got(0, 1));
    TELLS_WITHOUT_HEAP(0, sag_read(&hub, 0, 1, 2, into, 2));
    WANT(is_ready(1, 2, 0, PIPE, true, false));
    TELLS_WITHOUT_HEAP(0, sag_close(&hub, 0, 1, 0));
    TELLS_WITHOUT_HEAP(-EPIPE, sag_write(&hub, 0, 1, 1, pattern, 1));
    TELLS_WITHOUT_HEAP(0, sag_write(&hub, 0, 1, 1, pattern, 0));
    WANT(is_ready(1, 1, 0, PIPE, false, true));
    end();
}

/* Process 1 writes a pipe that process 2 reads; both have both ends where `both`. */
static void two(bool both) {
    uint32_t fds[2];
    begin(64, 0, 0);
    TELLS(1, sag_spawn(&hub, 0, 1000, 1000, no_groups, 0, 022));
    TELLS(0, sag_pipe(&hub, 0, 1, false, fds));
    TELLS(2, sag_fork(&hub, 0, 1));
    if (both) return;
    TELLS_WITHOUT_HEAP(0, sag_close(&hub, 0, 1, 0));
    TELLS_WITHOUT_HEAP(0, sag_close(&hub, 0, 2, 1));
}

/* Calls that wait: a long write and a short one, their reader gone; a read, and its writer gone. */
static void waits(void) {
    enum { LONG = 100000, REST = LONG - PIPE };
    two(false);
    memcpy(copy, pattern, LONG);
    TELLS(SAG_PARKED, sag_write(&hub, 0, 1, 1, copy, LONG));
    memset(copy, STALE, LONG); /* the bytes that wait are copied */
    WANT(is_ready(2, 0, PIPE, 0, true, true));
    TELLS_WITHOUT_HEAP(SAG_PARKED, sag_resume(&hub, 0, 1, into, 0));
    TELLS_WITHOUT_HEAP(1, sag_read(&hub, 0, 2, 0, into, 1)); /* no page is free yet */
    WANT(got(0, 1));
    TELLS_WITHOUT_HEAP(false, sag_can_go_on(&hub, 0, 1));
    TELLS_WITHOUT_HEAP(0, sag_next_to_go_on(&hub, 0, 0));
    TELLS_WITHOUT_HEAP(PIPE - 1, sag_read(&hub, 0, 2, 0, into, sizeof into));
    WANT(got(1, PIPE - 1));
    TELLS_WITHOUT_HEAP(true, sag_can_go_on(&hub, 0, 1));
    TELLS_WITHOUT_HEAP(1, sag_next_to_go_on(&hub, 0, 0));
    TELLS_WITHOUT_HEAP(0, sag_next_to_go_on(&hub, 0, 1));
    TELLS_WITHOUT_HEAP(LONG, sag_resume(&hub, 0, 1, into, 0));
    TELLS_WITHOUT_HEAP(REST, sag_read(&hub, 0, 2, 0, into, sizeof into));
    WANT(got(PIPE, REST));

    static const size_t counts[] = {1, IN_PLACE, IN_PLACE + 1, PAGE};
    for (size_t i = 0; i < sizeof counts / sizeof *counts; i++) {
        size_t count = counts[i];
        TELLS_WITHOUT_HEAP(PIPE, sag_write(&hub, 0, 1, 1, pattern, PIPE));
        if (count <= IN_PLACE) TELLS_WITHOUT_HEAP(SAG_PARKED, sag_write(&hub, 0, 1, 1, pattern + PIPE, count));
        if (count > IN_PLACE) TELLS(SAG_PARKED, sag_write(&hub, 0, 1, 1, pattern + PIPE, count));
        WANT(is_ready(2, 0, PIPE, 0, true, true));
        TELLS_WITHOUT_HEAP(PAGE, sag_read(&hub, 0, 2, 0, into, PAGE));
        WANT(got(0, PAGE));
        TELLS_WITHOUT_HEAP(count, sag_resume(&hub, 0, 1, into, 0));
        TELLS_WITHOUT_HEAP(PIPE - PAGE + count, sag_read(&hub, 0, 2, 0, into, sizeof into));
        WANT(got(PAGE, PIPE - PAGE + count));
    }

    /* A read that waits, with less room than it asked for: what is beyond is lost. */
    TELLS_WITHOUT_HEAP(SAG_PARKED, sag_read(&hub, 0, 2, 0, into, 10));
    TELLS_WITHOUT_HEAP(20, sag_write(&hub, 0, 1, 1, pattern, 20));
    TELLS_WITHOUT_HEAP(2, sag_next_to_go_on(&hub, 0, 1));
    TELLS_WITHOUT_HEAP(10, sag_resume(&hub, 0, 2, into, 4));
    WANT(got(0, 4));
    TELLS_WITHOUT_HEAP(10, sag_read(&hub, 0, 2, 0, into, 50));
    WANT(got(10, 10));
    TELLS_WITHOUT_HEAP(SAG_PARKED, sag_read(&hub, 0, 2, 0, into, LONG));
    TELLS_WITHOUT_HEAP(PIPE, sag_write(&hub, 0, 1, 1, pattern, PIPE));
    TELLS_WITHOUT_HEAP(PIPE, sag_resume(&hub, 0, 2, into, LONG));
    WANT(got(0, PIPE));

    /* The reader goes: who has put bytes is told how many, and who has put none EPIPE. */
    TELLS(3, sag_fork(&hub, 0, 1));
    TELLS(SAG_PARKED, sag_write(&hub, 0, 1, 1, pattern, LONG));
    TELLS_WITHOUT_HEAP(SAG_PARKED, sag_write(&hub, 0, 3, 1, pattern, 1));
    TELLS_WITHOUT_HEAP(0, sag_exit(&hub, 0, 2));
    TELLS_WITHOUT_HEAP(1, sag_next_to_go_on(&hub, 0, 0));
    TELLS_WITHOUT_HEAP(3, sag_next_to_go_on(&hub, 0, 1));
    TELLS_WITHOUT_HEAP(PIPE, sag_resume(&hub, 0, 1, into, 0));
    TELLS_WITHOUT_HEAP(-EPIPE, sag_resume(&hub, 0, 3, into, 0));
    TELLS_WITHOUT_HEAP(-EINVAL, sag_resume(&hub, 0, 3, into, 0));
    end();

    /* The writer goes, and a tenant is freed while one of its processes waits with bytes. */
    two(false);
    TELLS_WITHOUT_HEAP(SAG_PARKED, sag_read(&hub, 0, 2, 0, into, 1));
    TELLS_WITHOUT_HEAP(0, sag_exit(&hub, 0, 1));
    TELLS_WITHOUT_HEAP(true, sag_can_go_on(&hub, 0, 2));
    TELLS_WITHOUT_HEAP(0, sag_resume(&hub, 0, 2, into, 1));
    end();
    two(true);
    TELLS(SAG_PARKED, sag_write(&hub, 0, 1, 1, pattern, LONGEST_WRITE));
    end();
}

/* tee(2) and splice(2). */
static void transfers(void) {
    uint32_t fds[2];
    for (int is_splice = 0; is_splice < 2; is_splice++) {
        int64_t (*move)(sag_hub *, uint32_t, uint32_t, uint32_t, uint32_t, uint64_t, bool) =
            is_splice ? sag_splice : sag_tee;
        two(true);
        TELLS(0, sag_pipe(&hub, 0, 1, false, fds)); /* the sink, whose ends are 2 and 3 of process 1 */
        TELLS_WITHOUT_HEAP(10, sag_write(&hub, 0, 1, 1, pattern, 10));
        TELLS_WITHOUT_HEAP(4, move(&hub, 0, 1, 0, 3, 4, false));
        WANT(is_ready(1, 0, is_splice ? 6 : 10, PIPE - 10, true, true));
        TELLS_WITHOUT_HEAP(4, sag_read(&hub, 0, 1, 2, into, sizeof into));
        WANT(got(0, 4));
        TELLS_WITHOUT_HEAP(is_splice ? 6 : 10, move(&hub, 0, 1, 0, 3, UINT64_MAX, true));
        TELLS_WITHOUT_HEAP(is_splice ? 6 : 10, sag_read(&hub, 0, 1, 2, into, sizeof into));
        WANT(got(is_splice ? 4 : 0, is_splice ? 6 : 10));
        if (!is_splice) TELLS_WITHOUT_HEAP(10, sag_read(&hub, 0, 1, 0, into, sizeof into));
        WANT(is_splice || got(0, 10));

        /* With an empty source it waits, until there are bytes. */
        TELLS_WITHOUT_HEAP(0, move(&hub, 0, 1, 0, 3, 0, false));
        TELLS_WITHOUT_HEAP(SAG_PARKED, move(&hub, 0, 1, 0, 3, 8, false));
        TELLS_WITHOUT_HEAP(false, sag_can_go_on(&hub, 0, 1));
        TELLS_WITHOUT_HEAP(3, sag_write(&hub, 0, 2, 1, pattern, 3));
        TELLS_WITHOUT_HEAP(1, sag_next_to_go_on(&hub, 0, 0));
        TELLS_WITHOUT_HEAP(3, sag_resume(&hub, 0, 1, into, 0));
        WANT(is_ready(1, 0, is_splice ? 0 : 3, is_splice ? PIPE : PIPE - 3, true, true));
        TELLS_WITHOUT_HEAP(3, sag_read(&hub, 0, 1, 2, into, sizeof into));
        WANT(got(0, 3));

        /* With a full sink too, until a page is free. */
        if (is_splice) TELLS_WITHOUT_HEAP(3, sag_write(&hub, 0, 1, 1, pattern, 3));
        TELLS_WITHOUT_HEAP(PIPE, sag_write(&hub, 0, 1, 3, pattern, PIPE));
        TELLS_WITHOUT_HEAP(SAG_PARKED, move(&hub, 0, 1, 0, 3, 3, false));
        TELLS_WITHOUT_HEAP(SAG_PARKED, sag_resume(&hub, 0, 1, into, 0));
        TELLS_WITHOUT_HEAP(0, sag_exit(&hub, 0, 1));
        end();
    }

    /* Each refusal of either: EBADF, EINVAL, EPIPE, EAGAIN. */
    two(true);
    TELLS(0, sag_pipe(&hub, 0, 1, false, fds));
    TELLS_WITHOUT_HEAP(-EBADF, sag_tee(&hub, 0, 1, 1, 3, 1, false));
    TELLS_WITHOUT_HEAP(-EBADF, sag_tee(&hub, 0, 1, 0, 2, 1, false));
    TELLS_WITHOUT_HEAP(-EBADF, sag_tee(&hub, 0, 1, 4, 3, 1, false));
    TELLS_WITHOUT_HEAP(-EBADF, sag_splice(&hub, 0, 1, 1, 3, 1, false));
    TELLS_WITHOUT_HEAP(-EBADF, sag_splice(&hub, 0, 1, 0, 2, 1, false));
    TELLS_WITHOUT_HEAP(-EBADF, sag_splice(&hub, 0, 1, 0, 4, 1, false));
    TELLS_WITHOUT_HEAP(-EINVAL, sag_tee(&hub, 0, 1, 0, 1, 1, false));
    TELLS_WITHOUT_HEAP(-EINVAL, sag_splice(&hub, 0, 1, 0, 1, 1, false));
    TELLS_WITHOUT_HEAP(-EAGAIN, sag_tee(&hub, 0, 1, 0, 3, 1, true));
    TELLS_WITHOUT_HEAP(-EAGAIN, sag_splice(&hub, 0, 1, 0, 3, 1, true));
    TELLS_WITHOUT_HEAP(0, sag_set_nonblock(&hub, 0, 1, 3, true));
    TELLS_WITHOUT_HEAP(-EAGAIN, sag_tee(&hub, 0, 1, 0, 3, 1, false));
    TELLS_WITHOUT_HEAP(-EAGAIN, sag_splice(&hub, 0, 1, 0, 3, 1, false));
    TELLS_WITHOUT_HEAP(0, sag_set_nonblock(&hub, 0, 1, 3, false));
    TELLS(3, sag_fork(&hub, 0, 1));
    TELLS_WITHOUT_HEAP(0, sag_close(&hub, 0, 1, 2));
    TELLS_WITHOUT_HEAP(SAG_PARKED, sag_tee(&hub, 0, 1, 0, 3, 1, false));
    TELLS_WITHOUT_HEAP(0, sag_exit(&hub, 0, 3)); /* with it goes who reads the sink */
    TELLS_WITHOUT_HEAP(1, sag_next_to_go_on(&hub, 0, 0));
    TELLS_WITHOUT_HEAP(-EPIPE, sag_resume(&hub, 0, 1, into, 0));
    TELLS_WITHOUT_HEAP(-EPIPE, sag_tee(&hub, 0, 1, 0, 3, 1, false));
    TELLS_WITHOUT_HEAP(-EPIPE, sag_splice(&hub, 0, 1, 0, 3, 1, false));
    TELLS_WITHOUT_HEAP(0, sag_splice(&hub, 0, 1, 0, 3, 0, false));
    end();

    /* And the end of the source. */
    two(false);
    TELLS(0, sag_pipe(&hub, 0, 2, false, fds));
    WANT(fds[0] == 1 && fds[1] == 2);
    TELLS_WITHOUT_HEAP(SAG_PARKED, sag_splice(&hub, 0, 2, 0, 2, 1, false));
    TELLS_WITHOUT_HEAP(0, sag_exit(&hub, 0, 1));
    TELLS_WITHOUT_HEAP(0, sag_resume(&hub, 0, 2, into, 0));
    TELLS_WITHOUT_HEAP(0, sag_tee(&hub, 0, 2, 0, 2, 1, false));
    end();
}

/* Capacities and the limits of pages: fcntl(2), pipe(7). */
static void sizes(void) {
    uint32_t fds[2];
    begin(528, SAG_DEFAULT_SOFT, SAG_DEFAULT_HARD);
    TELLS(1, sag_spawn(&hub, 0, 1000, 1000, no_groups, 0, 022));
    TELLS(0, sag_pipe(&hub, 0, 1, true, fds));
    TELLS_WITHOUT_HEAP(PIPE, sag_write(&hub, 0, 1, 1, pattern, PIPE));
    TELLS(2 * PIPE, sag_set_pipe_size(&hub, 0, 1, 1, PIPE + 1));
    WANT(is_ready(1, 0, PIPE, PIPE, true, true));
    TELLS(LONGEST_WRITE, sag_set_pipe_size(&hub, 0, 1, 0, LONGEST_WRITE));
    TELLS_WITHOUT_HEAP(LONGEST_WRITE, sag_pipe_size(&hub, 0, 1, 1));
    TELLS_WITHOUT_HEAP(LONGEST_WRITE, sag_set_pipe_size(&hub, 0, 1, 1, LONGEST_WRITE)); /* as it is */
    TELLS_WITHOUT_HEAP(PIPE, sag_read(&hub, 0, 1, 0, into, PIPE));
    WANT(got(0, PIPE));
    TELLS_WITHOUT_HEAP(LONGEST_WRITE, sag_write(&hub, 0, 1, 1, pattern, LONGEST_WRITE));
    TELLS_WITHOUT_HEAP(256, sag_held(&hub, 0));
    TELLS_WITHOUT_HEAP(-EBUSY, sag_set_pipe_size(&hub, 0, 1, 0, LONGEST_WRITE / 2));
    TELLS_WITHOUT_HEAP(LONGEST_WRITE, sag_read(&hub, 0, 1, 0, into, sizeof into));
    WANT(got(0, LONGEST_WRITE));
    TELLS(PAGE, sag_set_pipe_size(&hub, 0, 1, 0, 0));
    TELLS(2 * PAGE, sag_set_pipe_size(&hub, 0, 1, 0, PAGE + 1));
    TELLS(PIPE, sag_set_pipe_size(&hub, 0, 1, 0, PIPE));
    TELLS_WITHOUT_HEAP(-EBADF, sag_set_pipe_size(&hub, 0, 1, 2, PAGE));
    TELLS_WITHOUT_HEAP(-EINVAL, sag_set_pipe_size(&hub, 0, 1, 0, 2147483649u));
    TELLS_WITHOUT_HEAP(-EPERM, sag_set_pipe_size(&hub, 0, 1, 0, SAG_DEFAULT_MAX + 1)); /* pipe-max-size */
    TELLS(2, sag_spawn(&hub, 0, 0, 0, no_groups, 0, 022));
    TELLS(0, sag_pipe(&hub, 0, 2, false, fds));
    TELLS(2 * SAG_DEFAULT_MAX, sag_set_pipe_size(&hub, 0, 2, 0, SAG_DEFAULT_MAX + 1));
    TELLS_WITHOUT_HEAP(-ENFILE, sag_set_pipe_size(&hub, 0, 2, 0, 2147483648u)); /* the reservation, of all */
    TELLS_WITHOUT_HEAP(-ENFILE, sag_pipe(&hub, 0, 2, false, fds));
    TELLS_WITHOUT_HEAP(-ENFILE, sag_set_pipe_size(&hub, 0, 1, 0, 2 * PIPE));
    end();

    begin(64, 16, 0); /* the soft limit */
    TELLS(1, sag_spawn(&hub, 0, 1000, 1000, no_groups, 0, 022));
    TELLS(2, sag_spawn(&hub, 0, 0, 0, no_groups, 0, 022));
    TELLS(0, sag_pipe(&hub, 0, 1, false, fds));
    TELLS_WITHOUT_HEAP(PIPE, sag_pipe_size(&hub, 0, 1, 0));
    TELLS_WITHOUT_HEAP(-EPERM, sag_set_pipe_size(&hub, 0, 1, 0, 2 * PIPE));
    TELLS(0, sag_pipe(&hub, 0, 1, false, fds));
    TELLS_WITHOUT_HEAP(PAGE, sag_pipe_size(&hub, 0, 1, 2));
    TELLS(0, sag_pipe(&hub, 0, 2, false, fds));
    TELLS(2 * PIPE, sag_set_pipe_size(&hub, 0, 2, 0, 2 * PIPE));
    end();

    begin(64, 0, 17); /* the hard limit */
    TELLS(1, sag_spawn(&hub, 0, 1000, 1000, no_groups, 0, 022));
    TELLS(2, sag_spawn(&hub, 0, 0, 0, no_groups, 0, 022));
    TELLS(0, sag_mkfifo(&hub, 0, 1, PATH("/a FIFO of a page too many"), 0666));
    TELLS(0, sag_pipe(&hub, 0, 1, false, fds));
    fds[0] = fds[1] = 7;
    TELLS_WITHOUT_HEAP(-ENFILE, sag_pipe(&hub, 0, 1, false, fds));
    WANT(fds[0] == 7 && fds[1] == 7);
    TELLS_WITHOUT_HEAP(-EPERM, sag_set_pipe_size(&hub, 0, 1, 0, 2 * PIPE));
    TELLS(-ENOMEM, sag_open_path(&hub, 0, 1, PATH("/a FIFO of a page too many"), SAG_READ | SAG_WRITE));
    TELLS(0, sag_open_path(&hub, 0, 2, PATH("/a FIFO of a page too many"), SAG_READ | SAG_WRITE));
    end();

    begin(17, 0, 0); /* the reservation: a pipe of one page, then none */
    TELLS(1, sag_spawn(&hub, 0, 0, 0, no_groups, 0, 022));
    TELLS(0, sag_mkfifo(&hub, 0, 1, PATH("/a FIFO of a page too many"), 0666));
    TELLS(0, sag_pipe(&hub, 0, 1, false, fds));
    TELLS(0, sag_pipe(&hub, 0, 1, false, fds));
    TELLS_WITHOUT_HEAP(PAGE, sag_pipe_size(&hub, 0, 1, fds[0]));
    TELLS_WITHOUT_HEAP(-ENFILE, sag_pipe(&hub, 0, 1, false, fds));
    TELLS_WITHOUT_HEAP(-ENFILE, sag_set_pipe_size(&hub, 0, 1, fds[0], 2 * PAGE));
    TELLS(-ENFILE, sag_open_path(&hub, 0, 1, PATH("/a FIFO of a page too many"), SAG_READ | SAG_WRITE));
    TELLS_WITHOUT_HEAP(17, sag_free_frames(&hub));
    end();
}

/* Descriptors */

static void descriptors(void) {
    uint32_t fds[2];
    two(true);
    TELLS_WITHOUT_HEAP(2, sag_dup(&hub, 0, 1, 0));
    TELLS_WITHOUT_HEAP(0, sag_close(&hub, 0, 1, 0));
    TELLS_WITHOUT_HEAP(-EBADF, sag_close(&hub, 0, 1, 0));
    TELLS_WITHOUT_HEAP(-EBADF, sag_dup(&hub, 0, 1, 0));
    TELLS_WITHOUT_HEAP(-EBADF, sag_set_nonblock(&hub, 0, 1, 0, true));
    TELLS_WITHOUT_HEAP(0, sag_dup(&hub, 0, 1, 1));
    TELLS_WITHOUT_HEAP(2, sag_write(&hub, 0, 1, 0, pattern, 2));
    TELLS_WITHOUT_HEAP(2, sag_read(&hub, 0, 1, 2, into, sizeof into));
    WANT(got(0, 2));

    /* O_NONBLOCK is the description's: a copy of the descriptor has it, another process's too. */
    TELLS_WITHOUT_HEAP(0, sag_set_nonblock(&hub, 0, 2, 0, true));
    TELLS_WITHOUT_HEAP(-EAGAIN, sag_read(&hub, 0, 1, 2, into, 1));
    TELLS_WITHOUT_HEAP(PIPE, sag_write(&hub, 0, 1, 1, pattern, PIPE));
    TELLS_WITHOUT_HEAP(0, sag_set_nonblock(&hub, 0, 1, 1, true));
    TELLS_WITHOUT_HEAP(-EAGAIN, sag_write(&hub, 0, 1, 0, pattern, 1));
    TELLS_WITHOUT_HEAP(0, sag_set_nonblock(&hub, 0, 1, 0, false));
    TELLS_WITHOUT_HEAP(SAG_PARKED, sag_write(&hub, 0, 1, 1, pattern, 1));
    TELLS_WITHOUT_HEAP(PIPE, sag_read(&hub, 0, 2, 0, into, PIPE));
    WANT(got(0, PIPE));
    TELLS_WITHOUT_HEAP(1, sag_resume(&hub, 0, 1, into, 0));
    TELLS_WITHOUT_HEAP(1, sag_read(&hub, 0, 2, 0, into, 2));
    WANT(got(0, 1));
    TELLS_WITHOUT_HEAP(0, sag_set_nonblock(&hub, 0, 2, 0, false));
    TELLS_WITHOUT_HEAP(SAG_PARKED, sag_read(&hub, 0, 2, 0, into, 1));

    /* There are 256, and a pipe takes two. */
    for (uint32_t fd = 3; fd < 256; fd++) TELLS_WITHOUT_HEAP(fd, sag_dup(&hub, 0, 1, 2));
    TELLS_WITHOUT_HEAP(-EMFILE, sag_dup(&hub, 0, 1, 2));
    TELLS_WITHOUT_HEAP(-EBADF, sag_dup(&hub, 0, 1, 256));
    TELLS(0, sag_mkfifo(&hub, 0, 1, PATH("/f"), 0600));
    TELLS_WITHOUT_HEAP(-EMFILE, sag_open_path(&hub, 0, 1, PATH("/f"), SAG_READ | SAG_NONBLOCK));
    TELLS_WITHOUT_HEAP(0, sag_close(&hub, 0, 1, 255));
    TELLS_WITHOUT_HEAP(-EMFILE, sag_pipe(&hub, 0, 1, false, fds));
    TELLS_WITHOUT_HEAP(0, sag_close(&hub, 0, 1, 70));
    TELLS(0, sag_pipe(&hub, 0, 1, false, fds));
    WANT(fds[0] == 70 && fds[1] == 255);
    end();
}

/* Files */

/* Lengthens a path by slashes, which mean no more than one, to a path of so many bytes. */
static const uint8_t *lengthened(const void *text, size_t length, size_t wanted) {
    memset(path, '/', wanted - length);
    memcpy(path + wanted - length, text, length);
    return path;
}

/* What is known of a file. */
static bool is_file(uint32_t pid, const void *at, size_t length, uint32_t mode, uint32_t uid, uint32_t gid) {
    sag_meta meta = {7, 7, 7};
    if (length <= IN_PLACE) TELLS_WITHOUT_HEAP(0, sag_stat(&hub, 0, pid, at, length, &meta));
    if (length > IN_PLACE) TELLS(0, sag_stat(&hub, 0, pid, at, length, &meta));
    return meta.mode == mode && meta.uid == uid && meta.gid == gid;
}

/* Root, a user with a umask of 027, and another. */
static void three(void) {
    begin(64, 0, 0);
    TELLS(1, sag_spawn(&hub, 0, 0, 0, no_groups, 0, 0));
    TELLS(2, sag_spawn(&hub, 0, 1000, 100, no_groups, 0, 027));
    TELLS(3, sag_spawn(&hub, 0, 1001, 101, no_groups, 0, 022));
}

/* Each call with a path of so many bytes, which it takes. */
static void paths_of(size_t length) {
    TELLS(0, sag_mkdir(&hub, 0, 2, lengthened("/d", 2, length), length, 01777));
    WANT(is_file(2, path, length, 0041750, 1000, 100));
    TELLS(0, sag_mkfifo(&hub, 0, 2, lengthened("/d/f", 4, length), length, 0666));
    WANT(is_file(2, path, length, 0010640, 1000, 100));
    TELLS(0, sag_chmod(&hub, 0, 2, path, length, 0604));
    WANT(is_file(1, path, length, 0010604, 1000, 100));
    TELLS(0, sag_open_path(&hub, 0, 2, path, length, SAG_READ | SAG_WRITE));
    TELLS_WITHOUT_HEAP(0, sag_close(&hub, 0, 2, 0));
    TELLS(2, sag_list(&hub, 0, 2, lengthened("/d", 2, length), length, into, sizeof into));
    WANT(into[0] == 'f' && into[1] == '/' && into[2] == UNTOUCHED);
    memset(into, UNTOUCHED, 2);
    TELLS(0, sag_unlink(&hub, 0, 2, lengthened("/d/f", 4, length), length));
    TELLS(0, sag_rmdir(&hub, 0, 2, lengthened("/d", 2, length), length));
    TELLS(-ENOENT, sag_rmdir(&hub, 0, 2, path, length));
}

/* Names of 255 bytes, in a path of 1,023. */
static void deep_paths(void) {
    static uint8_t deep[LONGEST_PATH];
    memset(deep, 'n', sizeof deep);
    for (size_t i = 0; i < sizeof deep; i += 256) deep[i] = '/';
    for (size_t length = 256; length < LONGEST_PATH; length += 256) {
        TELLS(0, sag_mkdir(&hub, 0, 2, deep, length, 0700));
    }
    TELLS(0, sag_mkfifo(&hub, 0, 2, deep, LONGEST_PATH, 0600));
    TELLS(-EEXIST, sag_mkdir(&hub, 0, 2, deep, LONGEST_PATH, 0600));
    TELLS(0, sag_open_path(&hub, 0, 2, deep, LONGEST_PATH, SAG_READ | SAG_NONBLOCK));
    TELLS_WITHOUT_HEAP(0, sag_close(&hub, 0, 2, 0));
    TELLS(0, sag_chmod(&hub, 0, 2, deep, LONGEST_PATH, 01777));
    WANT(is_file(2, deep, LONGEST_PATH, 0011777, 1000, 100));
    TELLS(255, sag_list(&hub, 0, 2, deep, 768, into, 100));
    WANT(memcmp(into, deep + 769, 100) == 0 && into[100] == UNTOUCHED);
    TELLS(255, sag_list(&hub, 0, 2, deep, 768, into, 255));
    WANT(memcmp(into, deep + 769, 254) == 0 && into[254] == '/' && into[255] == UNTOUCHED);
    memset(into, UNTOUCHED, 255);
    TELLS(-ENOTEMPTY, sag_rmdir(&hub, 0, 2, deep, 512));
    TELLS(0, sag_unlink(&hub, 0, 2, deep, LONGEST_PATH));
    for (size_t length = 768; length > 0; length -= 256) TELLS(0, sag_rmdir(&hub, 0, 2, deep, length));
}

/* Paths that each of the eight calls is refused alike, whatever slashes stand in front. */
static void faulty_paths(void) {
    static uint8_t long_name[257];
    memset(long_name, 'n', sizeof long_name);
    long_name[0] = '/';
    TELLS(0, sag_mkdir(&hub, 0, 1, PATH("/shut"), 0600));
    TELLS(0, sag_mkfifo(&hub, 0, 1, PATH("/f"), 0666));
    const struct {
        const void *at;
        size_t length;
        int64_t told;
    } faulty[] = {
        {PATH("/a\0b"), -EINVAL},
        {PATH("/\0"), -EINVAL},
        {long_name, 257, -ENAMETOOLONG},
        {PATH("/none/x"), -ENOENT},
        {PATH("/none/../x"), -ENOENT},
        {PATH("/f/x"), -ENOTDIR},
        {PATH("/f/.."), -ENOTDIR},
        {PATH("/shut/x"), -EACCES},
        {PATH("/shut/y/z"), -EACCES},
    };
    static const size_t lengths[] = {0, 14, 15, 16, 300, LONGEST_PATH};
    for (int i = 0; i < WALKS; i++) {
        for (size_t f = 0; f < sizeof faulty / sizeof *faulty; f++) {
            for (size_t l = 0; l < sizeof lengths / sizeof *lengths; l++) {
                size_t length = lengths[l] < faulty[f].length ? faulty[f].length : lengths[l];
                TELLS(faulty[f].told, walk(i, 2, lengthened(faulty[f].at, faulty[f].length, length), length));
            }
        }
        TELLS_WITHOUT_HEAP(-ENOENT, walk(i, 2, PATH("")));
        TELLS(-ENAMETOOLONG, walk(i, 2, lengthened("x", 1, LONGEST_PATH + 1), LONGEST_PATH + 1));
    }
    TELLS(0, sag_unlink(&hub, 0, 1, PATH("/f")));
    TELLS(0, sag_rmdir(&hub, 0, 1, PATH("/shut")));
}

/* What each call is refused besides. */
static void refused_files(void) {
    TELLS(0, sag_mkdir(&hub, 0, 1, PATH("/read only"), 0755));
    TELLS(0, sag_mkdir(&hub, 0, 1, PATH("/read only/d"), 0711));
    TELLS(0, sag_mkfifo(&hub, 0, 1, PATH("/read only/f"), 0444));
    TELLS(0, sag_mkdir(&hub, 0, 2, PATH("/sticky"), 0));
    TELLS(0, sag_chmod(&hub, 0, 2, PATH("/sticky"), 01777));
    TELLS(0, sag_mkdir(&hub, 0, 2, PATH("/sticky/d"), 0755));
    TELLS(0, sag_mkfifo(&hub, 0, 2, PATH("/sticky/f"), 0644));

    TELLS_WITHOUT_HEAP(-EINVAL, sag_mkdir(&hub, 0, 2, PATH("/d"), 02000));
    TELLS_WITHOUT_HEAP(-EEXIST, sag_mkdir(&hub, 0, 2, PATH("/"), 0700));
    TELLS(-EEXIST, sag_mkdir(&hub, 0, 2, PATH("/sticky/."), 0700));
    TELLS_WITHOUT_HEAP(-EEXIST, sag_mkdir(&hub, 0, 2, PATH("/sticky"), 0700));
    TELLS_WITHOUT_HEAP(-EACCES, sag_mkdir(&hub, 0, 2, PATH("/read only/e"), 0700));
    TELLS(0, sag_mkdir(&hub, 0, 2, PATH("/d/"), 0700));

    TELLS_WITHOUT_HEAP(-EINVAL, sag_mkfifo(&hub, 0, 2, PATH("/f"), 02000));
    TELLS(-EEXIST, sag_mkfifo(&hub, 0, 2, PATH("/sticky/.."), 0600));
    TELLS_WITHOUT_HEAP(-EEXIST, sag_mkfifo(&hub, 0, 2, PATH("/sticky/f"), 0600));
    TELLS_WITHOUT_HEAP(-ENOENT, sag_mkfifo(&hub, 0, 2, PATH("/f/"), 0600));
    TELLS_WITHOUT_HEAP(-EACCES, sag_mkfifo(&hub, 0, 2, PATH("/read only/e"), 0600));

    TELLS_WITHOUT_HEAP(-EPERM, sag_unlink(&hub, 0, 2, PATH("/")));
    TELLS(-EPERM, sag_unlink(&hub, 0, 2, PATH("/sticky/.")));
    TELLS_WITHOUT_HEAP(-ENOENT, sag_unlink(&hub, 0, 2, PATH("/none")));
    TELLS_WITHOUT_HEAP(-ENOTDIR, sag_unlink(&hub, 0, 2, PATH("/sticky/f/")));
    TELLS_WITHOUT_HEAP(-EACCES, sag_unlink(&hub, 0, 2, PATH("/read only/f")));
    TELLS_WITHOUT_HEAP(-EPERM, sag_unlink(&hub, 0, 3, PATH("/sticky/f"))); /* another's, by S_ISVTX */
    TELLS_WITHOUT_HEAP(-EPERM, sag_unlink(&hub, 0, 2, PATH("/d")));        /* a directory */

    TELLS_WITHOUT_HEAP(-EBUSY, sag_rmdir(&hub, 0, 2, PATH("/")));
    TELLS(-EINVAL, sag_rmdir(&hub, 0, 2, PATH("/sticky/.")));
    TELLS(-EINVAL, sag_rmdir(&hub, 0, 2, PATH("/sticky/..")));
    TELLS_WITHOUT_HEAP(-ENOENT, sag_rmdir(&hub, 0, 2, PATH("/none")));
    TELLS_WITHOUT_HEAP(-ENOTDIR, sag_rmdir(&hub, 0, 2, PATH("/sticky/f")));
    TELLS_WITHOUT_HEAP(-EACCES, sag_rmdir(&hub, 0, 2, PATH("/read only/d")));
    TELLS_WITHOUT_HEAP(-EPERM, sag_rmdir(&hub, 0, 3, PATH("/sticky/d")));
    TELLS_WITHOUT_HEAP(-ENOTEMPTY, sag_rmdir(&hub, 0, 2, PATH("/sticky")));

    TELLS_WITHOUT_HEAP(-EINVAL, sag_chmod(&hub, 0, 2, PATH("/sticky/f"), 02000));
    TELLS_WITHOUT_HEAP(-EPERM, sag_chmod(&hub, 0, 3, PATH("/sticky/f"), 0666));
    TELLS_WITHOUT_HEAP(-ENOTDIR, sag_chmod(&hub, 0, 2, PATH("/sticky/f/"), 0666));

    sag_meta meta = {7, 7, 7};
    TELLS_WITHOUT_HEAP(-ENOTDIR, sag_stat(&hub, 0, 2, PATH("/sticky/f/"), &meta));
    TELLS_WITHOUT_HEAP(-ENOENT, sag_stat(&hub, 0, 2, PATH("/none"), &meta));
    WANT(meta.mode == 7 && meta.uid == 7 && meta.gid == 7);

    TELLS_WITHOUT_HEAP(-ENOTDIR, sag_list(&hub, 0, 2, PATH("/sticky/f"), into, sizeof into));
    TELLS_WITHOUT_HEAP(-EACCES, sag_list(&hub, 0, 2, PATH("/read only/d"), into, sizeof into));
    WANT(got(0, 0));
    TELLS(4, sag_list(&hub, 0, 3, PATH("/sticky"), into, 3));
    WANT(memcmp(into, "d/f", 3) == 0 && into[3] == UNTOUCHED);
    memset(into, UNTOUCHED, 3);

    TELLS_WITHOUT_HEAP(-EINVAL, sag_open_path(&hub, 0, 2, PATH("/none"), SAG_NONBLOCK));
    TELLS_WITHOUT_HEAP(-EISDIR, sag_open_path(&hub, 0, 2, PATH("/read only/d"), SAG_READ));
    TELLS_WITHOUT_HEAP(-EACCES, sag_open_path(&hub, 0, 3, PATH("/sticky/f"), SAG_READ | SAG_WRITE));
    TELLS_WITHOUT_HEAP(-ENXIO, sag_open_path(&hub, 0, 2, PATH("/sticky/f"), SAG_WRITE | SAG_NONBLOCK));
}

/* Opens of FIFOs: fifo(7). */
static void opens(void) {
    TELLS(0, sag_mkfifo(&hub, 0, 1, PATH("/a FIFO for all"), 0666));
    TELLS(SAG_PARKED, sag_open_path(&hub, 0, 2, PATH("/a FIFO for all"), SAG_READ));
    TELLS_WITHOUT_HEAP(false, sag_can_go_on(&hub, 0, 2));
    TELLS(0, sag_open_path(&hub, 0, 3, PATH("/a FIFO for all"), SAG_WRITE | SAG_NONBLOCK));
    TELLS_WITHOUT_HEAP(2, sag_next_to_go_on(&hub, 0, 0));
    TELLS_WITHOUT_HEAP(0, sag_resume(&hub, 0, 2, into, 0)); /* the descriptor 0 */
    TELLS_WITHOUT_HEAP(5, sag_write(&hub, 0, 3, 0, pattern, 5));
    TELLS_WITHOUT_HEAP(5, sag_read(&hub, 0, 2, 0, into, 9));
    WANT(got(0, 5));

    /* Its name goes, its pipe stays until the last end is closed. */
    TELLS(0, sag_unlink(&hub, 0, 1, PATH("/a FIFO for all")));
    TELLS(-ENOENT, sag_open_path(&hub, 0, 2, PATH("/a FIFO for all"), SAG_READ));
    TELLS_WITHOUT_HEAP(5, sag_write(&hub, 0, 3, 0, pattern, 5));
    TELLS_WITHOUT_HEAP(1, sag_held(&hub, 0));
    TELLS_WITHOUT_HEAP(0, sag_close(&hub, 0, 3, 0));
    TELLS_WITHOUT_HEAP(5, sag_read(&hub, 0, 2, 0, into, 9));
    WANT(got(0, 5));
    TELLS_WITHOUT_HEAP(0, sag_read(&hub, 0, 2, 0, into, 9));
    TELLS_WITHOUT_HEAP(0, sag_close(&hub, 0, 2, 0));

    TELLS(0, sag_mkfifo(&hub, 0, 2, PATH("/f"), 0600));
    TELLS(0, sag_open_path(&hub, 0, 2, PATH("/f"), SAG_READ | SAG_NONBLOCK));
    TELLS_WITHOUT_HEAP(0, sag_read(&hub, 0, 2, 0, into, 1)); /* nobody writes */
    TELLS(1, sag_open_path(&hub, 0, 2, PATH("/f"), SAG_WRITE));
    TELLS_WITHOUT_HEAP(-EAGAIN, sag_read(&hub, 0, 2, 0, into, 1));
    TELLS(2, sag_open_path(&hub, 0, 2, PATH("/f"), SAG_READ | SAG_WRITE | 8)); /* 8 means nothing */
    TELLS_WITHOUT_HEAP(SAG_PARKED, sag_read(&hub, 0, 2, 2, into, 1));
    TELLS_WITHOUT_HEAP(0, sag_exit(&hub, 0, 2));
    TELLS(SAG_PARKED, sag_open_path(&hub, 0, 1, PATH("/f"), SAG_WRITE)); /* it waits until the end */
}

/* 10,000 files, and no more. */
static void many_files(void) {
    char name[] = "/n00000";
    three();
    for (int i = 0; i < 10000; i++) {
        snprintf(name, sizeof name, "/n%05d", i);
        WANT((i % 2 ? sag_mkdir : sag_mkfifo)(&hub, 0, 1, name, 7, 0700) == 0);
    }
    TELLS_WITHOUT_HEAP(-ENOSPC, sag_mkdir(&hub, 0, 1, PATH("/one more"), 0700));
    TELLS_WITHOUT_HEAP(-ENOSPC, sag_mkfifo(&hub, 0, 1, PATH("/one more"), 0600));
    TELLS(80000 - 10000, sag_list(&hub, 0, 1, PATH("/"), into, 7));
    WANT(memcmp(into, "n00000/", 7) == 0 && into[7] == UNTOUCHED);
    memset(into, UNTOUCHED, 7);
    TELLS(0, sag_unlink(&hub, 0, 1, PATH("/n00500")));
    TELLS(0, sag_mkdir(&hub, 0, 1, PATH("/one more"), 0700));
    end();
}

static void files(void) {
    static const size_t lengths[] = {4, 14, 15, 16, 100, 512, LONGEST_PATH};
    three();
    for (size_t i = 0; i < sizeof lengths / sizeof *lengths; i++) paths_of(lengths[i]);
    deep_paths();
    faulty_paths();
    refused_files();
    opens();
    end();
    many_files();
}

static void all(void) {
    hubs();
    namespaces();
    nobody();
    processes();
    reads_and_writes();
    waits();
    transfers();
    sizes();
    descriptors();
    files();
}

int main(void) {
    for (size_t i = 0; i < sizeof pattern; i++) pattern[i] = (uint8_t)(i % 251 + i / 4096);
    memset(into, UNTOUCHED, sizeof into);
    all();
    puts("each call tells what is wanted of it");
    refuses = true;
    all();
    puts("each call tells the same once its requests for memory, refused in turn, are granted");
    puts("each block was given back");
    return 0;
}
