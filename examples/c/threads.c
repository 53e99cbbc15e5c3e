/* Threads. Four threads have a tenant each, first in a hub of their own, so that all run at once; then in one hub, at
 * which they take turns by a lock of the host's. Each tenant is told the same both times. The hubs are opened by one
 * thread, used by others, and freed by the first. */
#include "../../include/sagthrey.h"
#include <pthread.h>
#include <stdio.h>
#include <stdlib.h>
#include <string.h>

enum { THREADS = 4, ROUNDS = 200, MOST = 2 * ROUNDS + 4, SIZE = 4096 };

static void want(bool holds, const char *what) {
    if (!holds) {
        printf("threads: this doesn't hold: %s\n", what);
        exit(1);
    }
}
#define WANT(e) want((e), #e)

static const sag_limits limits = {16, SAG_DEFAULT_SOFT, SAG_DEFAULT_HARD, SAG_DEFAULT_MAX};
static const uint32_t no_groups[1] = {0};
static pthread_mutex_t lock = PTHREAD_MUTEX_INITIALIZER;

/* A tenant: where it is, whether its calls take turns with others', and what it was told, in order. */
typedef struct tenant {
    sag_hub *hub;
    uint32_t ns;
    bool takes_turns;
    char letter;
    int64_t told[MOST];
    size_t count;
} tenant;

static void before(const tenant *t) {
    if (t->takes_turns) WANT(pthread_mutex_lock(&lock) == 0);
}

static void after(const tenant *t) {
    if (t->takes_turns) WANT(pthread_mutex_unlock(&lock) == 0);
}

static int64_t noted(tenant *t, int64_t told) {
    WANT(t->count < MOST);
    return t->told[t->count++] = told;
}
#define CALL(t, call) (before(t), noted(t, (call)), after(t))

/* Writes and reads its own letter, more and less of it in turn. */
static void *run(void *it) {
    tenant *t = it;
    char bytes[SIZE], read[SIZE];
    uint32_t fds[2] = {0, 0};
    memset(bytes, t->letter, SIZE);
    CALL(t, sag_spawn(t->hub, t->ns, 1000, 1000, no_groups, 0, 022));
    CALL(t, sag_pipe(t->hub, t->ns, 1, false, fds));
    for (size_t i = 0; i < ROUNDS; i++) {
        size_t length = 1 + i * 997 % SIZE;
        CALL(t, sag_write(t->hub, t->ns, 1, fds[1], bytes, length));
        memset(read, 0, SIZE);
        CALL(t, sag_read(t->hub, t->ns, 1, fds[0], read, SIZE));
        WANT(t->told[t->count - 1] == (int64_t)length && memcmp(read, bytes, length) == 0);
    }
    CALL(t, sag_read(t->hub, t->ns, 1, fds[0], read, SIZE));
    WANT(t->told[t->count - 1] == SAG_PARKED);
    CALL(t, sag_exit(t->hub, t->ns, 1));
    return NULL;
}

static void run_all(tenant *tenants) {
    pthread_t threads[THREADS];
    for (int i = 0; i < THREADS; i++) WANT(pthread_create(&threads[i], NULL, run, &tenants[i]) == 0);
    for (int i = 0; i < THREADS; i++) WANT(pthread_join(threads[i], NULL) == 0);
}

int main(void) {
    static tenant apart[THREADS], together[THREADS];
    sag_hub own[THREADS], shared = SAG_SHUT;
    const sag_limits all[THREADS] = {limits, limits, limits, limits};
    WANT(sag_open(16 * THREADS, all, THREADS, &shared) == 0);
    for (int i = 0; i < THREADS; i++) {
        own[i] = (sag_hub)SAG_SHUT;
        WANT(sag_open(16, &limits, 1, &own[i]) == 0);
        apart[i] = (tenant){.hub = &own[i], .letter = (char)('a' + i)};
        together[i] = (tenant){.hub = &shared, .ns = (uint32_t)i, .takes_turns = true, .letter = (char)('a' + i)};
    }
    run_all(apart);
    run_all(together);
    for (int i = 0; i < THREADS; i++) {
        WANT(apart[i].count == MOST && together[i].count == MOST);
        WANT(memcmp(apart[i].told, together[i].told, sizeof apart[i].told) == 0);
        sag_free(&own[i]);
    }
    WANT(sag_free_frames(&shared) == 16 * THREADS);
    sag_free(&shared);
    printf("each of %d tenants is told the same %d results, in a hub of its own and in turns\n", THREADS, MOST);
    return 0;
}
