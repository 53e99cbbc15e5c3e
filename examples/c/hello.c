/* One tenant with two processes: the first waits in a read until the second has written. What stands between the two
 * lines is the program of docs/C.md and of README. A call that tells something else than is wanted here ends it. */
#include "../../include/sagthrey.h"
#include <stdio.h>
#include <stdlib.h>

/* A call's result, which is printed, and tested here since the program below is too short for it. */
static int64_t tells(const char *call, int64_t wanted, int64_t told) {
    printf("%s tells %lld\n", call, (long long)told);
    if (told != wanted) {
        printf("hello: %s was to tell %lld\n", call, (long long)wanted);
        exit(1);
    }
    return told;
}
#define sag_open(...) tells("sag_open", 0, sag_open(__VA_ARGS__))
#define sag_spawn(...) tells("sag_spawn", 1, sag_spawn(__VA_ARGS__))
#define sag_pipe(...) tells("sag_pipe", 0, sag_pipe(__VA_ARGS__))
#define sag_fork(...) tells("sag_fork", 2, sag_fork(__VA_ARGS__))
#define sag_read(...) tells("sag_read", SAG_PARKED, sag_read(__VA_ARGS__))
#define sag_write(...) tells("sag_write", 5, sag_write(__VA_ARGS__))
#define sag_resume(...) tells("sag_resume", 5, sag_resume(__VA_ARGS__))

int main(void) {
    /* ---- */
    sag_limits limits = {16, SAG_DEFAULT_SOFT, SAG_DEFAULT_HARD, SAG_DEFAULT_MAX};  // 16 pages are reserved
    sag_hub hub = SAG_SHUT;
    uint32_t no_groups[1] = {0}, fds[2];
    char bytes[5];
    if (sag_open(16, &limits, 1, &hub) != 0) return 1;                // one namespace, of the number 0
    int64_t pid = sag_spawn(&hub, 0, 1000, 1000, no_groups, 0, 022);  // 1
    sag_pipe(&hub, 0, pid, false, fds);                               // 0, and fds is 0, 1
    int64_t writer = sag_fork(&hub, 0, pid);                          // 2
    sag_read(&hub, 0, pid, fds[0], bytes, 5);                         // SAG_PARKED: the process waits
    sag_write(&hub, 0, writer, fds[1], "hello", 5);                   // 5
    sag_resume(&hub, 0, pid, bytes, 5);                               // 5, and the bytes are there
    sag_free(&hub);
    /* ---- */
    printf("fds %u %u, bytes %.5s\n", (unsigned)fds[0], (unsigned)fds[1], bytes);
    return 0;
}
