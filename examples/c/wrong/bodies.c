/* Wrong libraries. Each body stands in place of a function of libsagthrey.a, by the linker's --wrap, and __real_NAME is
 * the right one. examples/c/run builds each_call.c with one of them at a time, and wants it to find the body out. */
#include "../../../include/sagthrey.h"
#include <errno.h>
#include <stdlib.h>

#ifdef free_forgets_the_hub
void __wrap_sag_free(sag_hub *h) {
    h->at = NULL;
    h->is_open = false;
}
#endif

#ifdef open_above_64_frames_wants_memory
int64_t __real_sag_open(uint32_t frames, const sag_limits *limits, size_t count, sag_hub *out);
int64_t __wrap_sag_open(uint32_t frames, const sag_limits *limits, size_t count, sag_hub *out) {
    int64_t told = __real_sag_open(frames, limits, count, out);
    if (told != 0 || frames <= 64) return told;
    sag_free(out);
    return SAG_NOMEM;
}
#endif

#ifdef exit_asks_for_memory_in_vain
int64_t __real_sag_exit(sag_hub *h, uint32_t ns, uint32_t pid);
int64_t __wrap_sag_exit(sag_hub *h, uint32_t ns, uint32_t pid) {
    void *volatile block = malloc(1);
    free(block);
    return __real_sag_exit(h, ns, pid);
}
#endif

#ifdef stat_asks_for_memory_in_vain
int64_t __real_sag_stat(sag_hub *h, uint32_t ns, uint32_t pid, const void *path, size_t length, sag_meta *meta);
int64_t __wrap_sag_stat(sag_hub *h, uint32_t ns, uint32_t pid, const void *path, size_t length, sag_meta *meta) {
    void *volatile block = malloc(1);
    free(block);
    return __real_sag_stat(h, ns, pid, path, length, meta);
}
#endif

/* A call of a process that may make one asks for memory before its other tests, and where there is none it tells so. */
#define ASKING(name, parameters, arguments)                                                      \
    int64_t __real_sag_##name parameters;                                                        \
    int64_t __wrap_sag_##name parameters {                                                       \
        if (sag_pipe_size(h, ns, pid, UINT32_MAX) != -EBADF) return __real_sag_##name arguments; \
        void *volatile block = malloc(1);                                                        \
        if (block == NULL) return SAG_NOMEM;                                                     \
        free(block);                                                                             \
        return __real_sag_##name arguments;                                                      \
    }

#ifdef fork_asks_for_memory_before_its_tests
ASKING(fork, (sag_hub *h, uint32_t ns, uint32_t pid), (h, ns, pid))
#endif
#ifdef pipe_asks_for_memory_before_its_tests
ASKING(pipe, (sag_hub *h, uint32_t ns, uint32_t pid, bool nonblock, uint32_t *fds), (h, ns, pid, nonblock, fds))
#endif
#ifdef set_pipe_size_asks_for_memory_before_its_tests
ASKING(set_pipe_size, (sag_hub *h, uint32_t ns, uint32_t pid, uint32_t fd, uint64_t bytes), (h, ns, pid, fd, bytes))
#endif
#ifdef unlink_asks_for_memory_before_its_tests
ASKING(unlink, (sag_hub *h, uint32_t ns, uint32_t pid, const void *path, size_t length), (h, ns, pid, path, length))
#endif

#if defined spawn_with_groups_wants_memory || defined spawn_forgets_the_last_group
int64_t __real_sag_spawn(sag_hub *h, uint32_t ns, uint32_t uid, uint32_t gid, const uint32_t *groups, size_t count,
                         uint32_t umask);
int64_t __wrap_sag_spawn(sag_hub *h, uint32_t ns, uint32_t uid, uint32_t gid, const uint32_t *groups, size_t count,
                         uint32_t umask) {
#ifdef spawn_with_groups_wants_memory
    if (count > 0 && sag_lives(h, ns)) return SAG_NOMEM;
#else
    if (count > 0 && count <= 32) count--;
#endif
    return __real_sag_spawn(h, ns, uid, gid, groups, count, umask);
}
#endif

#ifdef growing_pipe_wants_memory
int64_t __real_sag_set_pipe_size(sag_hub *h, uint32_t ns, uint32_t pid, uint32_t fd, uint64_t bytes);
int64_t __wrap_sag_set_pipe_size(sag_hub *h, uint32_t ns, uint32_t pid, uint32_t fd, uint64_t bytes) {
    int64_t before = sag_pipe_size(h, ns, pid, fd);
    int64_t told = __real_sag_set_pipe_size(h, ns, pid, fd, bytes);
    if (told <= before || before < 0) return told;
    __real_sag_set_pipe_size(h, ns, pid, fd, (uint64_t)before);
    return SAG_NOMEM;
}
#endif

#if defined short_write_that_waits_wants_memory || defined long_write_that_waits_wants_memory
int64_t __real_sag_write(sag_hub *h, uint32_t ns, uint32_t pid, uint32_t fd, const void *bytes, size_t count);
int64_t __wrap_sag_write(sag_hub *h, uint32_t ns, uint32_t pid, uint32_t fd, const void *bytes, size_t count) {
#ifdef short_write_that_waits_wants_memory
    /* a short one that waits has put nothing, so a process like this one can try it */
    int64_t like = count <= 4096 ? sag_fork(h, ns, pid) : -1;
    if (like > 0) {
        int64_t told = __real_sag_write(h, ns, (uint32_t)like, fd, bytes, count);
        sag_exit(h, ns, (uint32_t)like);
        return told == SAG_PARKED ? SAG_NOMEM : told;
    }
#else
    sag_ready ready;
    bool is_long = count > 4096 && sag_readiness(h, ns, pid, fd, &ready) == 0;
    if (is_long && ready.has_reader && ready.room < count) return SAG_NOMEM;
#endif
    return __real_sag_write(h, ns, pid, fd, bytes, count);
}
#endif

#ifdef tee_takes_the_bytes
int64_t __wrap_sag_tee(sag_hub *h, uint32_t ns, uint32_t pid, uint32_t source, uint32_t sink, uint64_t n,
                       bool nonblock) {
    return sag_splice(h, ns, pid, source, sink, n, nonblock);
}
#endif

#ifdef splice_leaves_the_bytes
int64_t __wrap_sag_splice(sag_hub *h, uint32_t ns, uint32_t pid, uint32_t source, uint32_t sink, uint64_t n,
                          bool nonblock) {
    return sag_tee(h, ns, pid, source, sink, n, nonblock);
}
#endif

#ifdef set_nonblock_sets_nothing
int64_t __wrap_sag_set_nonblock(sag_hub *h, uint32_t ns, uint32_t pid, uint32_t fd, bool on) {
    (void)on;
    int64_t told = sag_pipe_size(h, ns, pid, fd);
    return told < 0 ? told : 0;
}
#endif

#ifdef open_path_waits_with_nonblock_too
int64_t __real_sag_open_path(sag_hub *h, uint32_t ns, uint32_t pid, const void *path, size_t length, uint32_t flags);
int64_t __wrap_sag_open_path(sag_hub *h, uint32_t ns, uint32_t pid, const void *path, size_t length, uint32_t flags) {
    return __real_sag_open_path(h, ns, pid, path, length, flags & ~(uint32_t)SAG_NONBLOCK);
}
#endif

/* The calls with a path: want of memory is told of each process that may make one, or of each long path. */
#if defined paths_above_14_bytes_want_memory
#define WANTS length > 14 && sag_lives(h, ns)
#elif defined the_longest_paths_want_memory
#define WANTS length >= 1023 && sag_lives(h, ns)
#else
#define WANTS sag_pipe_size(h, ns, pid, UINT32_MAX) == -EBADF
#endif

#define PATH sag_hub *h, uint32_t ns, uint32_t pid, const void *path, size_t length
#define WALK(name, parameters, arguments)                             \
    int64_t __real_sag_##name parameters;                             \
    int64_t __wrap_sag_##name parameters {                            \
        return WANTS ? SAG_NOMEM : __real_sag_##name arguments;       \
    }

#if defined paths_above_14_bytes_want_memory || defined the_longest_paths_want_memory
#define mkdir_wants_memory
#define mkfifo_wants_memory
#define unlink_wants_memory
#define rmdir_wants_memory
#define chmod_wants_memory
#define open_path_wants_memory
#define stat_wants_memory
#define list_wants_memory
#endif

#ifdef mkdir_wants_memory
WALK(mkdir, (PATH, uint32_t mode), (h, ns, pid, path, length, mode))
#endif
#ifdef mkfifo_wants_memory
WALK(mkfifo, (PATH, uint32_t mode), (h, ns, pid, path, length, mode))
#endif
#ifdef unlink_wants_memory
WALK(unlink, (PATH), (h, ns, pid, path, length))
#endif
#ifdef rmdir_wants_memory
WALK(rmdir, (PATH), (h, ns, pid, path, length))
#endif
#ifdef chmod_wants_memory
WALK(chmod, (PATH, uint32_t mode), (h, ns, pid, path, length, mode))
#endif
#ifdef open_path_wants_memory
WALK(open_path, (PATH, uint32_t flags), (h, ns, pid, path, length, flags))
#endif
#ifdef stat_wants_memory
WALK(stat, (PATH, sag_meta *out), (h, ns, pid, path, length, out))
#endif
#ifdef list_wants_memory
WALK(list, (PATH, void *into, size_t count), (h, ns, pid, path, length, into, count))
#endif
