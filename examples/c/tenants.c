/* Two tenants over one pool. The neighbour takes all that it has reserved, and more is refused. The quiet tenant's
 * calls are made twice: on pages that are full of the neighbour's bytes, while it takes all it can and is refused; and
 * on a hub that the quiet tenant has for itself. Both times it is told what the manual pages say, and reads its own
 * bytes. Then the neighbour goes, and another is admitted in its place. */
#include "../../include/sagthrey.h"
#include <errno.h>
#include <stdio.h>
#include <stdlib.h>
#include <string.h>

enum { QUIET = 0, PAGE = 4096, MOST = 64 };

static void want(bool holds, const char *what) {
    if (!holds) {
        printf("tenants: this doesn't hold: %s\n", what);
        exit(1);
    }
}
#define WANT(e) want((e), #e)

static const sag_limits limits = {32, SAG_DEFAULT_SOFT, SAG_DEFAULT_HARD, SAG_DEFAULT_MAX};
static const uint32_t no_groups[1] = {0};
static char page[PAGE], sink[2 * PAGE];

/* What a tenant is told and reads, in order. */
typedef struct transcript {
    int64_t told[MOST];
    char read[MOST * PAGE];
    size_t count, length;
} transcript;

static int64_t noted(transcript *t, int64_t told) {
    WANT(t->count < MOST);
    return t->told[t->count++] = told;
}
#define NOTE(t, wanted, call) want(noted((t), (call)) == (wanted), #call " tells " #wanted)

/* The bytes that a call has put into the sink: they are these, and behind them it is as it was. */
static void note_bytes(transcript *t, const char *bytes, size_t count) {
    WANT(t->length + count <= sizeof t->read && memcmp(sink, bytes, count) == 0);
    for (size_t i = count; i < sizeof sink; i++) WANT(sink[i] == '?');
    memcpy(t->read + t->length, sink, count);
    t->length += count;
    memset(sink, '?', sizeof sink);
}

/* The neighbour makes pipes of one page each and fills them, until it is refused. */
static int neighbour_fills(sag_hub *h, uint32_t ns) {
    WANT(sag_spawn(h, ns, 2000, 2000, no_groups, 0, 022) == 1);
    int64_t told = 0;
    int pipes = 0;
    memset(page, 'n', PAGE);
    for (;;) {
        uint32_t fds[2] = {0, 0};
        told = sag_pipe(h, ns, 1, true, fds);
        if (told != 0) break;
        WANT(sag_set_pipe_size(h, ns, 1, fds[1], PAGE) == PAGE);
        WANT(sag_write(h, ns, 1, fds[1], page, PAGE) == PAGE);
        pipes++;
    }
    WANT(told == -ENFILE && sag_held(h, ns) == limits.reserve);
    return pipes;
}

/* The quiet tenant's calls: the first half before the neighbour fills its pages, the second after. */
static void quiet_begins(sag_hub *h, transcript *t) {
    uint32_t fds[2] = {7, 7};
    NOTE(t, 1, sag_spawn(h, QUIET, 1000, 1000, no_groups, 0, 022));
    NOTE(t, 0, sag_pipe(h, QUIET, 1, true, fds));
    NOTE(t, 0, fds[0]);
    NOTE(t, 1, fds[1]);
    NOTE(t, -EAGAIN, sag_read(h, QUIET, 1, fds[0], sink, sizeof sink));
    NOTE(t, 5, sag_write(h, QUIET, 1, fds[1], "quiet", 5));
    NOTE(t, 0, sag_mkdir(h, QUIET, 1, "/run", 4, 0700));
    NOTE(t, 0, sag_mkfifo(h, QUIET, 1, "/run/calls", 10, 0600));
}

static void quiet_goes_on(sag_hub *h, transcript *t) {
    NOTE(t, 5, sag_read(h, QUIET, 1, 0, sink, sizeof sink));
    note_bytes(t, "quiet", 5);
    memset(page, 'q', PAGE);
    for (int i = 0; i < 16; i++) NOTE(t, PAGE, sag_write(h, QUIET, 1, 1, page, PAGE));
    NOTE(t, -EAGAIN, sag_write(h, QUIET, 1, 1, page, PAGE));
    NOTE(t, 16 * PAGE, sag_pipe_size(h, QUIET, 1, 1));
    NOTE(t, PAGE, sag_read(h, QUIET, 1, 0, sink, PAGE));
    note_bytes(t, page, PAGE);
    sag_meta meta = {7, 7, 7};
    NOTE(t, 0, sag_stat(h, QUIET, 1, "/run/calls", 10, &meta));
    NOTE(t, 0010600, meta.mode); /* S_IFIFO */
    NOTE(t, 1000, meta.uid);
    NOTE(t, 1000, meta.gid);
    NOTE(t, 6, sag_list(h, QUIET, 1, "/run", 4, sink, sizeof sink));
    note_bytes(t, "calls/", 6);
    NOTE(t, 0, sag_chmod(h, QUIET, 1, "/run/calls", 10, 0666));
    NOTE(t, 0, sag_unlink(h, QUIET, 1, "/run/calls", 10));
    NOTE(t, 0, sag_rmdir(h, QUIET, 1, "/run", 4));
}

int main(void) {
    memset(sink, '?', sizeof sink);
    const sag_limits both[2] = {limits, limits};
    sag_hub shared = SAG_SHUT, own = SAG_SHUT;
    static transcript beside, alone;
    WANT(sag_open(64, both, 2, &shared) == 0 && sag_open(32, both, 1, &own) == 0);

    /* The neighbour's bytes are in each page that it gives back. */
    WANT(neighbour_fills(&shared, 1) == 32 && sag_exit(&shared, 1, 1) == 0 && sag_held(&shared, 1) == 0);
    quiet_begins(&shared, &beside);
    int pipes = neighbour_fills(&shared, 1);
    printf("the neighbour fills %d pipes, holds %u frames, and is told -ENFILE\n", pipes, (unsigned)limits.reserve);
    quiet_goes_on(&shared, &beside);

    quiet_begins(&own, &alone);
    quiet_goes_on(&own, &alone);

    WANT(beside.count == alone.count && memcmp(beside.told, alone.told, sizeof alone.told) == 0);
    WANT(beside.length == alone.length && memcmp(beside.read, alone.read, sizeof alone.read) == 0);
    printf("the quiet tenant is told %d results and reads %d bytes, and the same alone\n", (int)alone.count,
           (int)alone.length);

    /* The neighbour goes only once it has no process, and its number isn't given again. */
    WANT(sag_retire(&shared, 1) == -EBUSY && sag_admit(&shared, &limits) == -ENOMEM);
    WANT(sag_exit(&shared, 1, 1) == 0 && sag_retire(&shared, 1) == 0);
    WANT(!sag_lives(&shared, 1) && sag_held(&shared, 1) == SAG_NONAMESPACE);
    WANT(sag_spawn(&shared, 1, 2000, 2000, no_groups, 0, 022) == SAG_NONAMESPACE);
    WANT(sag_retire(&shared, 1) == SAG_NONAMESPACE);
    int64_t next = sag_admit(&shared, &limits);
    WANT(next == 2 && sag_lives(&shared, 2) && sag_held(&shared, 2) == 0);
    puts("the neighbour goes, and the next one is number 2");

    /* A shut handle has no namespace. */
    sag_free(&own);
    sag_free(&own);
    WANT(sag_lives(&own, QUIET) == false && sag_free_frames(&own) == 0 && sag_held(&own, QUIET) == SAG_NONAMESPACE);
    WANT(sag_write(&own, QUIET, 1, 1, page, PAGE) == SAG_NONAMESPACE && sag_admit(&own, &limits) == SAG_NONAMESPACE);
    WANT(sag_open(64, both, 2, &shared) == -EBUSY && sag_free_frames(&shared) > 0);
    sag_free(&shared);
    puts("a shut handle has no namespace");
    return 0;
}
