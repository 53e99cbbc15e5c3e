/* A host that runs two plug-ins in one process, as a shell runs two programs: `list | number`. Each is a program that
 * was written for system calls; here its calls go to Sagthrey, and none of them blocks the host. An event loop gives
 * each plug-in its turn, and tries the call in which one waits again once it can go on.
 *
 * The plug-ins know numbers of their own, 0 and 1, since a shell moves the pipe's ends there with dup2. Sagthrey has
 * dup(2) and no dup2(2), so the host keeps a table for each program, from the program's number to the descriptor. */
#include "../../include/sagthrey.h"
#include <errno.h>
#include <stdio.h>
#include <stdlib.h>
#include <string.h>

enum { NAMESPACE = 0, NUMBERS = 8, CLOSED = -1 };

static void want(bool holds, const char *what) {
    if (!holds) {
        printf("pipeline: this doesn't hold: %s\n", what);
        exit(1);
    }
}
#define WANT(e) want((e), #e)

/* A program as the host keeps it: its process, its own numbers of descriptors, the call in which it waits. */
typedef struct program {
    const char *name;
    uint32_t pid;
    int64_t numbers[NUMBERS];
    bool waits, ended;
    char buffer[16]; /* of the read that waits */
    int line;        /* how far the plug-in has come */
} program;

static sag_hub hub = SAG_SHUT;

/* What a program's own number names, or CLOSED. */
static int64_t descriptor(const program *p, int number) {
    return number >= 0 && number < NUMBERS ? p->numbers[number] : CLOSED;
}

/* close(2) of a program's own number. */
static int64_t host_close(program *p, int number) {
    int64_t fd = descriptor(p, number);
    if (fd == CLOSED) return -EBADF;
    p->numbers[number] = CLOSED;
    return sag_close(&hub, NAMESPACE, p->pid, (uint32_t)fd);
}

/* dup2(2): what `to` names is closed, and then it names what `from` names. In this order it succeeds in a full table
 * too, as dup2 does; and nothing is closed where `from` names nothing. */
static int64_t host_dup2(program *p, int from, int to) {
    int64_t fd = descriptor(p, from);
    if (fd == CLOSED || to < 0 || to >= NUMBERS) return -EBADF;
    if (from == to) return to;
    if (p->numbers[to] != CLOSED) host_close(p, to);
    int64_t copy = sag_dup(&hub, NAMESPACE, p->pid, (uint32_t)fd);
    if (copy < 0) return copy;
    p->numbers[to] = copy;
    return to;
}

/* pipe(2): the ends get the least free numbers of the program. */
static int64_t host_pipe(program *p, int ends[2]) {
    uint32_t fds[2];
    int64_t told = sag_pipe(&hub, NAMESPACE, p->pid, false, fds);
    if (told < 0) return told;
    for (int end = 0; end < 2; end++) {
        int number = 0;
        while (number < NUMBERS && p->numbers[number] != CLOSED) number++;
        WANT(number < NUMBERS);
        p->numbers[number] = fds[end];
        ends[end] = number;
    }
    return 0;
}

/* fork(2): the child has the same descriptors, under the same numbers. */
static program host_fork(const program *parent, const char *name) {
    program child = *parent;
    int64_t pid = sag_fork(&hub, NAMESPACE, parent->pid);
    WANT(pid > 0);
    child.name = name;
    child.pid = (uint32_t)pid;
    return child;
}

static void host_exit(program *p) {
    WANT(sag_exit(&hub, NAMESPACE, p->pid) == 0);
    p->ended = true;
    printf("%s ends\n", p->name);
}

/* The first plug-in writes three lines to its number 1. */
static void list(program *p) {
    static const char *const lines[] = {"ash\n", "birch\n", "cedar\n"};
    if (p->line == 3) {
        host_exit(p);
        return;
    }
    const char *line = lines[p->line++];
    int64_t told = sag_write(&hub, NAMESPACE, p->pid, (uint32_t)descriptor(p, 1), line, strlen(line));
    WANT(told == (int64_t)strlen(line));
    printf("%s writes %d bytes\n", p->name, (int)told);
}

/* The second is told what it read from its number 0, and prints it with a number; at the end it ends too. */
static void number(program *p, int64_t told) {
    if (told == 0) {
        host_exit(p);
        return;
    }
    WANT(told > 0);
    printf("%s reads: %d %.*s", p->name, ++p->line, (int)told, p->buffer);
}

/* A read that may wait. Where it does, the program has its next turn once the call can go on. */
static void turn_of_number(program *p) {
    int64_t told = p->waits
        ? sag_resume(&hub, NAMESPACE, p->pid, p->buffer, sizeof p->buffer)
        : sag_read(&hub, NAMESPACE, p->pid, (uint32_t)descriptor(p, 0), p->buffer, sizeof p->buffer);
    WANT(!p->waits || told != SAG_PARKED);
    p->waits = told == SAG_PARKED;
    if (p->waits) {
        printf("%s waits\n", p->name);
        return;
    }
    number(p, told);
}

int main(void) {
    const sag_limits limits = {16, SAG_DEFAULT_SOFT, SAG_DEFAULT_HARD, SAG_DEFAULT_MAX};
    WANT(sag_open(16, &limits, 1, &hub) == 0);
    const uint32_t no_groups[1] = {0};
    int64_t pid = sag_spawn(&hub, NAMESPACE, 1000, 1000, no_groups, 0, 022);
    WANT(pid == 1);
    program shell = {.name = "shell", .pid = (uint32_t)pid};
    for (int number = 0; number < NUMBERS; number++) shell.numbers[number] = CLOSED;

    /* What a shell does for `list | number`. The pipe's ends aren't yet where the programs look for them. */
    int ends[2];
    WANT(host_pipe(&shell, ends) == 0 && ends[0] == 0 && ends[1] == 1);
    program lister = host_fork(&shell, "list");
    WANT(host_dup2(&lister, ends[1], 1) == 1 && host_close(&lister, ends[0]) == 0);
    program numberer = host_fork(&shell, "number");
    WANT(host_dup2(&numberer, ends[0], 5) == 5 && host_dup2(&numberer, 5, 0) == 0 && host_close(&numberer, 5) == 0);
    WANT(host_close(&numberer, ends[1]) == 0 && host_dup2(&numberer, 6, 0) == -EBADF);
    WANT(host_close(&shell, ends[0]) == 0 && host_close(&shell, ends[1]) == 0);

    /* A program with all its descriptors taken: it can't dup, and it can dup2. */
    program full = host_fork(&lister, "full");
    WANT(host_dup2(&full, 1, 2) == 2);
    int64_t told = 0;
    while (told >= 0) told = sag_dup(&hub, NAMESPACE, full.pid, (uint32_t)descriptor(&full, 1));
    WANT(told == -EMFILE && host_dup2(&full, 1, 2) == 2 && host_dup2(&full, 5, 2) == -EBADF);
    WANT(host_close(&full, 2) == 0 && sag_exit(&hub, NAMESPACE, full.pid) == 0);

    sag_ready ready;
    WANT(sag_readiness(&hub, NAMESPACE, lister.pid, (uint32_t)descriptor(&lister, 1), &ready) == 0);
    WANT(ready.bytes == 0 && ready.room == 65536 && ready.has_reader && ready.has_writer);

    /* The event loop. The reader comes first, so it waits until there are bytes: who waits has a turn only where its call
     * can go on, so none is tried again in vain. */
    while (!lister.ended || !numberer.ended) {
        bool can = !numberer.waits || sag_can_go_on(&hub, NAMESPACE, numberer.pid);
        if (!numberer.ended && can) turn_of_number(&numberer);
        if (!lister.ended) list(&lister);
        WANT(sag_next_to_go_on(&hub, NAMESPACE, 0) == (numberer.waits ? numberer.pid : 0));
    }
    WANT(sag_exit(&hub, NAMESPACE, shell.pid) == 0);
    WANT(sag_free_frames(&hub) == 16 && sag_held(&hub, NAMESPACE) == 0);
    sag_free(&hub);
    puts("the pipeline has ended");
    return 0;
}
