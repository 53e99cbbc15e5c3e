/* Sagthrey for C and C++: many tenants in one process, each a namespace with processes, descriptors, pipes and files of
 * its own, over one pool of pages.
 *
 * Each function from sag_spawn on, but for the questions sag_can_go_on, sag_next_to_go_on and sag_readiness, makes one
 * step of one namespace: it tells what a process would be told by the system call that the function follows, whose
 * manual page stands beside it, or it is this profile's own; docs/SPECIFICATION.md has the profile. `ns` is the number
 * of a namespace, `pid` a process of it, and descriptors are of the process, from 0.
 *
 * Results. A call tells 0 or more as the system call does; a system call's error as -errno, with Linux's numbers
 * (-EBADF is -9); or one of three codes, which are no error's:
 *   SAG_PARKED       the call waits. No call blocks the thread: the process waits in it, and sag_resume tries it again
 *   SAG_NOMEM        memory of the heap was wanted. Nothing has changed, and the call can be made again. It is told by
 *                    sag_open, sag_admit, each call with a path, a sag_spawn that has groups, a sag_spawn, sag_fork,
 *                    sag_pipe and sag_set_pipe_size that no error stands against, and a sag_write of more than 14
 *                    bytes that waits, and by no other
 *   SAG_NONAMESPACE  there is no such namespace. Nothing has changed. A shut handle has none
 * A call with a `pid` is refused with -ESRCH where no process of this pid lives, and then with -EBUSY where it waits in
 * a call; sag_exit and sag_resume with -ESRCH alone, and sag_can_go_on is never refused. The errors beside each
 * function come after these, in the order of their tests: the first that fits is told, and no other than these. What a
 * manual page doesn't have is this profile's own, as all that comes of `reserve`. (Numbers are given up to 2^64 - 1:
 * what would come then is left out.)
 *
 * What the host owes. A sag_hub is SAG_SHUT or was opened by sag_open; its fields are neither read nor written; only
 * one copy of it is used; and no two calls of one hub overlap, so threads take turns by a lock, or have a hub each. A
 * buffer is as long as its count says, is no part of the hub, and is nobody else's during the call. A pointer is never
 * NULL, not even where its count is 0. */
#ifndef SAGTHREY_H
#define SAGTHREY_H

#include <stdbool.h>
#include <stddef.h>
#include <stdint.h>

#ifdef __cplusplus
extern "C" {
#endif

enum { SAG_PARKED = -1000, SAG_NOMEM = -1001, SAG_NONAMESPACE = -1002 };

/* A handle: a hub, or none where it is shut. */
typedef struct sag_hub {
    void *at;
    bool is_open;
} sag_hub;
#define SAG_SHUT { NULL, false }

/* A namespace's limits. In pages of 4,096 bytes: `reserve`, the frames that are kept for it, at most 65,536; and
 * pipe-user-pages-soft and pipe-user-pages-hard (pipe(7)), 0 is no limit. In bytes: pipe-max-size, a power of two from
 * 65,536 to 268,435,456. */
typedef struct sag_limits {
    uint32_t reserve, soft, hard, max;
} sag_limits;
#define SAG_DEFAULT_SOFT 16384u
#define SAG_DEFAULT_HARD 0u
#define SAG_DEFAULT_MAX 1048576u

/* What is known of a file (stat(2), inode(7)): the type, S_IFIFO or S_IFDIR, and the mode in one number, as st_mode has
 * them; the owner; the group. */
typedef struct sag_meta {
    uint32_t mode, uid, gid;
} sag_meta;

/* What the pipe of a descriptor is ready for: how many bytes there are to read (FIONREAD of ioctl_pipe(2)), how many it
 * has room for, and whether somebody reads the pipe and somebody writes it. A write of at most `room` bytes that isn't
 * refused goes in whole at once: sag_write takes at most 1,048,576, and wants somebody who reads. In the words of
 * poll(2), of an end that reads: POLLIN where bytes > 0, POLLHUP where !has_writer (also of a FIFO that nobody has
 * opened for writing yet, where poll(2) wants one that was closed); and of one that writes: POLLOUT where room >= 4096,
 * POLLERR where !has_reader. */
typedef struct sag_ready {
    uint64_t bytes, room;
    bool has_reader, has_writer;
} sag_ready;

/* How sag_open_path opens a FIFO: for reading, for writing, or both; and with O_NONBLOCK. Other bits mean nothing. Not
 * the numbers of <fcntl.h>. */
enum { SAG_READ = 1, SAG_WRITE = 2, SAG_NONBLOCK = 4 };

/* Hubs */

/* Opens a hub of `frames` pages, at most 65,536, with a namespace of each of `count` limits, at most 64: their
 * numbers are their places, from 0. 0; or -EBUSY where *out is open, -EINVAL where there are more of either, a limit
 * is out of its range, or the reservations are more than the frames, and else SAG_NOMEM. Where it isn't 0, *out is as
 * it was. */
int64_t sag_open(uint32_t frames, const sag_limits *limits, size_t count, sag_hub *out);

/* Frees a hub and all that its namespaces hold, and shuts the handle. A shut one stays as it is. */
void sag_free(sag_hub *h);

/* Admits a namespace of these limits, and tells its number: the least that was never given. Else SAG_NONAMESPACE of a
 * shut handle, -EINVAL for a limit out of its range, -ENOSPC where 64 live or 1,024 were given a number, -ENOMEM where
 * `reserve` is above the frames that nobody has reserved, SAG_NOMEM. */
int64_t sag_admit(sag_hub *h, const sag_limits *limits);

/* Retires a namespace that has no process: what it reserved is free for others, and its number isn't given again. 0; or
 * -EBUSY where it has a process, one that waits too. */
int64_t sag_retire(sag_hub *h, uint32_t ns);

/* Whether a namespace of this number lives: it was opened with the hub or admitted, and isn't retired. */
bool sag_lives(sag_hub *h, uint32_t ns);

/* How many frames a namespace holds: never more than it has reserved. Or SAG_NONAMESPACE. */
int64_t sag_held(sag_hub *h, uint32_t ns);

/* How many frames nobody holds; 0 of a shut handle. */
uint32_t sag_free_frames(sag_hub *h);

/* Processes */

/* A new process with these ids and no descriptor: its pid, the least free one from 1 to 256. -EINVAL for a umask
 * above 0777 or more than 32 groups, -EAGAIN where there are 256. (fork(2), credentials(7)) */
int64_t sag_spawn(sag_hub *h, uint32_t ns, uint32_t uid, uint32_t gid, const uint32_t *groups, size_t count,
                  uint32_t umask);

/* A new process with the same ids and descriptors: its pid. -EAGAIN where there are 256. (fork(2)) */
int64_t sag_fork(sag_hub *h, uint32_t ns, uint32_t pid);

/* The process ends, also one that waits, and its descriptors are closed. 0; or -ESRCH. (exit(2)) */
int64_t sag_exit(sag_hub *h, uint32_t ns, uint32_t pid);

/* Tries the call again in which the process waits, and tells what that call tells: SAG_PARKED where it still waits.
 * -ESRCH; -EINVAL where the process waits in none; -EPIPE of a write that has put nothing, of a tee and of a splice,
 * where nobody reads any more, and then it waits no more. A call that waits is told no other error, whatever O_NONBLOCK
 * is. A read hands out as many bytes as it asked for when it began to wait, or what there is. They are laid into the
 * buffer from where they stand, as many as it has room for, and what is beyond is lost, as of recv(2) with MSG_TRUNC:
 * give it the buffer of the read that waits, and any other where the call is no read. Of a read, a result above `count`
 * says that bytes were lost. No memory of the heap is wanted. This profile's own. */
int64_t sag_resume(sag_hub *h, uint32_t ns, uint32_t pid, void *into, size_t count);

/* Who can go on. An event loop asks after each step that may have let somebody go on: one of the same namespace. */

/* Whether the call in which a process waits comes further when sag_resume tries it again: it is told something else
 * than SAG_PARKED, or more bytes of its write go in. False where it waits in no call, and where there is no such
 * process or namespace. This profile's own. */
bool sag_can_go_on(sag_hub *h, uint32_t ns, uint32_t pid);

/* The least pid above `after` whose process can go on, 0 where there is none or no such namespace: so a loop from 0
 * finds them all. This profile's own, in place of poll(2) and epoll(7). */
uint32_t sag_next_to_go_on(sag_hub *h, uint32_t ns, uint32_t after);

/* Pipes */

/* A new pipe: fds[0] is for reading, fds[1] for writing. 0, else both stay as they were. `nonblock` is pipe2's
 * O_NONBLOCK. It has 16 pages, or one where with 16 its user's pipes would be above `soft`, of any uid but 0, or all
 * pipes above `reserve`. -EMFILE where fewer than two descriptors are free; -ENFILE where with these pages its user's
 * pipes would be above `hard`, of any uid but 0, or all pipes above `reserve`. (pipe(2), pipe(7)) */
int64_t sag_pipe(sag_hub *h, uint32_t ns, uint32_t pid, bool nonblock, uint32_t fds[2]);

/* Reads at most `count` bytes, and tells how many; 0 at the end. -EBADF for no descriptor that reads; -EAGAIN with
 * O_NONBLOCK, where it would wait. No memory of the heap is wanted. (read(2), pipe(7)) */
int64_t sag_read(sag_hub *h, uint32_t ns, uint32_t pid, uint32_t fd, void *into, size_t count);

/* Writes bytes, and tells how many. -EBADF for no descriptor that writes; -EINVAL for more than 1,048,576 bytes; -EPIPE
 * where there are bytes and nobody reads the pipe, and no signal is sent; -EAGAIN with O_NONBLOCK, where none goes in.
 * Memory of the heap is wanted only where it waits, for a copy of more than 14 bytes. (write(2), pipe(7)) */
int64_t sag_write(sag_hub *h, uint32_t ns, uint32_t pid, uint32_t fd, const void *bytes, size_t count);

/* Copies at most n bytes of the pipe `source` to the end of the pipe `sink`, and tells how many; 0 at the end of
 * `source`. `nonblock` is SPLICE_F_NONBLOCK. -EBADF for a source that doesn't read or a sink that doesn't write;
 * -EINVAL for two ends of one pipe; -EPIPE where n is above 0 and nobody reads the sink; -EAGAIN where it would wait,
 * with `nonblock` or with O_NONBLOCK of either. (tee(2)) */
int64_t sag_tee(sag_hub *h, uint32_t ns, uint32_t pid, uint32_t source, uint32_t sink, uint64_t n, bool nonblock);

/* The same, and they leave `source`. -EBADF, -EINVAL, -EPIPE, -EAGAIN, as sag_tee. (splice(2)) */
int64_t sag_splice(sag_hub *h, uint32_t ns, uint32_t pid, uint32_t source, uint32_t sink, uint64_t n, bool nonblock);

/* Gives a pipe another capacity, and tells it, in bytes: the least power of two of pages, at least one, that has room
 * for so many. -EBADF; -EINVAL for more than 2,147,483,648 bytes; -EPERM above `max`, also where it
 * doesn't grow, for any uid but 0. Where it grows, -EPERM where the pipes of the user who made it would be above `soft`
 * or `hard`, for any uid but 0, then -ENFILE where all pipes would be above `reserve`. Where it shrinks, -EBUSY where
 * more pages are in use. (fcntl(2), F_SETPIPE_SZ) */
int64_t sag_set_pipe_size(sag_hub *h, uint32_t ns, uint32_t pid, uint32_t fd, uint64_t bytes);

/* A pipe's capacity in bytes. -EBADF. (fcntl(2), F_GETPIPE_SZ) */
int64_t sag_pipe_size(sag_hub *h, uint32_t ns, uint32_t pid, uint32_t fd);

/* What the pipe of a descriptor, for reading or for writing, is ready for goes to *out. 0, else *out is as it was:
 * -EBADF, as sag_pipe_size. It is no step, and changes nothing. (poll(2)) */
int64_t sag_readiness(sag_hub *h, uint32_t ns, uint32_t pid, uint32_t fd, sag_ready *out);

/* Descriptors */

/* Closes a descriptor. 0; or -EBADF. (close(2)) */
int64_t sag_close(sag_hub *h, uint32_t ns, uint32_t pid, uint32_t fd);

/* The least free descriptor, for the same open file description. -EBADF; -EMFILE where all 256 are taken. A host whose
 * programs call dup2(2) or fcntl(2) with F_DUPFD keeps a table of their numbers (examples/c/pipeline.c). (dup(2)) */
int64_t sag_dup(sag_hub *h, uint32_t ns, uint32_t pid, uint32_t fd);

/* Sets O_NONBLOCK of an open file description, or takes it away. 0; or -EBADF. (fcntl(2), F_SETFL) */
int64_t sag_set_nonblock(sag_hub *h, uint32_t ns, uint32_t pid, uint32_t fd, bool on);

/* Files. A path is `length` bytes and no string: a byte 0 is no end. All start at the root; a mode counts its bits as
 * chmod(2) does, at most 01777. Up to 14 bytes of a path are copied without memory of the heap; then, where no name in
 * it is `.` or `..`, SAG_NOMEM is told of no call that is refused, and of no sag_stat.
 *
 * Errors of every path, before those beside a function: -EINVAL where it has a byte 0; -ENOENT where it is empty;
 * -ENAMETOOLONG above 1,023 bytes, or for a name above 255, wherever that stands; then at each name -ENOTDIR where the
 * one before it is no directory, -EACCES where that may not be searched, -ENOENT where there is none. The last name is
 * walked so by sag_chmod, sag_open_path, sag_stat and sag_list, and with a slash behind it -ENOTDIR is told of a
 * FIFO. Of the last name the other four are told -ENOTDIR and -EACCES so, for the root itself too, and what comes then
 * stands beside them. */

/* 0. -EINVAL for a mode above 01777, before the path's; -EEXIST where there is such a file, and for the root, `.` and
 * `..`; -EACCES where the directory may not be written; -ENOSPC where there are 10,000 files besides the root.
 * (mkdir(2)) */
int64_t sag_mkdir(sag_hub *h, uint32_t ns, uint32_t pid, const void *path, size_t length, uint32_t mode);

/* 0. -EINVAL, -EEXIST, -EACCES, -ENOSPC, as sag_mkdir, and behind -EEXIST -ENOENT where the path ends in a slash.
 * (mkfifo(3)) */
int64_t sag_mkfifo(sag_hub *h, uint32_t ns, uint32_t pid, const void *path, size_t length, uint32_t mode);

/* 0: a FIFO that is open stays so. -EPERM for the root, `.` and `..`; -ENOENT where there is no such file; -ENOTDIR for
 * a FIFO and a slash behind it; -EACCES where the directory may not be written; -EPERM where its S_ISVTX keeps the
 * file, and for a directory. (unlink(2)) */
int64_t sag_unlink(sag_hub *h, uint32_t ns, uint32_t pid, const void *path, size_t length);

/* 0. -EBUSY for the root; -EINVAL for `.` and `..`; -ENOENT where there is no such file; -ENOTDIR for a FIFO; -EACCES
 * where the directory that it is in may not be written; -EPERM where that one's S_ISVTX keeps it; -ENOTEMPTY.
 * (rmdir(2)) */
int64_t sag_rmdir(sag_hub *h, uint32_t ns, uint32_t pid, const void *path, size_t length);

/* 0. -EINVAL for a mode above 01777, before the path's; -EPERM for any uid but the owner's and 0. (chmod(2)) */
int64_t sag_chmod(sag_hub *h, uint32_t ns, uint32_t pid, const void *path, size_t length, uint32_t mode);

/* Opens a FIFO, and tells the descriptor. It may wait for the other side. -EINVAL with neither SAG_READ nor SAG_WRITE,
 * before the path's; -EISDIR for a directory; -EACCES where it may not be read or written so; -EMFILE where no
 * descriptor is free; -ENXIO for SAG_WRITE and SAG_NONBLOCK without SAG_READ, where nobody reads it. A FIFO that nobody
 * has open gets a pipe, as sag_pipe makes one: -ENOMEM where that is above `hard`, -ENFILE where it is above `reserve`.
 * (open(2), fifo(7)) */
int64_t sag_open_path(sag_hub *h, uint32_t ns, uint32_t pid, const void *path, size_t length, uint32_t flags);

/* What is known of a file goes to *out. 0, else *out is as it was: the path's errors alone. (stat(2)) */
int64_t sag_stat(sag_hub *h, uint32_t ns, uint32_t pid, const void *path, size_t length, sag_meta *out);

/* The names in a directory, by bytes, each with a slash behind it: how many bytes they are. The first `count` of them
 * go into the buffer; a result above `count` says that there are more, and how large a buffer takes all. -ENOTDIR for a
 * FIFO; -EACCES where the directory may not be read. This profile's own, in place of readdir(3). */
int64_t sag_list(sag_hub *h, uint32_t ns, uint32_t pid, const void *path, size_t length, void *into, size_t count);

#ifdef __cplusplus
}
#endif

#endif
