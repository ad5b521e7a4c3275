// Loaded before the C library, for tests/faults: chosen calls of the system fail, or give and take little, and the others are noted.
//
// A call is `OP WHERE`. OP is accept, open, read, remove, rename, stat or write; send and recv count as write and read. WHERE is the last part of a
// file's name, the number of a standard stream, `listenerN` or `dialN` for the sockets that listen and dial, in their order, or `linkN` for those that
// were accepted, in theirs.
//
//     FAILS='OP WHERE N; ..'  the N-th such call fails
//     TURNS='OP WHERE TURN,TURN,..; ..'  what such calls do, one after the other, and behind the last turn as usual:
//         N   it reads or writes at most N bytes
//         -   it does nothing now
//         w   it waits until there is something to read or to accept; wN reads at most N bytes of it
//         sN  it waits N milliseconds first
//         A turn with an asterisk behind it is that of all calls to come.
//     NOTES=FILE  each call on a line of this file, with what it came to; but accepts, reads that nothing came of, and calls on other sockets
#define _GNU_SOURCE
#include <dlfcn.h>
#include <errno.h>
#include <fcntl.h>
#include <poll.h>
#include <pthread.h>
#include <stdarg.h>
#include <stdio.h>
#include <stdlib.h>
#include <string.h>
#include <sys/socket.h>
#include <sys/stat.h>
#include <sys/uio.h>
#include <unistd.h>

#define REAL(call) ((__typeof__(&call))dlsym(RTLD_NEXT, #call))

enum { PATIENCE = 30000, ALL = 1 << 30 };

static pthread_mutex_t lock = PTHREAD_MUTEX_INITIALIZER;
static char sockets[4096][16];
static int accepted, dialled, listening, notes = -1;
static const char *fails = "", *turns = "";
static struct {
    char call[80];
    long made;
} counts[256];

__attribute__((constructor)) static void begin(void) {
    fails = getenv("FAILS") ? strdup(getenv("FAILS")) : "";
    turns = getenv("TURNS") ? strdup(getenv("TURNS")) : "";
    if (getenv("NOTES"))
        notes = REAL(open)(getenv("NOTES"), O_WRONLY | O_CREAT | O_APPEND, 0600);
    unsetenv("LD_PRELOAD");
}

static void note(const char *op, const char *where, long came) {
    char line[160];
    int idle = came < 0 && errno == EAGAIN && *op == 'r';
    if (notes < 0 || *op == 'a' || !*where || idle)
        return;
    int saved = errno, size = snprintf(line, sizeof line, "%s %s %ld\n", op, where, came);
    if (size > 0 && REAL(write)(notes, line, (size_t)size) < 0)
        abort();
    errno = saved;
}

static const char *last_part(const char *path) {
    const char *slash = strrchr(path, '/');
    return slash && slash[1] ? slash + 1 : path;
}

/* Where a descriptor leads. Other sockets and pipes have no name. */
static void place(int fd, char *where, size_t room) {
    char link[32], path[512];
    if (fd >= 0 && fd <= 2) {
        snprintf(where, room, "%d", fd);
    } else if (fd > 2 && fd < 4096 && sockets[fd][0]) {
        snprintf(where, room, "%s", sockets[fd]);
    } else {
        snprintf(link, sizeof link, "/proc/self/fd/%d", fd);
        ssize_t size = readlink(link, path, sizeof path - 1);
        path[size < 0 ? 0 : size] = 0;
        snprintf(where, room, "%s", path[0] == '/' ? last_part(path) : "");
    }
}

/* The number of this call among its like, from 1. */
static long number(const char *op, const char *where) {
    char call[80];
    long made = 0;
    snprintf(call, sizeof call, "%s %s", op, where);
    pthread_mutex_lock(&lock);
    for (int at = 0; at < 256; at++) {
        if (!counts[at].call[0])
            strcpy(counts[at].call, call);
        if (!strcmp(counts[at].call, call)) {
            made = ++counts[at].made;
            break;
        }
    }
    pthread_mutex_unlock(&lock);
    return made;
}

/* What stands behind `OP WHERE ` in a list of entries that semicolons part. */
static const char *entry(const char *list, const char *op, const char *where) {
    char call[80];
    size_t size = (size_t)snprintf(call, sizeof call, "%s %s ", op, where);
    for (const char *at = list; *at; at = strchr(at, ';') ? strchr(at, ';') + 1 : "") {
        at += strspn(at, " ");
        if (!strncmp(at, call, size))
            return at + size;
    }
    return "";
}

static int is_failing(const char *op, const char *where, long made) {
    char call[80];
    size_t size = (size_t)snprintf(call, sizeof call, "%s %s ", op, where);
    for (const char *at = fails; *at; at = strchr(at, ';') ? strchr(at, ';') + 1 : "") {
        at += strspn(at, " ");
        if (!strncmp(at, call, size) && atol(at + size) == made)
            return 1;
    }
    return 0;
}

/* A call begins: how many bytes it may move, or -1 where it is over. */
static long begins(int fd, const char *op, const char *where, int fault) {
    long made = number(op, where);
    if (is_failing(op, where, made)) {
        errno = fault;
        return -1;
    }
    const char *turn = entry(turns, op, where);
    while (made > 1 && *turn && *turn != ';') {
        size_t size = strcspn(turn, ",;");
        if (turn[size - 1] == '*')
            break;
        turn += size + (turn[size] == ',');
        made--;
    }
    if (*turn == '-') {
        errno = EAGAIN;
        return -1;
    }
    if (*turn == 's')
        usleep((useconds_t)atol(turn + 1) * 1000);
    if (*turn == 'w') {
        struct pollfd ready = {fd, POLLIN, 0};
        (void)poll(&ready, 1, PATIENCE);
        turn++;
    }
    return *turn >= '0' && *turn <= '9' ? atol(turn) : ALL;
}

static int on_path(const char *op, const char *path) {
    return begins(-1, op, last_part(path), EIO) < 0 ? -1 : 0;
}

static int fault_of(const char *where) {
    return strncmp(where, "link", 4) && strncmp(where, "dial", 4) ? EIO : ECONNRESET;
}

#define MOVES(op, fd, want, call)                                \
    char where[64];                                              \
    place(fd, where, sizeof where);                              \
    long most = begins(fd, op, where, fault_of(where));          \
    size_t size = most < (long)(want) ? (size_t)most : (want);   \
    ssize_t came = most < 0 ? -1 : call;                         \
    note(op, where, came);                                       \
    return came

ssize_t read(int fd, void *into, size_t want) { MOVES("read", fd, want, REAL(read)(fd, into, size)); }
ssize_t recv(int fd, void *into, size_t want, int flags) { MOVES("read", fd, want, REAL(recv)(fd, into, size, flags)); }
ssize_t write(int fd, const void *from, size_t want) { MOVES("write", fd, want, REAL(write)(fd, from, size)); }
ssize_t send(int fd, const void *from, size_t want, int flags) { MOVES("write", fd, want, REAL(send)(fd, from, size, flags)); }

ssize_t writev(int fd, const struct iovec *parts, int count) {
    size_t want = 0, at = 0;
    for (int part = 0; part < count; part++)
        want += parts[part].iov_len;
    char *all = malloc(want + 1);
    if (!all)
        return -1;
    for (int part = 0; part < count; at += parts[part++].iov_len)
        memcpy(all + at, parts[part].iov_base, parts[part].iov_len);
    ssize_t came = write(fd, all, want);
    free(all);
    return came;
}

static mode_t mode_of(int flags, va_list rest) { return flags & (O_CREAT | O_TMPFILE) ? (mode_t)va_arg(rest, int) : 0; }

int open(const char *path, int flags, ...) {
    va_list rest;
    va_start(rest, flags);
    mode_t mode = mode_of(flags, rest);
    va_end(rest);
    int came = on_path("open", path) < 0 ? -1 : REAL(open)(path, flags, mode);
    note("open", last_part(path), came < 0 ? -1 : 0);
    return came;
}

int openat(int at, const char *path, int flags, ...) {
    va_list rest;
    va_start(rest, flags);
    mode_t mode = mode_of(flags, rest);
    va_end(rest);
    int came = on_path("open", path) < 0 ? -1 : REAL(openat)(at, path, flags, mode);
    note("open", last_part(path), came < 0 ? -1 : 0);
    return came;
}

int open64(const char *path, int flags, ...) __attribute__((alias("open")));
int openat64(int at, const char *path, int flags, ...) __attribute__((alias("openat")));

int statx(int at, const char *restrict path, int flags, unsigned mask, struct statx *restrict found) {
    int came = *path && on_path("stat", path) < 0 ? -1 : REAL(statx)(at, path, flags, mask, found);
    note("stat", last_part(path), came);
    return came;
}

int unlink(const char *path) {
    int came = on_path("remove", path) < 0 ? -1 : REAL(unlink)(path);
    note("remove", last_part(path), came);
    return came;
}

int rename(const char *from, const char *to) {
    int came = on_path("rename", to) < 0 ? -1 : REAL(rename)(from, to);
    note("rename", last_part(to), came);
    return came;
}

static void name_socket(int fd, const char *kind, int *count) {
    pthread_mutex_lock(&lock);
    if (fd >= 0 && fd < 4096)
        snprintf(sockets[fd], sizeof sockets[fd], "%s%d", kind, ++*count);
    pthread_mutex_unlock(&lock);
}

int listen(int fd, int most) {
    name_socket(fd, "listener", &listening);
    return REAL(listen)(fd, most);
}

int connect(int fd, const struct sockaddr *to, socklen_t size) {
    name_socket(fd, "dial", &dialled);
    return REAL(connect)(fd, to, size);
}

int accept4(int fd, struct sockaddr *restrict from, socklen_t *restrict size, int flags) {
    char where[64];
    place(fd, where, sizeof where);
    if (begins(fd, "accept", where, EIO) < 0)
        return -1;
    int came = REAL(accept4)(fd, from, size, flags);
    if (came >= 0)
        name_socket(came, "link", &accepted);
    return came;
}

int close(int fd) {
    pthread_mutex_lock(&lock);
    if (fd >= 0 && fd < 4096)
        sockets[fd][0] = 0;
    pthread_mutex_unlock(&lock);
    return REAL(close)(fd);
}
