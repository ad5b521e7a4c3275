/*
 * libdlt.so.2 over the proved library: the link to the daemon, one lock, one thread, forks, registrations and callbacks. What becomes
 * of a call, and what is said of it, is decided by crates/dl_client. Log calls are in calls.c.
 */
#define _GNU_SOURCE
#include "inside.h"

#include <arpa/inet.h>
#include <errno.h>
#include <netdb.h>
#include <poll.h>
#include <pthread.h>
#include <signal.h>
#include <stdio.h>
#include <stdlib.h>
#include <string.h>
#include <sys/eventfd.h>
#include <sys/socket.h>
#include <sys/un.h>
#include <time.h>

enum { IN_BYTES = 2048, RETRY_MS = 500, CONNECT_MS = 1000, RELEASE_BYTES = 65536 };

/* what is called back with the lock open */
typedef struct {
    Place place;
    char ctid[4];
    uint32_t kind; /* 6 a level, 7 an injection, 0 nothing */
    uint8_t level;
    uint32_t service, len;
    uint8_t bytes[INJECTED_BYTES];
} Told;

atomic_uint lock_state;
_Atomic uint64_t sieves[PLACES];
Client client;
Place places[PLACES];
atomic_bool is_verbose = true;

static Context contexts[PLACES];
static uint8_t waiting[QUEUE_BYTES + SPARE_BYTES];
static Registration app;
static char app_text[TEXT_BYTES + 1];
static bool is_registered, is_running, is_stopping, counts_inline;
static bool has_tried;    /* the thread has looked for the daemon at least once */
static bool is_asleep;    /* the thread waits, and is to be woken */
static unsigned life;     /* which thread is the library's: one of an earlier life ends */
static pthread_t thread;
static uint32_t exit_ms = 5000; /* how long the end gives what waits */

/* The link is the thread's: no other opens, closes or writes to it. */
static int link_fd = -1, wake_fd = -1;
static char users[256]; /* DLT_USERS */
static uint8_t hello[PLACES * (30 + TEXT_BYTES) + 20 + TEXT_BYTES]; /* what a new link hears first */
static size_t hello_len, hello_sent;
static size_t sent; /* how many of the bytes that wait this link has */
static uint8_t in[IN_BYTES];
static size_t in_used;

/* ---- the lock, the time, texts and numbers */

void lock_waiting(void) {
    while (atomic_exchange_explicit(&lock_state, 2, memory_order_acquire) != 0)
        syscall(SYS_futex, &lock_state, FUTEX_WAIT_PRIVATE, 2, NULL, NULL, 0);
}

uint32_t ticks_now(void) {
    struct timespec now;
    clock_gettime(CLOCK_MONOTONIC, &now);
    return (uint32_t)((uint64_t)now.tv_sec * 10000 + (uint64_t)now.tv_nsec / 100000);
}

static bool is_past(uint32_t end) { return (int32_t)(ticks_now() - end) >= 0; }

static void put_id(uint8_t id[4], const char *text) {
    memset(id, 0, 4);
    for (int i = 0; text && i < 4 && text[i]; i++)
        id[i] = (uint8_t)text[i];
}

static void put_text(char to[TEXT_BYTES + 1], const char *text) {
    memset(to, 0, TEXT_BYTES + 1);
    if (text)
        memcpy(to, text, strnlen(text, TEXT_BYTES));
}

static uint32_t le32(const uint8_t *bytes) { return bytes[0] | (uint32_t)bytes[1] << 8 | (uint32_t)bytes[2] << 16 | (uint32_t)bytes[3] << 24; }

/* ---- levels as calls see them */

/* Calls pass the sieve of this place from now on, and the proved library counts those that it filtered, by the level that the context has still. */
static void open_sieve(size_t p) {
    uint64_t seen = atomic_exchange(&sieves[p], (uint64_t)OPEN << LEVEL_BIT);
    if (seen << 8)
        dl_client_c_count(&client, p, seen << 8 >> 8);
}

/* Calls are filtered by the level of the context at this place. Macros that filter in the program see 6 where their calls are to be counted. */
static void close_sieve(size_t p) {
    uint8_t level = contexts[p].level;
    atomic_store(&sieves[p], (uint64_t)level << LEVEL_BIT);
    __atomic_store_n(&places[p].level, (int8_t)(counts_inline ? DLT_LOG_VERBOSE : level), __ATOMIC_RELAXED);
}

/* ---- the queue's memory: registrations, levels and the end have room behind that of calls */

static void widen(void) { client.queue.len = sizeof waiting; }

static void narrow(void) { client.queue.len = client.queue.used > QUEUE_BYTES ? client.queue.used : QUEUE_BYTES; }

static void wake(void) {
    uint64_t one = 1;
    if (wake_fd >= 0 && write(wake_fd, &one, sizeof one) < 0) {
        /* it is awake */
    }
}

void wake_for_first(void) {
    if (is_asleep)
        wake();
    is_asleep = false;
}

/* ---- the link */

/* how many bytes the user message has that begins here */
static size_t message_len(const uint8_t *m) {
    switch (m[4]) {
    case 1: return 8 + ((size_t)m[10] << 8 | m[11]);
    case 2: return 20 + le32(m + 16);
    case 4: return 30 + le32(m + 26);
    case 5: return 20;
    default: return 16;
    }
}

/* Whole messages that the link has are let go. Of one that it has a part of all is kept until it has the rest. */
static void let_go(void) {
    size_t whole = 0;
    while (whole < sent && whole + message_len(waiting + whole) <= sent)
        whole += message_len(waiting + whole);
    if (whole) {
        dl_client_c_took(&client, whole);
        narrow();
        sent -= whole;
    }
}

static void drop_link(void) {
    if (link_fd >= 0)
        close(link_fd);
    link_fd = -1;
    let_go();
    sent = in_used = hello_len = hello_sent = 0;
}

/* Connects, as long as the library goes on and at most a second. */
static bool connects(int fd, const struct sockaddr *to, socklen_t len) {
    int error = 0;
    socklen_t error_len = sizeof error;
    struct pollfd of = {fd, POLLOUT, 0};
    if (connect(fd, to, len) == 0)
        return true;
    for (int ms = 0; errno == EINPROGRESS && ms < CONNECT_MS; ms += 50) {
        lock();
        bool is_over = is_stopping;
        unlock();
        if (poll(&of, 1, 50) > 0)
            return getsockopt(fd, SOL_SOCKET, SO_ERROR, &error, &error_len) == 0 && error == 0;
        if (is_over)
            return false;
        errno = EINPROGRESS;
    }
    return false;
}

static int open_to(int family, const struct sockaddr *to, socklen_t len) {
    int fd = socket(family, SOCK_STREAM | SOCK_CLOEXEC | SOCK_NONBLOCK, 0);
    if (fd >= 0 && !connects(fd, to, len)) {
        close(fd);
        return -1;
    }
    return fd;
}

/* An address in numbers takes no lock of the C library, which a fork could leave held in its child; a name does. */
static int open_tcp(const char *host, const char *port) {
    unsigned long number = strtoul(port, NULL, 10);
    struct sockaddr_in to = {.sin_family = AF_INET, .sin_port = htons((uint16_t)number)};
    struct sockaddr_in6 to6 = {.sin6_family = AF_INET6, .sin6_port = htons((uint16_t)number)};
    struct addrinfo hints = {.ai_socktype = SOCK_STREAM}, *all = NULL;
    int fd = -1;
    if (number < 1 || number > 65535)
        return -1;
    if (inet_pton(AF_INET, host, &to.sin_addr) == 1)
        return open_to(AF_INET, (struct sockaddr *)&to, sizeof to);
    if (inet_pton(AF_INET6, host, &to6.sin6_addr) == 1)
        return open_to(AF_INET6, (struct sockaddr *)&to6, sizeof to6);
    if (getaddrinfo(host, port, &hints, &all))
        return -1;
    for (struct addrinfo *a = all; a && fd < 0; a = a->ai_next)
        fd = open_to(a->ai_family, a->ai_addr, a->ai_addrlen);
    freeaddrinfo(all);
    return fd;
}

/* DLT_USERS is the path of a socket, or HOST:PORT or PORT of the daemon's users' port */
static int open_link(void) {
    if (strchr(users, '/')) {
        struct sockaddr_un to = {.sun_family = AF_UNIX};
        if (strlen(users) >= sizeof to.sun_path)
            return -1;
        strcpy(to.sun_path, users);
        return open_to(AF_UNIX, (struct sockaddr *)&to, sizeof to);
    }
    const char *colon = strrchr(users, ':');
    if (!colon)
        return open_tcp("127.0.0.1", users);
    char host[256];
    bool is_bracketed = users[0] == '[' && colon > users && colon[-1] == ']';
    snprintf(host, sizeof host, "%.*s", (int)(colon - users) - 2 * is_bracketed, users + is_bracketed);
    return open_tcp(host, colon + 1);
}

static Registration registration_of(size_t p) {
    Registration context = {.level = contexts[p].level, .own = places[p].own, .pid = app.pid};
    memcpy(context.apid, contexts[p].apid, 4);
    memcpy(context.ctid, contexts[p].ctid, 4);
    return context;
}

/* A new link hears of the application and its contexts first, whatever waits. */
static void greet(int fd) {
    static Context none[PLACES];
    Client fresh = {none, PLACES, {hello, sizeof hello, 0}, client.sender, 0, false};
    memset(none, 0, sizeof none);
    if (is_registered)
        dl_client_c_register_app(&fresh, &app, (uint8_t *)app_text, strlen(app_text));
    for (size_t p = 0; is_registered && p < PLACES; p++) {
        Registration context = registration_of(p);
        if (places[p].taken)
            dl_client_c_open(&fresh, p, &context, (uint8_t *)places[p].text, strlen(places[p].text), 0);
    }
    link_fd = fd;
    hello_len = fresh.queue.used;
    hello_sent = sent = in_used = 0;
}

static bool has_more(void) { return link_fd >= 0 && (hello_sent < hello_len || sent < client.queue.used); }

/* Sends what waits until the link takes no more. The lock is open meanwhile: what waits stays where it is, and more comes behind it. */
static void send_some(void) {
    while (has_more()) {
        bool is_hello = hello_sent < hello_len;
        const uint8_t *from = is_hello ? hello + hello_sent : waiting + sent;
        size_t len = is_hello ? hello_len - hello_sent : client.queue.used - sent;
        unlock();
        ssize_t n = send(link_fd, from, len, MSG_NOSIGNAL | MSG_DONTWAIT);
        int error = errno;
        lock();
        if (n < 0 && error == EINTR)
            continue;
        if (n < 0 && (error == EAGAIN || error == EWOULDBLOCK))
            return;
        if (n <= 0) {
            drop_link();
            return;
        }
        *(is_hello ? &hello_sent : &sent) += (size_t)n;
        if (sent >= RELEASE_BYTES || sent == client.queue.used)
            let_go();
    }
}

/* ---- what the daemon tells */

static void tell_all(void) {
    for (size_t p = 0; p < PLACES; p++) {
        if (!places[p].taken)
            continue;
        open_sieve(p);
        dl_client_c_tell(&client, p, ticks_now());
        close_sieve(p);
    }
}

/* Obeys a level; false where there is no room yet for the account that comes before it. */
static bool obey(size_t p, uint8_t level) {
    widen();
    open_sieve(p);
    uint8_t answer = dl_client_c_obey(&client, p, level, ticks_now());
    close_sieve(p);
    narrow();
    return answer != WAITS;
}

/* How many bytes a message has that begins in what was read, or 0 where that can't be said yet. Other kinds are refused. */
static size_t told_len(void) {
    if (in_used < 8)
        return 0;
    if (memcmp(in, "DUH\1", 4) == 0 && le32(in + 4) == 6)
        return 14;
    if (memcmp(in, "DUH\1", 4) == 0 && le32(in + 4) == 7)
        return in_used < 20 ? 0 : le32(in + 16) <= INJECTED_BYTES ? 20 + (size_t)le32(in + 16) : SIZE_MAX;
    return SIZE_MAX;
}

/* Takes one message from what was read, and answers whether it did. A level that a context has, and was told before, is called back no more. */
static bool take_told(Told *told) {
    size_t len = told_len();
    told->kind = 0;
    if (len == SIZE_MAX)
        drop_link();
    if (len == 0 || len == SIZE_MAX || in_used < len)
        return false;
    uint32_t kind = le32(in + 4);
    size_t p = le32(in + (kind == 6 ? 10 : 8));
    if (p < PLACES && places[p].taken && (kind == 7 || in[8] <= 6)) {
        uint8_t before = contexts[p].level;
        if (kind == 6 && !obey(p, in[8]))
            return false;
        told->kind = kind == 7 || in[8] != before || !places[p].is_told ? kind : 0;
        told->level = in[8];
        places[p].is_told = places[p].is_told || kind == 6;
        told->place = places[p];
        memcpy(told->ctid, contexts[p].ctid, 4);
        if (kind == 7) {
            told->service = le32(in + 12);
            told->len = (uint32_t)(len - 20);
            memcpy(told->bytes, in + 20, told->len);
        }
    }
    memmove(in, in + len, in_used - len);
    in_used -= len;
    return true;
}

/* with the lock open */
static void call_back(Told *told) {
    if (told->kind == 6 && told->place.changed)
        told->place.changed(told->ctid, told->level, DLT_TRACE_STATUS_OFF);
    for (unsigned i = 0; told->kind == 7 && i < told->place.injection_count; i++) {
        Injection *to = &told->place.injections[i];
        if (to->service == told->service && to->call)
            to->call(told->service, told->bytes, told->len);
        else if (to->service == told->service && to->call_with_id)
            to->call_with_id(told->service, told->bytes, told->len, to->mine);
    }
}

/* Reads what is there, and calls back with the lock open. */
static void hear(unsigned mine) {
    static Told told;
    while (link_fd >= 0 && life == mine) {
        ssize_t n = in_used < IN_BYTES ? recv(link_fd, in + in_used, IN_BYTES - in_used, MSG_DONTWAIT) : 0;
        if ((n == 0 && in_used < IN_BYTES) || (n < 0 && errno != EAGAIN && errno != EWOULDBLOCK && errno != EINTR)) {
            drop_link();
            return;
        }
        in_used += n > 0 ? (size_t)n : 0;
        bool took = false;
        while (link_fd >= 0 && life == mine && take_told(&told)) {
            took = true;
            if (told.kind == 7 && told.place.has_accounts)
                tell_all();
            unlock();
            call_back(&told);
            lock();
        }
        if (n <= 0 && !took)
            return;
    }
}

/* ---- the thread */

/* Calls of a context that is gone are none. */
static void leave_place(size_t p) {
    open_sieve(p);
    places[p].gone = true;
    places[p].taken = false;
    __atomic_store_n(&places[p].level, DLT_LOG_OFF, __ATOMIC_RELAXED);
}

/* A context that is gone is told as such, and its place is free; where there is no room it waits. */
static void close_place(size_t p) {
    widen();
    if (dl_client_c_close(&client, p, app.pid, ticks_now()) != WAITS)
        places[p].gone = false;
    narrow();
}

static void close_gone(void) {
    for (size_t p = 0; p < PLACES; p++)
        if (places[p].gone)
            close_place(p);
}

/* Looks for the daemon, with the lock open. */
static void find_link(unsigned mine) {
    unlock();
    int fd = open_link();
    lock();
    if (fd >= 0 && life == mine && !is_stopping)
        greet(fd);
    else if (fd >= 0)
        close(fd);
    has_tried = has_tried || life == mine;
}

static void *run(void *its_life) {
    unsigned mine = (unsigned)(uintptr_t)its_life;
    uint32_t next = ticks_now() + 10000, look = ticks_now();
    lock();
    while (life == mine && !is_stopping) {
        if (link_fd < 0 && is_past(look)) {
            find_link(mine);
            look = ticks_now() + RETRY_MS * 10;
        }
        hear(mine);
        if (life != mine)
            break;
        close_gone();
        if (is_past(next)) {
            tell_all();
            next = ticks_now() + 10000;
        }
        send_some();
        struct pollfd of[2] = {{wake_fd, POLLIN, 0}, {link_fd, (short)(POLLIN | (has_more() ? POLLOUT : 0)), 0}};
        is_asleep = true;
        unlock();
        poll(of, of[1].fd >= 0 ? 2 : 1, of[1].fd >= 0 ? 1000 : RETRY_MS);
        uint64_t count;
        if (of[0].revents && read(of[0].fd, &count, sizeof count) < 0) {
            /* nothing was there */
        }
        lock();
        is_asleep = false;
    }
    unlock();
    return NULL;
}

/* ---- beginning and end */

static void forget(void) {
    memset(contexts, 0, sizeof contexts);
    memset(places, 0, sizeof places);
    for (size_t p = 0; p < PLACES; p++)
        atomic_store(&sieves[p], (uint64_t)OPEN << LEVEL_BIT);
    client = (Client){contexts, PLACES, {waiting, QUEUE_BYTES, 0}, {{'L', 'U', '0', '0'}, (uint32_t)getpid()}, 0, false};
    const char *ecu = getenv("DLT_ECU"), *count = getenv("DLT_COUNT_INLINE"), *where = getenv("DLT_USERS");
    snprintf(users, sizeof users, "%s", where && *where ? where : "127.0.0.1:3491");
    if (ecu && *ecu)
        put_id(client.sender.ecu, ecu);
    counts_inline = count && *count && strcmp(count, "0");
    is_registered = is_stopping = has_tried = is_asleep = false;
    hello_len = hello_sent = sent = in_used = 0;
}

static void in_child(void) {
    if (link_fd >= 0)
        close(link_fd);
    if (wake_fd >= 0)
        close(wake_fd);
    link_fd = wake_fd = -1;
    is_running = false;
    life++;
    forget();
    unlock();
}

/* gives what waits until this time, as long as there is a link, or the thread has yet to look for one */
static void drain(uint32_t end) {
    struct timespec pause = {0, 1000000};
    bool is_own = is_running && pthread_equal(pthread_self(), thread);
    while (client.queue.used && (link_fd >= 0 || (is_running && !has_tried)) && !is_past(end)) {
        if (is_own)
            send_some();
        else
            wake();
        unlock();
        nanosleep(&pause, NULL);
        lock();
    }
}

/* Who closes a link with levels unread makes the system drop what the daemon has not read yet: so they are read to its end. */
static void end_link(uint32_t end) {
    uint8_t unread[256];
    if (link_fd >= 0)
        shutdown(link_fd, SHUT_WR);
    while (link_fd >= 0 && !is_past(end)) {
        struct pollfd of = {link_fd, POLLIN, 0};
        unlock();
        poll(&of, 1, 20);
        lock();
        ssize_t n = recv(link_fd, unread, sizeof unread, MSG_DONTWAIT);
        if (n == 0 || (n < 0 && errno != EAGAIN && errno != EWOULDBLOCK && errno != EINTR))
            break;
    }
    drop_link();
}

static void close_places(void) {
    for (size_t p = 0; p < PLACES; p++)
        if (places[p].taken)
            leave_place(p);
    close_gone();
    widen();
    if (is_registered)
        dl_client_c_unregister_app(&client, &app);
    narrow();
    is_registered = false;
}

/* The thread ends by itself, soon; one that looks for a name longer than that is left alone, and ends then. */
static void end_thread(void) {
    struct timespec until;
    pthread_t its = thread;
    bool is_own = pthread_equal(pthread_self(), its);
    is_stopping = true;
    wake();
    unlock();
    clock_gettime(CLOCK_REALTIME, &until);
    until.tv_sec += 1;
    if (is_own || pthread_timedjoin_np(its, NULL, &until))
        pthread_detach(its);
    lock();
    life++;
}

static void finish_all(void) {
    lock();
    if (!is_running || is_stopping) {
        unlock();
        return;
    }
    uint32_t end = ticks_now() + exit_ms * 10;
    drain(end);
    close_places();
    drain(end);
    if (client.queue.used > sent)
        fprintf(stderr, "libdlt: %zu bytes of log messages were not sent\n", client.queue.used - sent);
    end_thread();
    end_link(is_past(end - 10000) ? ticks_now() + 10000 : end);
    close(wake_fd);
    wake_fd = -1;
    is_running = false;
    unlock();
}

void start(void) {
    static bool has_handlers;
    sigset_t all, old;
    if (is_running)
        return;
    if (!has_handlers) {
        has_handlers = true;
        pthread_atfork(lock, unlock, in_child);
        atexit(finish_all);
    }
    forget();
    sigfillset(&all);
    pthread_sigmask(SIG_SETMASK, &all, &old);
    wake_fd = eventfd(0, EFD_CLOEXEC | EFD_NONBLOCK);
    is_running = wake_fd >= 0 && pthread_create(&thread, NULL, run, (void *)(uintptr_t)life) == 0;
    pthread_sigmask(SIG_SETMASK, &old, NULL);
}

EXPORT DltReturnValue dlt_init(void) {
    lock();
    start();
    unlock();
    return DLT_RETURN_OK;
}

EXPORT DltReturnValue dlt_free(void) {
    finish_all();
    return DLT_RETURN_OK;
}

EXPORT DltReturnValue dlt_user_check_library_version(const char *major, const char *minor) {
    return major && minor && !strcmp(major, _DLT_PACKAGE_MAJOR_VERSION) ? DLT_RETURN_OK : DLT_RETURN_ERROR;
}

EXPORT DltReturnValue dlt_check_library_version(const char *major, const char *minor) { return dlt_user_check_library_version(major, minor); }

EXPORT int dlt_set_resend_timeout_atexit(uint32_t ms) {
    lock();
    exit_ms = ms < 100000 ? ms : 100000;
    unlock();
    return 0;
}

/* ---- registrations */

EXPORT DltReturnValue dlt_unregister_app(void) {
    lock();
    close_places();
    wake();
    unlock();
    return DLT_RETURN_OK;
}

EXPORT DltReturnValue dlt_unregister_app_flush_buffered_logs(void) {
    lock();
    uint32_t end = ticks_now() + exit_ms * 10;
    drain(end);
    close_places();
    drain(end);
    unlock();
    return DLT_RETURN_OK;
}

EXPORT DltReturnValue dlt_get_appid(char *apid) {
    if (!apid)
        return DLT_RETURN_WRONG_PARAMETER;
    lock();
    memcpy(apid, app.apid, 4);
    unlock();
    return DLT_RETURN_OK;
}

/* Whether an id of one part of DLT_INITIAL_LOG_LEVEL is this one, or empty. */
static bool fits(const char *part, size_t len, const uint8_t id[4]) { return len == 0 || (len == strnlen((const char *)id, 4) && !memcmp(part, id, len)); }

/* DLT_INITIAL_LOG_LEVEL is APID:CTID:LEVEL, more of them behind semicolons, where an id may be left out; the one with most ids holds. */
static int first_level(const Registration *context, int asked) {
    int best = 0, level = asked >= 0 && asked <= 6 ? asked : -1;
    for (const char *part = getenv("DLT_INITIAL_LOG_LEVEL"); part && *part;) {
        size_t apid = strcspn(part, ":;"), ctid = part[apid] == ':' ? strcspn(part + apid + 1, ":;") : 0;
        const char *number = part + apid + 1 + ctid;
        if (part[apid] == ':' && *number == ':' && number[1] >= '0' && number[1] <= '6') {
            int weight = 1 + (apid > 0) + 2 * (ctid > 0);
            if (weight > best && fits(part, apid, context->apid) && fits(part + apid + 1, ctid, context->ctid)) {
                best = weight;
                level = number[1] - '0';
            }
        }
        part += strcspn(part, ";");
        part += *part == ';';
    }
    return level;
}

/* Gives a place to a context, with the lock held, and answers which, or PLACES. */
static size_t open_place(const char *ctid, const char *text, int level, LevelCallback changed) {
    size_t p = 1; /* a handle that was never registered names place 0 */
    char cut[TEXT_BYTES + 1];
    while (p < PLACES && (places[p].taken || places[p].gone))
        p++;
    if (p == PLACES)
        return p;
    Registration context = {.level = DLT_LOG_INFO, .own = -1, .pid = (uint32_t)getpid()};
    memcpy(context.apid, app.apid, 4);
    put_id(context.ctid, ctid);
    context.own = (int8_t)first_level(&context, level);
    if (context.own >= 0)
        context.level = (uint8_t)context.own;
    put_text(cut, text);
    widen();
    uint8_t answer = dl_client_c_open(&client, p, &context, (uint8_t *)cut, strlen(cut), ticks_now());
    narrow();
    if (answer != DONE)
        return PLACES;
    memset(&places[p], 0, sizeof places[p]);
    memcpy(places[p].text, cut, sizeof cut);
    places[p].own = context.own;
    places[p].changed = changed;
    places[p].taken = true;
    close_sieve(p);
    return p;
}

/* Contexts that were registered before any application are the application's from now on. */
static void adopt(void) {
    widen();
    for (size_t p = 0; p < PLACES; p++) {
        if (!places[p].taken || contexts[p].apid[0])
            continue;
        Registration context = registration_of(p);
        memcpy(context.apid, app.apid, 4);
        open_sieve(p);
        dl_client_c_open(&client, p, &context, (uint8_t *)places[p].text, strlen(places[p].text), ticks_now());
        close_sieve(p);
    }
    narrow();
}

EXPORT DltReturnValue dlt_register_app(const char *apid, const char *text) {
    if (!apid || !*apid)
        return DLT_RETURN_WRONG_PARAMETER;
    lock();
    start();
    bool is_other = is_registered && memcmp(app.apid, apid, strnlen(apid, 4));
    if (is_other)
        close_places();
    if (!is_registered) {
        put_id(app.apid, apid);
        app.pid = (uint32_t)getpid();
        put_text(app_text, text);
        is_registered = true;
        widen();
        dl_client_c_register_app(&client, &app, (uint8_t *)app_text, strlen(app_text));
        narrow();
        /* the context of accounts, which are told when anything is injected to it */
        size_t p = open_place("DLTC", counts_inline ? "accounts of calls, inline too" : "accounts of calls, not inline", -1, NULL);
        if (p < PLACES)
            places[p].has_accounts = true;
        adopt();
    }
    wake();
    unlock();
    return DLT_RETURN_OK;
}

static DltReturnValue register_context(DltContext *handle, const char *ctid, const char *text, int level, LevelCallback changed) {
    if (!handle || !ctid || !*ctid)
        return DLT_RETURN_WRONG_PARAMETER;
    lock();
    start();
    size_t p = open_place(ctid, text, level, changed);
    if (p < PLACES) {
        memcpy(handle->contextID, contexts[p].ctid, 4);
        handle->log_level_pos = (int32_t)p;
        handle->log_level_ptr = &places[p].level;
        handle->trace_status_ptr = &places[p].trace;
        handle->mcnt = 0;
    }
    wake();
    unlock();
    return p < PLACES ? DLT_RETURN_OK : DLT_RETURN_ERROR;
}

EXPORT DltReturnValue dlt_register_context(DltContext *handle, const char *ctid, const char *text) { return register_context(handle, ctid, text, -1, NULL); }

EXPORT DltReturnValue dlt_register_context_ll_ts(DltContext *handle, const char *ctid, const char *text, int level, int trace_status) {
    (void)trace_status;
    return register_context(handle, ctid, text, level, NULL);
}

EXPORT DltReturnValue dlt_register_context_llccb(DltContext *handle, const char *ctid, const char *text, LevelCallback changed) {
    return register_context(handle, ctid, text, -1, changed);
}

static Place *place_of(const DltContext *handle) {
    bool is_there = handle && handle->log_level_pos >= 0 && handle->log_level_pos < PLACES && places[handle->log_level_pos].taken;
    return is_there ? &places[handle->log_level_pos] : NULL;
}

EXPORT DltReturnValue dlt_unregister_context(DltContext *handle) {
    lock();
    Place *place = place_of(handle);
    if (place) {
        leave_place((size_t)handle->log_level_pos);
        close_place((size_t)handle->log_level_pos);
        handle->log_level_ptr = NULL;
        handle->trace_status_ptr = NULL;
    }
    wake();
    unlock();
    return place ? DLT_RETURN_OK : DLT_RETURN_WRONG_PARAMETER;
}

static DltReturnValue add_injection(DltContext *handle, Injection injection) {
    lock();
    Place *place = place_of(handle);
    unsigned i = 0;
    while (place && i < place->injection_count && place->injections[i].service != injection.service)
        i++;
    bool has_room = place && i < CALLS;
    if (has_room) {
        place->injections[i] = injection;
        place->injection_count += i == place->injection_count;
    }
    unlock();
    return has_room ? DLT_RETURN_OK : DLT_RETURN_WRONG_PARAMETER;
}

EXPORT DltReturnValue dlt_register_injection_callback(DltContext *handle, uint32_t service, dlt_injection_callback call) {
    return add_injection(handle, (Injection){service, call, NULL, NULL});
}

EXPORT DltReturnValue dlt_register_injection_callback_with_id(DltContext *handle, uint32_t service, dlt_injection_callback_id call, void *mine) {
    return add_injection(handle, (Injection){service, NULL, call, mine});
}

EXPORT DltReturnValue dlt_register_log_level_changed_callback(DltContext *handle, LevelCallback changed) {
    lock();
    Place *place = place_of(handle);
    if (place)
        place->changed = changed;
    unlock();
    return place ? DLT_RETURN_OK : DLT_RETURN_WRONG_PARAMETER;
}

EXPORT DltReturnValue dlt_set_application_ll_ts_limit(DltLogLevelType level, DltTraceStatusType trace_status) {
    (void)trace_status;
    if (level < DLT_LOG_OFF || level >= DLT_LOG_MAX)
        return DLT_RETURN_WRONG_PARAMETER;
    bool all = true;
    lock();
    for (size_t p = 0; p < PLACES; p++)
        if (places[p].taken)
            all = obey(p, (uint8_t)level) && all;
    wake();
    unlock();
    return all ? DLT_RETURN_OK : DLT_RETURN_BUFFER_FULL;
}

/* ---- the queue and the link, as programs ask for them */

EXPORT int dlt_get_log_state(void) {
    lock();
    int state = link_fd >= 0 ? 1 : -1;
    unlock();
    return state;
}

EXPORT DltReturnValue dlt_user_check_buffer(int *total, int *used) {
    if (!total || !used)
        return DLT_RETURN_WRONG_PARAMETER;
    lock();
    *total = QUEUE_BYTES;
    *used = (int)client.queue.used;
    unlock();
    return DLT_RETURN_OK;
}

EXPORT DltReturnValue dlt_user_log_resend_buffer(void) {
    lock();
    wake();
    unlock();
    return DLT_RETURN_OK;
}

EXPORT int dlt_user_atexit_blow_out_user_buffer(void) {
    lock();
    drain(ticks_now() + exit_ms * 10);
    int left = (int)client.queue.used;
    unlock();
    return left;
}
