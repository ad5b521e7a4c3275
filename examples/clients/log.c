/* Logs from outside: registers an application with a context, obeys the level that the daemon sends back, and logs. It never waits for the daemon, and goes
 * on without it: what is logged then waits in a queue of so many bytes, what finds no room there is told in an Overflow message, and it dials again.
 *
 *     cc -o log log.c && ./log [PORT [COUNT [REST]]]    3491, 10 and 0 where they are not given; it rests so many milliseconds behind each message */
#include <arpa/inet.h>
#include <errno.h>
#include <fcntl.h>
#include <poll.h>
#include <stdio.h>
#include <stdlib.h>
#include <string.h>
#include <sys/socket.h>
#include <time.h>
#include <unistd.h>

enum { INFO = 4, DEBUG = 5, QUEUE = 1000000, PATIENCE = 5 };
/* whole messages that wait: `kept` bytes from `first` on, of whose first message `sent` bytes are under way. A new daemon is told the registrations before */
static unsigned char queue[QUEUE], hello[256], out[4096], heard[14];
static size_t first, kept, sent, used, hello_size, hello_sent;
static unsigned lost;
static int link_to_daemon = -1, level = INFO, had, port = 3491;
static time_t dialled;

static time_t now_in_seconds(void) {
    struct timespec now;
    clock_gettime(CLOCK_MONOTONIC, &now);
    return now.tv_sec;
}

static void put(const void *bytes, size_t count) { memcpy(out + used, bytes, count), used += count; }
static void low_first(unsigned number, int bytes) { for (; bytes--; number >>= 8) out[used++] = number & 255; }
static void high_first(unsigned number, int bytes) { while (bytes--) out[used++] = number >> 8 * bytes & 255; }
static void begin(unsigned kind) { used = 0, put("DUH\1", 4), low_first(kind, 4); }

/* How many bytes the first message of the queue has, by its kind: 1, a log message, 8, an overflow, or 3, the application's end. */
static size_t first_size(void) {
    const unsigned char *at = queue + first;
    return at[4] == 1 ? 8 + ((size_t)at[10] << 8 | at[11]) : 16;
}

static void drop_link(void) {
    close(link_to_daemon);
    link_to_daemon = -1, sent = 0, had = 0;
}

/* Dials, but once a second at most. A daemon that was not there before is told the registrations first. */
static void dial(void) {
    struct sockaddr_in to = {.sin_family = AF_INET, .sin_addr.s_addr = htonl(INADDR_LOOPBACK), .sin_port = htons(port)};
    if (link_to_daemon >= 0 || (dialled && now_in_seconds() <= dialled))
        return;
    dialled = now_in_seconds();
    link_to_daemon = socket(AF_INET, SOCK_STREAM, 0);
    if (connect(link_to_daemon, (struct sockaddr *)&to, sizeof to))
        drop_link();
    else
        fcntl(link_to_daemon, F_SETFL, O_NONBLOCK), hello_sent = 0;
}

/* Sends a part of these bytes; the flag: who writes to a daemon that is gone is told so, and not ended. Whether some went. */
static int sends(const unsigned char *bytes, size_t count, size_t *done) {
    ssize_t went = send(link_to_daemon, bytes + *done, count - *done, MSG_NOSIGNAL);
    if (went > 0)
        return *done += went, 1;
    if (errno != EAGAIN && errno != EINTR)
        drop_link();
    return 0;
}

/* Takes in the levels that came meanwhile: kind 6, the level, the trace status, and the place of the context. */
static void obey(void) {
    ssize_t came = 1;
    while (link_to_daemon >= 0 && (came = recv(link_to_daemon, heard + had, 14 - had, 0)) > 0)
        if ((had += came) == 14)
            level = heard[8], had = 0;
    if (link_to_daemon >= 0 && (came == 0 || (errno != EAGAIN && errno != EINTR)))
        drop_link();
}

static void turn(void) {
    dial();
    while (link_to_daemon >= 0 && hello_sent < hello_size && sends(hello, hello_size, &hello_sent))
        continue;
    while (link_to_daemon >= 0 && hello_sent == hello_size && kept && sends(queue + first, first_size(), &sent))
        if (sent == first_size())
            kept -= sent, first += sent, sent = 0;
    obey();
}

/* Queues the message, where there is room. */
static int fits(void) {
    if (kept + used > QUEUE)
        return 0;
    if (first + kept + used > QUEUE)
        memmove(queue, queue + first, kept), first = 0;
    memcpy(queue + first + kept, out, used), kept += used;
    return 1;
}

/* Queues a message behind the number of those that found no room, where both have room. */
static void end(void) {
    unsigned char message[4096];
    size_t size = used;
    memcpy(message, out, used);
    if (lost) {
        if (kept + 16 + size > QUEUE) {
            lost++;
            return;
        }
        begin(8), low_first(lost, 4), put("OUT2", 4), fits(), lost = 0;
        memcpy(out, message, size), used = size;
    }
    if (!fits())
        lost++;
}

static void log_text(int severity, const char *text) {
    static unsigned char counter;
    struct timespec now;
    size_t size = strlen(text) + 1;
    if (severity > level)
        return;
    clock_gettime(CLOCK_MONOTONIC, &now);
    begin(1), out[used++] = 0x3D, out[used++] = counter++, high_first(26 + 6 + size, 2);
    put("ECU1", 4), high_first(getpid(), 4), high_first(now.tv_sec * 10000 + now.tv_nsec / 100000, 4);
    out[used++] = severity << 4 | 1, out[used++] = 1, put("OUT2TEST", 8);
    low_first(0x8200, 4), low_first(size, 2), put(text, size), end();
}

static void make_hello(void) {
    begin(2), put("OUT2", 4), low_first(getpid(), 4), low_first(7, 4), put("outside", 7);
    memcpy(hello, out, used), hello_size = used;
    begin(4), put("OUT2TEST", 8), low_first(0, 4), low_first(0xFEFE, 2), low_first(getpid(), 4), low_first(4, 4), put("test", 4);
    memcpy(hello + hello_size, out, used), hello_size += used;
}

/* Hands on what waits, for a while, and then ends the connection. Who closes while levels wait unread makes the system drop what the daemon has not read yet:
 * so all is read first, until the daemon closes. Whether all went. */
static int finish(void) {
    time_t until = now_in_seconds() + PATIENCE;
    struct pollfd link;
    while ((kept || link_to_daemon < 0) && now_in_seconds() < until)
        turn(), usleep(5000);
    if (link_to_daemon >= 0) {
        shutdown(link_to_daemon, SHUT_WR);
        link = (struct pollfd){.fd = link_to_daemon, .events = POLLIN};
        while (poll(&link, 1, PATIENCE * 1000) > 0 && read(link_to_daemon, out, sizeof out) > 0)
            continue;
    }
    if (kept || lost)
        fprintf(stderr, "log: %zu bytes did not reach the daemon, and %u messages found no room\n", kept, lost);
    return !kept && !lost;
}

int main(int count, char **words) {
    int number, calls = count > 2 ? atoi(words[2]) : 10, rest = count > 3 ? atoi(words[3]) : 0;
    char text[64];
    port = count > 1 ? atoi(words[1]) : 3491;
    make_hello();
    for (number = 0; number < calls; number++) {
        turn();
        snprintf(text, sizeof text, "message %d", number), log_text(INFO, text);
        snprintf(text, sizeof text, "more on message %d", number), log_text(DEBUG, text);
        if (rest)
            usleep(rest * 1000);
    }
    begin(3), put("OUT2", 4), low_first(getpid(), 4), end();
    return finish() ? 0 : 1;
}
