/* What bench/live starts beside the daemons: programs that log, and clients that read.
 *
 *     live channel PORT COUNT SIZE            logs over a channel of this project's daemon, as fast as it takes
 *     live read PORT COUNT                    reads until so many messages of application LIVE came or were told as lost, or none for ten seconds
 *     live gets PORT COUNT                    as read, where those that were told as lost are logged again: it reads until so many came
 *     live latency PORT USERS COUNT REST      logs single messages over a channel, each REST milliseconds after the one before has come to a client
 *     live slow PORT SECONDS                  reads 10,000 bytes a second
 *
 * and, built with -DLIBDLT -ldlt, by COVESA's libdlt:
 *
 *     live libdlt COUNT SIZE THREADS          logs, and waits where the library's buffer is full
 *     live liblatency PORT COUNT REST         as latency
 *     live libidle                            has a context, and logs nothing until it is killed
 *     live calls filtered|delivered COUNT     calls one_call so often, whose instructions callgrind counts
 *
 * Each prints one line of numbers. Sizes are of the message's payload, in bytes. */
#include <arpa/inet.h>
#include <netinet/tcp.h>
#include <pthread.h>
#include <stdio.h>
#include <stdlib.h>
#include <string.h>
#include <sys/socket.h>
#include <time.h>
#include <unistd.h>
#ifdef LIBDLT
#include <dlt/dlt.h>
#endif

static double now(void) {
    struct timespec at;
    clock_gettime(CLOCK_MONOTONIC, &at);
    return at.tv_sec + at.tv_nsec / 1e9;
}

static void fail(const char *what) { perror(what), exit(1); }

static int dial(const char *port) {
    struct sockaddr_in to = {.sin_family = AF_INET, .sin_addr.s_addr = htonl(INADDR_LOOPBACK), .sin_port = htons(atoi(port))};
    struct timeval patience = {10, 0};
    int link = socket(AF_INET, SOCK_STREAM, 0), yes = 1;
    if (connect(link, (struct sockaddr *)&to, sizeof to))
        fail("connect");
    setsockopt(link, IPPROTO_TCP, TCP_NODELAY, &yes, sizeof yes);
    setsockopt(link, SOL_SOCKET, SO_RCVTIMEO, &patience, sizeof patience);
    return link;
}

static void put_all(int link, const unsigned char *bytes, size_t count) {
    while (count) {
        ssize_t put = write(link, bytes, count);
        if (put < 0)
            fail("write");
        bytes += put, count -= put;
    }
}

/* A Log message of the user protocol: standard and extended header, and the payload. Answers its length. */
static size_t logged(unsigned char *to, unsigned counter, size_t size) {
    static const unsigned char front[] = "DUH\1\1\0\0\0\x3D\0\0\0ECU1\0\0\0\1\0\0\0\1\x41\1LIVETEST";
    memcpy(to, front, 34);
    to[9] = counter, to[10] = (26 + size) >> 8, to[11] = 26 + size;
    memset(to + 34, 'x', size);
    return 34 + size;
}

static void registers(int link) {
    static const unsigned char app[] = "DUH\1\2\0\0\0LIVE\1\0\0\0\0\0\0", context[] = "DUH\1\4\0\0\0LIVETEST\0\0\0\0\xFF\xFF\1\0\0\0\0\0\0";
    put_all(link, app, sizeof app), put_all(link, context, sizeof context);
}

static void log_over_channel(char **words) {
    static unsigned char out[65536];
    int link = dial(words[0]), count = atoi(words[1]), number;
    size_t size = atoi(words[2]);
    double began;
    registers(link);
    began = now();
    for (number = 0; number < count; number++)
        put_all(link, out, logged(out, number, size));
    /* who closes while levels wait unread makes the system drop what the daemon has not read yet */
    shutdown(link, SHUT_WR);
    while (read(link, out, sizeof out) > 0)
        continue;
    printf("%d %.4f\n", number, now() - began);
}

/* Messages of application LIVE of a stream: how many there are in what came, how many calls were told as lost, and what is no whole message yet. */
static unsigned char heard[1 << 20];
static size_t held;
static long bytes_of_live, told_lost;

static int came(int link) {
    size_t at = 0;
    int found = 0;
    ssize_t more = read(link, heard + held, sizeof heard - held);
    if (more <= 0)
        return -1;
    held += more;
    while (held - at >= 4) {
        size_t length = heard[at + 2] << 8 | heard[at + 3], fields = 4;
        if (held - at < length)
            break;
        fields += 4 * (!!(heard[at] & 4) + !!(heard[at] & 8) + !!(heard[at] & 16));
        if (heard[at] & 1 && !memcmp(heard + at + fields + 2, "LIVE", 4)) {
            const unsigned char *lost = heard + at + fields + 16;
            if (!(heard[at + fields] & 0x0E))
                found++, bytes_of_live += length;
            else if (heard[at + fields] == 0x26 && heard[at + fields + 10] == 0x14)
                told_lost += lost[0] | lost[1] << 8 | lost[2] << 16 | (long)lost[3] << 24;
        }
        at += length;
    }
    memmove(heard, heard + at, held - at);
    held -= at;
    return found;
}

/* Whether a call that was told as lost is done with, or made again. */
static void read_until(char **words, int is_done) {
    int link = dial(words[0]), count = atoi(words[1]), found = 0, more;
    double first = 0, last = 0;
    puts("listens"), fflush(stdout);
    while (found + (is_done ? told_lost : 0) < count && (more = came(link)) >= 0) {
        if (more && !found)
            first = now();
        if (more)
            last = now();
        found += more;
    }
    printf("%d %ld %.4f\n", found, told_lost, last - first);
}

static void read_messages(char **words) { read_until(words, 1); }

static void get_messages(char **words) { read_until(words, 0); }

static int compare(const void *one, const void *other) { return (*(double *)one > *(double *)other) - (*(double *)one < *(double *)other); }

/* What sends one message, and how long it takes until a client has it. */
static void measure_latency(int client, int count, int rest, void (*sends)(int number)) {
    double *took = calloc(count, sizeof *took);
    int number, more;
    for (number = 0; number < count; number++) {
        double began;
        usleep(rest * 1000);
        began = now();
        sends(number);
        while ((more = came(client)) == 0)
            continue;
        if (more < 0)
            fail("latency");
        took[number] = now() - began;
    }
    qsort(took, count, sizeof *took, compare);
    printf("%d %.6f %.6f\n", count, took[count / 2], took[count - 1 - count / 100]);
}

static int channel;

static void sends_over_channel(int number) {
    unsigned char out[256];
    put_all(channel, out, logged(out, number, 20));
}

static void measure_channel(char **words) {
    int client = dial(words[0]);
    channel = dial(words[1]);
    registers(channel);
    measure_latency(client, atoi(words[2]), atoi(words[3]), sends_over_channel);
}

static void read_slowly(char **words) {
    static unsigned char piece[1000];
    int link = dial(words[0]);
    double until = now() + atof(words[1]);
    while (now() < until && read(link, piece, sizeof piece) > 0)
        usleep(100000);
}

#ifdef LIBDLT
static int each, sizes;

static void *log_by_libdlt(void *place) {
    DLT_DECLARE_CONTEXT(context)
    char id[5], payload[2048];
    int number, total, used;
    snprintf(id, sizeof id, "TS%02ld", (long)place);
    DLT_REGISTER_CONTEXT_LL_TS(context, id, "live", DLT_LOG_INFO, DLT_TRACE_STATUS_OFF);
    memset(payload, 'x', sizeof payload), payload[sizes] = 0;
    for (number = 0; number < each; number++) {
        DLT_LOG(context, DLT_LOG_INFO, DLT_CSTRING(payload));
        if (number % 64 == 0)
            while (dlt_user_check_buffer(&total, &used) == 0 && used > total / 2)
                dlt_user_log_resend_buffer();
    }
    DLT_UNREGISTER_CONTEXT(context);
    return 0;
}

static void log_with_libdlt(char **words) {
    pthread_t threads[64];
    int many = atoi(words[2]);
    long place;
    double began;
    each = atoi(words[0]) / many, sizes = atoi(words[1]) - 7 > 0 ? atoi(words[1]) - 7 : 0;
    DLT_REGISTER_APP("LIVE", "live");
    usleep(500000);
    began = now();
    for (place = 0; place < many; place++)
        pthread_create(threads + place, 0, log_by_libdlt, (void *)place);
    for (place = 0; place < many; place++)
        pthread_join(threads[place], 0);
    printf("%d %.4f\n", each * many, now() - began), fflush(stdout);
    sleep(2);
    DLT_UNREGISTER_APP_FLUSH_BUFFERED_LOGS();
}

DLT_DECLARE_CONTEXT(only)

static void begins_only(void) {
    DLT_REGISTER_APP("LIVE", "live");
    DLT_REGISTER_CONTEXT_LL_TS(only, "TEST", "live", DLT_LOG_INFO, DLT_TRACE_STATUS_OFF);
    usleep(500000);
}

/* Its payload has twenty bytes, as those of dlt_bench. */
static __attribute__((noinline)) void one_call(DltLogLevelType level) {
    DLT_LOG_STRING(only, level, "thirteen text");
}

static void sends_by_libdlt(int number) {
    (void)number;
    one_call(DLT_LOG_INFO);
}

static void measure_libdlt(char **words) {
    int client = dial(words[0]);
    begins_only();
    measure_latency(client, atoi(words[1]), atoi(words[2]), sends_by_libdlt);
}

static void log_nothing(char **words) {
    (void)words;
    begins_only();
    printf("0\n"), fflush(stdout);
    pause();
}

static void make_calls(char **words) {
    DltLogLevelType level = strcmp(words[0], "filtered") ? DLT_LOG_INFO : DLT_LOG_DEBUG;
    int count = atoi(words[1]), number, total, used = 0;
    begins_only();
    for (number = 0; number < count; number++) {
        one_call(level);
        do
            dlt_user_check_buffer(&total, &used);
        while (used && !usleep(1000));
    }
    DLT_UNREGISTER_APP_FLUSH_BUFFERED_LOGS();
}
#endif

struct job {
    const char *word;
    int words;
    void (*does)(char **words);
};

static const struct job jobs[] = {
    {"channel", 3, log_over_channel},
    {"read", 2, read_messages},
    {"gets", 2, get_messages},
    {"latency", 4, measure_channel},
    {"slow", 2, read_slowly},
#ifdef LIBDLT
    {"libdlt", 3, log_with_libdlt},
    {"liblatency", 3, measure_libdlt},
    {"libidle", 0, log_nothing},
    {"calls", 2, make_calls},
#endif
};

int main(int count, char **words) {
    size_t at;
    for (at = 0; at < sizeof jobs / sizeof *jobs; at++)
        if (count > 1 && count == jobs[at].words + 2 && !strcmp(words[1], jobs[at].word))
            return jobs[at].does(words + 2), 0;
    return fputs("usage: see the first lines of live.c\n", stderr), 2;
}
