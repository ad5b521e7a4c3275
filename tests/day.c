/*
 * A program of tests/day that logs through libdlt.so.2, as it is told on standard input, and writes down what its library answered to each call.
 *
 *     day APID RECORD
 *
 * Its contexts are MAIN, NETW and DISK. Lines that it takes: `log CTID SEVERITY COUNT SIZE`, so many calls, each with a text that begins with the call's
 * number and has so many letters at least; and `end`. It answers `done NUMBER`, the next call's number, and tells levels as `level CTID LEVEL`. RECORD
 * has a line `NUMBER CTID SEVERITY TICKS ANSWER` for each call: `filtered`, `queued`, `lost`, or a number that the library doesn't tell.
 */
#include <dlt/dlt.h>
#include <stdio.h>
#include <stdlib.h>
#include <string.h>
#include <time.h>

enum { CONTEXTS = 3 };
static const char *const names[CONTEXTS] = {"MAIN", "NETW", "DISK"};
static DltContext contexts[CONTEXTS];
static const char *apid;
static FILE *record;
static long number;

static uint32_t ticks_now(void) {
    struct timespec now;
    clock_gettime(CLOCK_MONOTONIC, &now);
    return (uint32_t)((uint64_t)now.tv_sec * 10000 + (uint64_t)now.tv_nsec / 100000);
}

static void changed(char ctid[4], uint8_t level, uint8_t trace) {
    (void)trace;
    printf("level %.4s %d\n", ctid, level);
    fflush(stdout);
}

/* One call, of which the library answers what became of it; its time is the program's own, so that a call that was filtered has one, too. */
static const char *log_one(DltContext *context, int severity, uint32_t ticks, const char *text) {
    static char other[16];
    DltContextData log;
    DltReturnValue answer = dlt_user_log_write_start(context, &log, severity);
    if (answer == DLT_RETURN_OK)
        return "filtered";
    if (answer == DLT_RETURN_TRUE) {
        dlt_user_log_write_string(&log, text);
        log.use_timestamp = DLT_USER_TIMESTAMP;
        log.user_timestamp = ticks;
        answer = dlt_user_log_write_finish(&log);
        if (answer == DLT_RETURN_OK)
            return "queued";
        if (answer == DLT_RETURN_BUFFER_FULL)
            return "lost";
    }
    snprintf(other, sizeof other, "%d", answer);
    return other;
}

static void log_some(const char *ctid, int severity, long count, int size) {
    char text[1400];
    int at = 0;
    while (at < CONTEXTS - 1 && strcmp(names[at], ctid))
        at++;
    for (long n = 0; n < count; n++, number++) {
        int used = snprintf(text, sizeof text, "%s call %ld ", apid, number);
        if (used < size && size < (int)sizeof text) {
            memset(text + used, 'x', (size_t)(size - used));
            text[size] = 0;
        }
        uint32_t ticks = ticks_now();
        const char *answer = log_one(&contexts[at], severity, ticks, text);
        fprintf(record, "%ld %s %d %u %s\n", number, names[at], severity, ticks, answer);
    }
}

int main(int argc, char **argv) {
    char line[200], ctid[8];
    int severity, size;
    long count;
    if (argc != 3 || !(record = fopen(argv[2], "w")))
        return 2;
    apid = argv[1];
    DLT_REGISTER_APP(apid, "a day's program");
    for (int at = 0; at < CONTEXTS; at++)
        DLT_REGISTER_CONTEXT_LLCCB(contexts[at], names[at], "of a day", changed);
    while (fgets(line, sizeof line, stdin) && strcmp(line, "end\n")) {
        if (sscanf(line, "log %7s %d %ld %d", ctid, &severity, &count, &size) == 4)
            log_some(ctid, severity, count, size);
        fflush(record);
        printf("done %ld\n", number);
        fflush(stdout);
    }
    fclose(record);
    return 0;
}
