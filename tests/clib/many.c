/*
 * Programs that log through libdlt.so.2, for tests/clib/run. Each prints what it knows of its own calls, as WORD NUMBER lines.
 *
 *     many threads COUNT CALLS    so many threads, each with a context of its own and one that all share
 *     many forks COUNT CALLS      so many children, each with an application of its own, beside calls of its own
 *     many levels                 tells each level and each injection that comes, until QUIT is injected
 *     many places CALLS           registers and unregisters contexts, with calls between
 *     many full CALLS             so many calls at once, whether anybody takes them or not
 *     many again CALLS            begins and ends the library twice
 *     many cost KIND CALLS        so many calls of a kind, each within one_call: what a call costs
 */
#include <dlt/dlt.h>
#include <pthread.h>
#include <stdatomic.h>
#include <stdio.h>
#include <stdlib.h>
#include <string.h>
#include <sys/wait.h>
#include <time.h>
#include <unistd.h>

static DltContext shared;
static int calls;

static void says(const char *word, long number) {
    printf("%s %ld\n", word, number);
    fflush(stdout);
}

/* one in three passes level info */
static int severity(int number) { return number % 3 ? DLT_LOG_DEBUG : DLT_LOG_INFO; }

/* Logs so many calls of a context, and answers how many pass. */
static long logs(DltContext *context) {
    long passed = 0;
    for (int n = 0; n < calls; n++) {
        DLT_LOG(*context, severity(n), DLT_STRING("number"), DLT_INT(n));
        passed += severity(n) == DLT_LOG_INFO;
    }
    return passed;
}

static void *in_thread(void *number) {
    char ctid[16];
    DltContext mine;
    snprintf(ctid, sizeof ctid, "T%03ld", (long)number);
    DLT_REGISTER_CONTEXT(mine, ctid, "one of a thread");
    logs(&mine);
    logs(&shared);
    DLT_UNREGISTER_CONTEXT(mine);
    return NULL;
}

static void threads(int count) {
    pthread_t all[64];
    DLT_REGISTER_APP("MANY", "many threads");
    DLT_REGISTER_CONTEXT(shared, "ALL", "all threads");
    for (long n = 0; n < count; n++)
        pthread_create(&all[n], NULL, in_thread, (void *)n);
    for (int n = 0; n < count; n++)
        pthread_join(all[n], NULL);
    DLT_UNREGISTER_CONTEXT(shared);
    DLT_UNREGISTER_APP();
}

static void forks(int count) {
    DLT_REGISTER_APP("MANY", "a parent");
    DLT_REGISTER_CONTEXT(shared, "ALL", "of the parent");
    logs(&shared);
    for (int n = 0; n < count; n++) {
        if (fork())
            continue;
        char apid[16];
        DltContext mine;
        /* the parent's contexts are not the child's */
        if (dlt_log_string(&shared, DLT_LOG_INFO, "of the child") == DLT_RETURN_OK)
            _exit(1);
        snprintf(apid, sizeof apid, "F%03d", n);
        DLT_REGISTER_APP(apid, "a child");
        DLT_REGISTER_CONTEXT(mine, "MINE", "of a child");
        logs(&mine);
        exit(0);
    }
    logs(&shared);
    int failed = 0;
    for (int status; wait(&status) > 0;)
        failed += status != 0;
    says("failed", failed);
}

static void places(void) {
    DltContext context;
    char long_text[400];
    memset(long_text, 'd', sizeof long_text - 1);
    long_text[sizeof long_text - 1] = 0;
    DLT_REGISTER_APP("MANY", long_text);
    for (int n = 0; n < calls; n++) {
        char ctid[16];
        snprintf(ctid, sizeof ctid, "P%d", n % 50);
        DLT_REGISTER_CONTEXT(context, ctid, long_text);
        DLT_LOG(context, severity(n), DLT_INT(n));
        DLT_UNREGISTER_CONTEXT(context);
    }
}

static atomic_int is_over;

static void changed(char ctid[4], uint8_t level, uint8_t trace) {
    printf("level %.4s %d %d\n", ctid, level, trace);
    fflush(stdout);
}

static int injected(uint32_t service, void *bytes, uint32_t len) {
    printf("injected %u %.*s\n", service, (int)len, (char *)bytes);
    fflush(stdout);
    if (len >= 4 && !memcmp(bytes, "QUIT", 4))
        is_over = 1;
    return 0;
}

static int injected_with(uint32_t service, void *bytes, uint32_t len, void *mine) {
    printf("injected %u %.*s %s\n", service, (int)len, (char *)bytes, (char *)mine);
    fflush(stdout);
    return 0;
}

static void levels(void) {
    struct timespec pause = {0, 5000000};
    long made = 0;
    DLT_REGISTER_APP("MANY", "levels");
    DLT_REGISTER_CONTEXT_LLCCB(shared, "ALL", "told", changed);
    DLT_REGISTER_INJECTION_CALLBACK(shared, 4096, injected);
    DLT_REGISTER_INJECTION_CALLBACK_WITH_ID(shared, 4097, injected_with, "mine");
    while (!is_over) {
        DLT_LOG(shared, DLT_LOG_DEBUG, DLT_STRING("debug"), DLT_INT((int)made));
        made++;
        nanosleep(&pause, NULL);
    }
    DLT_UNREGISTER_CONTEXT(shared);
    says("made", made);
}

static void full(void) {
    struct timespec begin, end;
    long dearest = 0;
    DLT_REGISTER_APP("MANY", "full");
    DLT_REGISTER_CONTEXT(shared, "ALL", "full");
    for (int n = 0; n < calls; n++) {
        clock_gettime(CLOCK_THREAD_CPUTIME_ID, &begin);
        DLT_LOG(shared, DLT_LOG_INFO, DLT_STRING("number"), DLT_INT(n));
        clock_gettime(CLOCK_THREAD_CPUTIME_ID, &end);
        long took = (end.tv_sec - begin.tv_sec) * 1000000 + (end.tv_nsec - begin.tv_nsec) / 1000;
        dearest = took > dearest ? took : dearest;
    }
    says("dearest", dearest);
}

static void again(void) {
    for (int turn = 0; turn < 2; turn++) {
        dlt_init();
        /* the one turn the context comes before its application */
        if (turn == 0)
            DLT_REGISTER_CONTEXT(shared, "ALL", "again");
        DLT_REGISTER_APP("MANY", "again");
        if (turn == 1)
            DLT_REGISTER_CONTEXT(shared, "ALL", "again");
        logs(&shared);
        dlt_free();
    }
}

__attribute__((noinline)) static void one_call(DltLogLevelType level) {
    DLT_LOG(shared, level, DLT_STRING("twenty-nine letters in a text"), DLT_INT(7));
}

__attribute__((noinline)) static void one_inline(DltLogLevelType level) { DLT_LOG_STRING(shared, level, "twenty-nine letters in a text"); }

static void cost(const char *kind) {
    DLT_REGISTER_APP("MANY", "cost");
    DLT_REGISTER_CONTEXT(shared, "ALL", "cost");
    for (int n = 0; n < calls; n++) {
        if (!strcmp(kind, "inline"))
            one_inline(DLT_LOG_DEBUG);
        else
            one_call(strcmp(kind, "filtered") ? DLT_LOG_INFO : DLT_LOG_DEBUG);
    }
}

int main(int argc, char **argv) {
    const char *job = argc > 1 ? argv[1] : "";
    if (strcmp(job, "full"))
        dlt_set_resend_timeout_atexit(60000);
    calls = argc > 2 ? atoi(argv[argc - 1]) : 0;
    if (!strcmp(job, "threads"))
        threads(atoi(argv[2]));
    else if (!strcmp(job, "forks"))
        forks(atoi(argv[2]));
    else if (!strcmp(job, "levels"))
        levels();
    else if (!strcmp(job, "places"))
        places();
    else if (!strcmp(job, "full"))
        full();
    else if (!strcmp(job, "again"))
        again();
    else if (!strcmp(job, "cost"))
        cost(argv[2]);
    else
        return 2;
    return 0;
}
