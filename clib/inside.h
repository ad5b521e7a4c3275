/* What the library's files share: the proved library's memory, and the lock over it. */
#ifndef DL_INSIDE_H
#define DL_INSIDE_H

#include "dl_client.h"
#include "dlt/dlt.h"

#include <limits.h>
#include <linux/futex.h>
#include <stdatomic.h>
#include <stdbool.h>
#include <stddef.h>
#include <stdint.h>
#include <sys/syscall.h>
#include <unistd.h>

#define EXPORT __attribute__((visibility("default")))

_Static_assert(sizeof(DltContext) == 32 && offsetof(DltContext, log_level_ptr) == 8, "DltContext is libdlt's");
_Static_assert(sizeof(DltContextData) == 56 && offsetof(DltContextData, use_timestamp) == 40, "DltContextData is libdlt's");

enum { PLACES = 1024, QUEUE_BYTES = 512000, SPARE_BYTES = 512000, PAYLOAD_BYTES = DLT_USER_BUF_MAX_SIZE, INJECTED_BYTES = 1390, TEXT_BYTES = 255, CALLS = 16 };

typedef void (*LevelCallback)(char ctid[DLT_ID_SIZE], uint8_t level, uint8_t trace_status);

/* what is called with injected bytes of a service */
typedef struct {
    uint32_t service;
    dlt_injection_callback call;
    dlt_injection_callback_id call_with_id;
    void *mine;
} Injection;

/* What the library keeps of a place beside the context's counts. One that is gone and could not be told yet has its place still. */
typedef struct {
    bool taken, gone, is_told, has_accounts;
    int8_t level, trace;
    int8_t own; /* the level that it asked for, or -1 */
    char text[TEXT_BYTES + 1];
    LevelCallback changed;
    Injection injections[CALLS];
    unsigned injection_count;
} Place;

/*
 * What a call looks at, with no lock: the level of the context at each place in the top byte, and below it how many calls it filtered that
 * the proved library doesn't know yet. Where the level is OPEN, as while it changes, calls pass here, and the proved library decides.
 */
enum { LEVEL_BIT = 56, OPEN = 255 };
extern _Atomic uint64_t sieves[PLACES];

extern Client client;
extern Place places[PLACES];
extern atomic_bool is_verbose;

/* ---- the lock: nobody waits who finds it free; 0 free, 1 held, 2 held and waited for */

extern atomic_uint lock_state;

void lock_waiting(void);

static inline void lock(void) {
    unsigned is_free = 0;
    if (!atomic_compare_exchange_strong_explicit(&lock_state, &is_free, 1, memory_order_acquire, memory_order_relaxed))
        lock_waiting();
}

static inline void unlock(void) {
    if (atomic_exchange_explicit(&lock_state, 0, memory_order_release) == 2)
        syscall(SYS_futex, &lock_state, FUTEX_WAKE_PRIVATE, 1, NULL, NULL, 0);
}

/* ---- what calls need of the link's side */

/* begins the library, with the lock held */
void start(void);

/* has the thread look at the queue, which was empty until now, with the lock held */
void wake_for_first(void);

uint32_t ticks_now(void);

#endif
