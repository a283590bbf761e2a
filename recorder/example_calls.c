/* Four threads use an eventcount, a sequencer and a lock, all their own, and record their calls.
 *
 *     example_calls FILE [lost|twice|early|lock]
 *
 * The second word plants a bug, which `evc-calls check FILE` finds. The recorder is not proved. */
#include "evc_calls.h"
#include <stdatomic.h>
#include <threads.h>

static evc_calls calls;
static int E, T, S;
static const char *bug = "";
static _Atomic uint64_t count, next, held;

static int has(const char *name) { return strcmp(bug, name) == 0; }
static void linger(void) { thrd_sleep(&(struct timespec){.tv_nsec = 20000}, NULL); }

/* Returns a number and adds one. The bug loads and stores, and others come in between. */
static uint64_t add(_Atomic uint64_t *number, int has_bug) {
    uint64_t seen = has_bug ? atomic_load(number) : atomic_fetch_add(number, 1);
    if (has_bug)
        linger(), atomic_store(number, seen + 1);
    return seen;
}

/* Waits for a count, and gives up after some looks. The bug returns one too early. */
static int await(uint64_t threshold) {
    for (int looks = 0; looks < 20; looks++, sched_yield())
        if (atomic_load(&count) + (uint64_t)has("early") >= threshold)
            return 1;
    return 0;
}

/* Takes the lock. The bug tests, and sets later. */
static void lock(void) {
    while (has("lock") ? atomic_load(&held) : atomic_exchange(&held, 1))
        sched_yield();
    if (has("lock"))
        linger(), atomic_store(&held, 1);
}

static void *run(void *given) {
    evc_caller *w = given;
    for (int k = 0; k < 200; k++) {
        evc_call_advance(w, E), add(&count, has("lost")), evc_return_done(w);
        uint64_t seen = (evc_call_read(w, E), atomic_load(&count));
        evc_return_number(w, seen), evc_call_await(w, E, seen + 1);
        await(seen + 1) ? evc_return_done(w) : evc_return_timeout(w);
        evc_call_ticket(w, T), evc_return_number(w, add(&next, has("twice")));
        evc_call_p(w, S), lock(), evc_return_done(w);
        linger();
        evc_call_v(w, S), atomic_store(&held, 0), evc_return_done(w);
    }
    return NULL;
}

int main(int words, char **word) {
    evc_caller *worker[4];
    pthread_t thread[4];
    bug = words > 2 ? word[2] : "";
    evc_calls_open(&calls, EVC_CALLS_COUNTER, NULL);
    for (int i = 0; i < 4; i++)
        worker[i] = evc_calls_worker(&calls, (const char *[]){"a", "b", "c", "d"}[i], 1200);
    E = evc_calls_eventcount(&calls, "E", 0), T = evc_calls_sequencer(&calls, "T");
    S = evc_calls_semaphore(&calls, "S", 1); /* the lock: p takes it, v lets go */
    for (int i = 0; i < 4; i++)
        pthread_create(&thread[i], NULL, run, worker[i]);
    for (int i = 0; i < 4; i++)
        pthread_join(thread[i], NULL);
    enum evc_calls_fault fault = evc_calls_write(&calls, words > 1 ? word[1] : "example.calls");
    return printf("%s\n", evc_calls_fault_name(fault)), fault != EVC_CALLS_OK;
}
