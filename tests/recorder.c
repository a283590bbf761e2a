/* tests/recorder.c: what tests/run-recorder asks of recorder/evc_calls.h.
 *
 *     recorder all CLOCK OUT              each call once, on one thread
 *     recorder names                      what is wrong with each of some declarations
 *     recorder wrong N OUT                the wrong use N, after one right call
 *     recorder run CLOCK KIND OUT [FILE]  four threads on a counter. KIND is right, lossy, full,
 *                                         abort, kill or hang; FILE keeps the record
 *     recorder large OUT                  more than a text may have
 *     recorder unwritten OUT              a history for a full device, and then for OUT
 *     recorder skew CLOCK AMOUNT OUT      a clock of one processor is ahead all the time
 *     recorder apart CLOCK AMOUNT OUT     it runs ahead between the two measurements
 *     recorder steps KIND OUT             two threads record steps by evc_record.h. KIND is right,
 *                                         or one of them hangs: idle, or locked, with the lock
 *
 * It says what fault there was, and the note. */
#include <stdio.h>
#ifdef __x86_64__
#include <x86intrin.h>
static unsigned long long is_ahead;
/* Returns how far the clock of this processor is ahead: those with odd numbers are. */
static unsigned long long ahead(void) {
    unsigned processor;
    __rdtscp(&processor);
    return processor & 1 ? __atomic_load_n(&is_ahead, __ATOMIC_RELAXED) : 0;
}
#define EVC_CALLS_AHEAD ahead()
#endif
#include "../recorder/evc_calls.h"
#include "../recorder/evc_record.h"
#include <signal.h>

static evc_calls calls;
static uint64_t count;
static int E, has_hung;
static const char *kind = "right";

static int says(enum evc_calls_fault fault) {
    printf("|%s\n", calls.note);
    evc_calls_close(&calls);
    return fault == EVC_CALLS_OK ? 0 : 1;
}

static enum evc_calls_clock clock_of(const char *word) {
    static const char *const words[] = {"counter", "tsc", "monotonic", "tsc_bare",
                                        "monotonic_bare"};
    int found = 0;
    for (int i = 0; i < 5; i++)
        if (strcmp(word, words[i]) == 0)
            found = i;
    return (enum evc_calls_clock)found;
}

/* Each call once. */

static int try_all(const char *clock, const char *out) {
    evc_calls_open(&calls, clock_of(clock), NULL);
    evc_caller *a = evc_calls_worker(&calls, "a", 20), *b = evc_calls_worker(&calls, "b", 20);
    evc_caller *c = evc_calls_worker(&calls, "c", 20);
    int F = evc_calls_eventcount(&calls, "E", 3), T = evc_calls_sequencer(&calls, "T");
    int X = evc_calls_cells(&calls, "X", 2), R = evc_calls_semaphore(&calls, "R", 1);
    int S = evc_calls_semaphore(&calls, "S", 2);
    evc_calls_both(&calls);
    int D = evc_calls_database(&calls, "D", 7, "a b"), B = evc_calls_buffer(&calls, "B", 1, "a");
    const uint64_t values[7] = {1, 2, 3, 4, 5, 0, EVC_CALLS_NUMBER_MAX};
    evc_call_read(c, F), evc_call_advance(a, F), evc_return_done(a), evc_return_number(c, 4);
    evc_call_await(c, F, 9), evc_return_timeout(c);
    evc_call_await(c, F, 4), evc_return_number(c, 4);
    evc_call_await(c, F, 2), evc_return_done(c);
    evc_call_ticket(a, T), evc_return_number(a, 0);
    evc_call_put(a, X, 1, 7), evc_call_get(b, X, 1), evc_return_done(a), evc_return_number(b, 7);
    evc_call_pboth(a, R, S), evc_return_done(a);
    evc_call_v(a, R), evc_return_done(a);
    evc_call_p(b, R), evc_return_done(b);
    evc_call_p(b, R), evc_return_timeout(b);
    evc_call_write(a, D, values), evc_return_done(a);
    evc_call_snapshot(c, D), evc_return_values(c, values);
    evc_call_produce(a, B, 7), evc_return_done(a);
    evc_call_produce(a, B, 8), evc_return_timeout(a);
    evc_call_consume(b, B), evc_return_number(b, 7);
    evc_call_consume(c, B), evc_return_timeout(c);
    evc_call_p(b, R);
    return says(evc_calls_write(&calls, out));
}

/* Declarations. */

static void declares(const char *what, int object) {
    printf("%s: %d |%s\n", what, object >= 0, calls.note);
    evc_calls_close(&calls);
    evc_calls_open(&calls, EVC_CALLS_COUNTER, NULL);
}

static void with_workers(int workers) {
    char name[16];
    for (int i = 0; i < workers; i++) {
        snprintf(name, sizeof name, "w%d", i);
        evc_calls_worker(&calls, name, 1);
    }
}

static int worker(const char *name) { return evc_calls_worker(&calls, name, 1) ? 0 : -1; }

static int many_cells(void) {
    with_workers(2);
    int last = 0;
    for (char name[] = "A"; name[0] <= 'C'; name[0]++)
        last = evc_calls_cells(&calls, name, 100);
    return last;
}

static int many_eventcounts(void) {
    char name[16];
    int last = 0;
    with_workers(2);
    for (int i = 0; i < 33; i++) {
        snprintf(name, sizeof name, "E%d", i);
        last = evc_calls_eventcount(&calls, name, 0);
    }
    return last;
}

static int late_worker(void) {
    with_workers(1);
    evc_calls_eventcount(&calls, "E", 0);
    return worker("b");
}

static int late_object(void) {
    evc_caller *a = evc_calls_worker(&calls, "a", 1);
    evc_call_advance(a, evc_calls_eventcount(&calls, "E", 0));
    return evc_calls_sequencer(&calls, "T");
}

static void try_names(void) {
    static const char *const names[] = {"a",      "A_9", "abcdefghijklmnop",  "",  "9a", "_a",
                                        "a-b",    "a\n", "abcdefghijklmnopq", "p", "v",  "done",
                                        "workers"};
    evc_calls_open(&calls, EVC_CALLS_COUNTER, NULL);
    for (size_t i = 0; i < sizeof names / sizeof *names; i++)
        declares("worker", worker(names[i]));
    if (worker(NULL) >= 0)
        printf("NULL is a name\n");
    evc_calls_close(&calls);
    evc_calls_open(&calls, EVC_CALLS_COUNTER, NULL);
    with_workers(16), declares("16 workers", 0);
    with_workers(16), declares("17 workers", worker("a"));
    with_workers(2), declares("worker twice", worker("w1"));
    with_workers(2), declares("object as worker", evc_calls_sequencer(&calls, "w1"));
    with_workers(2), declares("object p", evc_calls_semaphore(&calls, "p", 1));
    with_workers(2), evc_calls_both(&calls), declares("both twice", evc_calls_both(&calls));
    with_workers(2), declares("from", evc_calls_eventcount(&calls, "E", EVC_CALLS_LIMIT));
    with_workers(2), declares("from", evc_calls_eventcount(&calls, "E", EVC_CALLS_LIMIT + 1));
    with_workers(2), declares("0 cells", evc_calls_cells(&calls, "X", 0));
    with_workers(2), declares("257 cells", evc_calls_cells(&calls, "X", 257));
    with_workers(2), declares("units", evc_calls_semaphore(&calls, "S", 1000001));
    with_workers(2), declares("database", evc_calls_database(&calls, "D", 2, "w0"));
    with_workers(2), declares("all write", evc_calls_database(&calls, "D", 2, "w0 w1"));
    with_workers(2), declares("none writes", evc_calls_database(&calls, "D", 2, ""));
    with_workers(2), declares("unknown writer", evc_calls_database(&calls, "D", 2, "w0 w2"));
    with_workers(2), declares("writer twice", evc_calls_database(&calls, "D", 2, "w0 w0"));
    with_workers(2), declares("buffer", evc_calls_buffer(&calls, "B", 256, "w1"));
    with_workers(2), declares("none consumes", evc_calls_buffer(&calls, "B", 2, "w0 w1"));
    with_workers(2), declares("257 items", evc_calls_buffer(&calls, "B", 257, "w0"));
    declares("300 cells", many_cells());
    declares("33 eventcounts", many_eventcounts());
    declares("late worker", late_worker());
    declares("late object", late_object());
    declares("no workers", evc_calls_sequencer(&calls, "T"));
    declares("no room", evc_calls_worker(&calls, "a", 0) ? 0 : -1);
    evc_calls_close(&calls);
}

/* Wrong uses. */

static int try_wrong(int number, const char *out) {
    evc_calls_open(&calls, EVC_CALLS_COUNTER, NULL);
    evc_caller *a = evc_calls_worker(&calls, "a", 10), *b = evc_calls_worker(&calls, "b", 10);
    int F = evc_calls_eventcount(&calls, "E", 0), X = evc_calls_cells(&calls, "X", 2);
    int S = evc_calls_semaphore(&calls, "S", 1), D = evc_calls_database(&calls, "D", 2, "b");
    int B = evc_calls_buffer(&calls, "B", 2, "b");
    const uint64_t values[2] = {0, 0}, large[2] = {0, EVC_CALLS_NUMBER_MAX + 1};
    evc_call_advance(a, F), evc_return_done(a);
    switch (number) {
    case 0: evc_call_read(a, F), evc_call_read(a, F); break;
    case 1: evc_return_done(a); break;
    case 2: evc_call_advance(a, X); break;
    case 3: evc_call_read(a, 99); break;
    case 4: evc_call_read(a, -1); break;
    case 5: evc_call_get(a, X, 2); break;
    case 6: evc_call_await(a, F, EVC_CALLS_NUMBER_MAX + 1); break;
    case 7: evc_call_write(b, D, large); break;
    case 8: evc_call_write(a, D, values); break;
    case 9: evc_call_snapshot(b, D); break;
    case 10: evc_call_read(a, F), evc_return_done(a); break;
    case 11: evc_call_advance(a, F), evc_return_timeout(a); break;
    case 12: evc_call_snapshot(a, D), evc_return_number(a, 0); break;
    case 13: evc_call_read(a, F), evc_return_values(a, values); break;
    case 14: evc_call_pboth(a, S, S); break;
    case 15: evc_call_produce(a, B, 7); break;
    case 16: evc_call_consume(b, B); break;
    case 17: evc_call_consume(a, B), evc_return_done(a); break;
    case 18: evc_call_consume(a, B), evc_return_number(a, EVC_CALLS_NUMBER_MAX + 1); break;
    case 19: evc_call_snapshot(a, D), evc_return_values(a, large); break;
    default: evc_call_advance(NULL, F), evc_return_done(NULL); break;
    }
    evc_call_read(b, F), evc_return_number(b, 1);
    return says(evc_calls_write(&calls, out));
}

/* Four threads. */

static int is_kind(const char *word) { return strcmp(kind, word) == 0; }

static void hang(void) {
    __atomic_store_n(&has_hung, 1, __ATOMIC_RELEASE);
    for (;;)
        pause();
}

/* Does what the kind of run provides for this worker. */
static void meet_fate(evc_caller *w) {
    if (is_kind("abort")) {
        evc_call_advance(w, E);
        __atomic_fetch_add(&count, 1, __ATOMIC_SEQ_CST);
        abort();
    }
    if (is_kind("kill"))
        raise(SIGKILL);
    if (is_kind("hang")) {
        evc_call_await(w, E, 1000000);
        hang();
    }
}

static void *run(void *given) {
    evc_caller *w = (evc_caller *)given;
    for (int k = 0; k < 4000; k++) {
        if (k == 2000 && w->number == 2)
            meet_fate(w);
        if ((k + w->number) % 2) {
            evc_call_advance(w, E);
            if (is_kind("lossy") && k % 100 == 99)
                ;
            else
                __atomic_fetch_add(&count, 1, __ATOMIC_SEQ_CST);
            evc_return_done(w);
        } else {
            evc_call_read(w, E);
            evc_return_number(w, __atomic_load_n(&count, __ATOMIC_SEQ_CST));
        }
    }
    return NULL;
}

static enum evc_calls_fault run_four(const char *out) {
    pthread_t threads[4];
    evc_caller *w[4];
    char name[16];
    for (int i = 0; i < 4; i++) {
        snprintf(name, sizeof name, "w%d", i);
        w[i] = evc_calls_worker(&calls, name, is_kind("full") && i == 1 ? 1000 : 4000);
    }
    E = evc_calls_eventcount(&calls, "E", 0);
    if (calls.fault != EVC_CALLS_OK)
        return calls.fault;
    for (int i = 0; i < 4; i++)
        pthread_create(&threads[i], NULL, run, w[i]);
    for (int i = 0; i < 4; i++)
        if (!is_kind("hang") || i != 2)
            pthread_join(threads[i], NULL);
    if (is_kind("hang")) {
        while (!__atomic_load_n(&has_hung, __ATOMIC_ACQUIRE))
            sched_yield();
        evc_calls_watch(&calls, 0.5, out);
        pthread_join(threads[2], NULL);
    }
    return EVC_CALLS_OK;
}

static int try_run(const char *clock, const char *out, const char *file) {
    evc_calls_open(&calls, clock_of(clock), file);
    run_four(out);
    return says(evc_calls_write(&calls, out));
}

static int try_large(const char *out) {
    uint64_t values[256];
    for (int i = 0; i < 256; i++)
        values[i] = EVC_CALLS_NUMBER_MAX;
    evc_calls_open(&calls, EVC_CALLS_COUNTER, NULL);
    evc_caller *a = evc_calls_worker(&calls, "a", 53 * 14000);
    evc_calls_worker(&calls, "b", 1);
    int D = evc_calls_database(&calls, "D", 256, "a");
    for (int i = 0; i < 14000; i++)
        evc_call_write(a, D, values), evc_return_done(a);
    return says(evc_calls_write(&calls, out));
}

static int try_unwritten(const char *out) {
    evc_calls_open(&calls, EVC_CALLS_COUNTER, NULL);
    run_four(out);
    evc_calls_write(&calls, "/dev/full");
    printf("|%s\n", calls.note);
    evc_calls_write(&calls, "/nowhere/x.calls");
    printf("|%s\n", calls.note);
    return says(evc_calls_write(&calls, out));
}

static int try_skew(const char *clock, const char *amount, const char *out, int is_first) {
#ifdef __x86_64__
    if (is_first)
        is_ahead = strtoull(amount, NULL, 10);
    evc_calls_open(&calls, clock_of(clock), NULL);
    run_four(out);
    __atomic_store_n(&is_ahead, strtoull(amount, NULL, 10), __ATOMIC_RELAXED);
    if (calls.head)
        printf("%d ", calls.head->skew >= is_ahead / 2);
#else
    (void)clock, (void)amount, (void)is_first;
#endif
    return says(evc_calls_write(&calls, out));
}

/* Steps. */

static evc_record record;

static void *make_steps(void *given) {
    int w = *(int *)given;
    evc_gate(&record, 2);
    for (int k = 0; k < 1000; k++) {
        evc_pause_between(&record, w);
        if (w == 1 && k == 500 && is_kind("idle"))
            hang();
        evc_lock(&record);
        if (w == 1 && k == 500 && is_kind("locked"))
            hang();
        evc_done(&record, w, "advance E");
    }
    return NULL;
}

static int try_steps(const char *out) {
    pthread_t threads[2];
    int w[2];
    evc_open(&record, 100000);
    evc_seed(&record, 7);
    w[0] = evc_worker(&record, "a");
    w[1] = evc_worker(&record, "b");
    evc_declare(&record, "eventcount E signal a b");
    for (int i = 0; i < 2; i++)
        pthread_create(&threads[i], NULL, make_steps, &w[i]);
    if (is_kind("idle"))
        pthread_join(threads[0], NULL);
    if (!is_kind("right")) {
        while (!__atomic_load_n(&has_hung, __ATOMIC_ACQUIRE))
            sched_yield();
        evc_watch(&record, 1, out);
    }
    for (int i = 0; i < 2; i++)
        pthread_join(threads[i], NULL);
    enum evc_fault fault = evc_write_so_far(&record, out);
    fault = fault == EVC_OK ? evc_finish(&record, out) : fault;
    printf("|%s\n", evc_fault_name(fault));
    evc_close(&record);
    return fault != EVC_OK;
}

int main(int words, char **word) {
    const char *what = words > 1 ? word[1] : "";
    if (strcmp(what, "all") == 0 && words == 4)
        return try_all(word[2], word[3]);
    if (strcmp(what, "names") == 0)
        return try_names(), 0;
    if (strcmp(what, "wrong") == 0 && words == 4)
        return try_wrong(atoi(word[2]), word[3]);
    if (strcmp(what, "run") == 0 && words >= 5) {
        kind = word[3];
        return try_run(word[2], word[4], words > 5 ? word[5] : NULL);
    }
    if (strcmp(what, "large") == 0 && words == 3)
        return try_large(word[2]);
    if (strcmp(what, "unwritten") == 0 && words == 3)
        return try_unwritten(word[2]);
    if ((strcmp(what, "skew") == 0 || strcmp(what, "apart") == 0) && words == 5)
        return try_skew(word[2], word[3], word[4], what[0] == 's');
    if (strcmp(what, "steps") == 0 && words == 4) {
        kind = word[2];
        return try_steps(word[3]);
    }
    fprintf(stderr, "it takes other words\n");
    return 2;
}
