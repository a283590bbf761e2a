/* recorder.c: what it costs to record a call of an atomic counter, compared with the bare call.
 *
 *     cc -std=c11 -O2 -pthread -I recorder bench/recorder.c -o recorder-bench
 *     recorder-bench
 *
 * Each row is a way to record, each pair of columns a loop: only the call, and the call with 200 ns
 * of other work. A figure is the CPU time for each call in nanoseconds, the least of 31 turns in
 * which all rows take part, and how many times that of the bare call it is.
 *
 * Then the same for 1, 2, 4 and 8 threads that begin at once: first each with a counter of its own,
 * so that they share only the recorder's clock, and then all with one. A figure is the CPU time of
 * all threads together, divided by their calls, the median of 9 turns: waiting for a cache line
 * counts, and waiting for a processor doesn't. So it says little on a machine whose processors are
 * busy: there the threads hardly run at once. */
#include "evc_calls.h"
#include "evc_record.h"

#define CALLS 100000
#define TURNS 31

enum { BARE, COUNTER, TSC, MONOTONIC, STEPS, WAYS };
static const char *const names[] = {"the bare call", "counter", "tsc", "monotonic",
                                    "steps, by evc_record.h"};

static const enum evc_calls_clock clocks[] = {EVC_CALLS_COUNTER, EVC_CALLS_COUNTER, EVC_CALLS_TSC,
                                              EVC_CALLS_MONOTONIC, EVC_CALLS_COUNTER};

static uint64_t count;
static unsigned work; /* turns of a loop */
static evc_calls calls;
static evc_record steps;
static int way, E;

#define THREADS 8
#define THREAD_CALLS 300000
#define THREAD_TURNS 9

/* A thread, with a counter on a cache line of its own. */
typedef struct lane {
    char before[128];
    uint64_t own;
    char after[128];
    uint64_t *counter, took;
    evc_caller *worker;
} lane;
static lane lanes[THREADS];
static int at_gate, threads;

static uint64_t own_time(void) {
    struct timespec now;
    clock_gettime(CLOCK_THREAD_CPUTIME_ID, &now);
    return (uint64_t)now.tv_sec * 1000000000u + (uint64_t)now.tv_nsec;
}

/* (the same code in each loop) */
__attribute__((noinline)) static void do_work(void) {
    for (unsigned i = 0; i < work; i++)
        EVC_BARRIER_();
}

static void call_bare(void) {
    for (int i = 0; i < CALLS; i++) {
        do_work();
        __atomic_fetch_add(&count, 1, __ATOMIC_SEQ_CST);
    }
}

static void call_recorded(evc_caller *w) {
    for (int i = 0; i < CALLS; i++) {
        do_work();
        evc_call_advance(w, E);
        __atomic_fetch_add(&count, 1, __ATOMIC_SEQ_CST);
        evc_return_done(w);
    }
}

static void call_in_steps(int worker) {
    for (int i = 0; i < CALLS; i++) {
        do_work();
        evc_lock(&steps);
        __atomic_fetch_add(&count, 1, __ATOMIC_SEQ_CST);
        evc_done(&steps, worker, "advance E");
    }
}

/* Returns the nanoseconds for each call. */
static double turn(void) {
    int is_recorded = way != BARE && way != STEPS, number = 0;
    evc_caller *worker = NULL;
    if (is_recorded) {
        evc_calls_open(&calls, clocks[way], NULL);
        worker = evc_calls_worker(&calls, "a", CALLS);
        E = evc_calls_eventcount(&calls, "E", 0);
    } else {
        evc_open(&steps, 10000000);
        number = evc_worker(&steps, "a");
        evc_declare(&steps, "eventcount E signal a");
    }
    uint64_t begun = own_time();
    if (way == BARE)
        call_bare();
    else if (way == STEPS)
        call_in_steps(number);
    else
        call_recorded(worker);
    uint64_t took = own_time() - begun;
    if (is_recorded ? calls.fault != EVC_CALLS_OK : evc_first_fault(&steps) != EVC_OK)
        printf("%s: there was a fault\n", names[way]);
    if (is_recorded)
        evc_calls_close(&calls);
    else
        evc_close(&steps);
    return (double)took / CALLS;
}

/* Sets how many turns of a loop take so many nanoseconds. */
static void set_work(double nanoseconds) {
    double least = 1e9;
    work = 1000000;
    for (int i = 0; i < 9; i++) {
        uint64_t begun = own_time();
        do_work();
        double took = (double)(own_time() - begun);
        least = took < least ? took : least;
    }
    work = (unsigned)(nanoseconds / (least / 1000000));
}

static void *run_lane(void *given) {
    lane *it = (lane *)given;
    __atomic_add_fetch(&at_gate, 1, __ATOMIC_SEQ_CST);
    while (__atomic_load_n(&at_gate, __ATOMIC_ACQUIRE) < threads)
        sched_yield();
    uint64_t begun = own_time();
    for (int i = 0; i < THREAD_CALLS; i++) {
        do_work();
        if (way != BARE)
            evc_call_advance(it->worker, E);
        __atomic_fetch_add(it->counter, 1, __ATOMIC_SEQ_CST);
        if (way != BARE)
            evc_return_done(it->worker);
    }
    it->took = own_time() - begun;
    return NULL;
}

/* Returns the nanoseconds for each call of several threads. */
static double turn_of_threads(int is_one) {
    pthread_t thread[THREADS];
    char name[8];
    uint64_t took = 0;
    at_gate = 0;
    evc_calls_open(&calls, clocks[way], NULL);
    for (int i = 0; i < threads; i++) {
        snprintf(name, sizeof name, "w%d", i);
        lanes[i].worker = evc_calls_worker(&calls, name, THREAD_CALLS);
        lanes[i].counter = is_one ? &count : &lanes[i].own;
    }
    E = evc_calls_eventcount(&calls, "E", 0);
    for (int i = 0; i < threads; i++)
        pthread_create(&thread[i], NULL, run_lane, &lanes[i]);
    for (int i = 0; i < threads; i++) {
        pthread_join(thread[i], NULL);
        took += lanes[i].took;
    }
    if (calls.fault != EVC_CALLS_OK)
        printf("%s: there was a fault\n", names[way]);
    evc_calls_close(&calls);
    return (double)took / THREAD_CALLS / threads;
}

static int compare(const void *one, const void *other) {
    double a = *(const double *)one, b = *(const double *)other;
    return (a > b) - (a < b);
}

/* Shows what recording costs several threads. */
static void show_threads(int is_one) {
    double turns[WAYS][THREAD_TURNS], took[THREADS + 1][WAYS];
    printf("\n%s, %-*s", is_one ? "one counter" : "own counters", is_one ? 11 : 10,
           work ? "200 ns" : "alone");
    for (threads = 1; threads <= THREADS; threads *= 2) {
        printf(" %16d", threads);
        for (int at = 0; at < THREAD_TURNS; at++)
            for (way = BARE; way <= MONOTONIC; way++)
                turns[way][at] = turn_of_threads(is_one);
        for (way = BARE; way <= MONOTONIC; way++) {
            qsort(turns[way], THREAD_TURNS, sizeof(double), compare);
            took[threads][way] = turns[way][THREAD_TURNS / 2];
        }
    }
    for (way = BARE; way <= MONOTONIC; way++) {
        printf("\n%-24s", names[way]);
        for (threads = 1; threads <= THREADS; threads *= 2)
            printf(" %8.0f %6.1fx", took[threads][way], took[threads][way] / took[threads][BARE]);
    }
    printf("\n");
}

int main(void) {
    double least[2][WAYS];
    for (int loop = 0; loop < 2; loop++) {
        work = 0;
        if (loop == 1)
            set_work(200);
        for (int at = 0; at < TURNS; at++)
            for (way = 0; way < WAYS; way++) {
                double took = turn();
                least[loop][way] = at == 0 || took < least[loop][way] ? took : least[loop][way];
            }
    }
    printf("%-24s %18s %18s\n", "", "alone", "200 ns of work");
    for (way = 0; way < WAYS; way++) {
        printf("%-24s", names[way]);
        for (int loop = 0; loop < 2; loop++)
            printf(" %9.0f %7.1fx", least[loop][way], least[loop][way] / least[loop][BARE]);
        printf("\n");
    }
    for (int loop = 0; loop < 2; loop++) {
        work = 0;
        if (loop == 1)
            set_work(200);
        show_threads(0);
        show_threads(1);
    }
}
