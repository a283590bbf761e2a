/* own.c: eventcounts, a sequencer and a lock as one writes them oneself, right and with bugs.
 *
 *     cc -std=gnu11 -O2 -pthread -I../../recorder own.c -o own
 *
 * Linux, for its futex. What was found is in README.md. */
#include "real.h"
#include <linux/futex.h>
#include <stdatomic.h>

static struct { _Alignas(128) _Atomic uint64_t count; } component[EVC_CALLS_WORKERS];
static _Alignas(128) _Atomic uint64_t count, whole;
static _Alignas(128) _Atomic uint64_t sleepers;
static _Alignas(128) _Atomic uint32_t word, low, high;
static _Alignas(128) _Atomic int held;
static uint64_t drawn;
static int E, T, S;

/* Where the counts begin that have two halves: the upper one is about to change. */
#define START UINT64_C(0xFFFFFFFD)

static void fresh(void *mine) {
    (void)mine;
    for (int i = 0; i < EVC_CALLS_WORKERS; i++)
        component[i].count = 0;
    count = sleepers = drawn = 0;
    word = high = 0;
    held = 0;
    low = (uint32_t)START;
    whole = START;
}

/* Returns the number of the calling thread, from 0. */
static int number(void) {
    static __thread int mine = -1;
    static _Atomic int next;
    if (mine < 0)
        mine = next++;
    return mine;
}

static void sleep_on(uint32_t seen) {
    syscall(SYS_futex, &word, FUTEX_WAIT_PRIVATE, seen, NULL, NULL, 0);
}
static void wake_all(void) {
    syscall(SYS_futex, &word, FUTEX_WAKE_PRIVATE, INT32_MAX, NULL, NULL, 0);
}

/* One atomic counter. */
static void counter_advance(void *mine) { (void)mine, count++; }
static uint64_t counter_read(void *mine) { return (void)mine, count; }
static uint64_t counter_await(void *mine, uint64_t threshold) {
    uint64_t seen;
    while ((seen = counter_read(mine)) < threshold)
        sched_yield();
    return seen;
}
static void relaxed_advance(void *mine) {
    (void)mine;
    atomic_fetch_add_explicit(&count, 1, memory_order_relaxed);
}
static uint64_t relaxed_read(void *mine) {
    (void)mine;
    return atomic_load_explicit(&count, memory_order_relaxed);
}

/* Bugs of it: it loads and stores; it keeps two advances for one step; an await is one early. */
static void load_store_advance(void *mine) {
    (void)mine;
    uint64_t seen = count;
    count = seen + 1;
}
static void held_back_advance(void *mine) {
    static __thread int advances;
    (void)mine;
    if (++advances % 2 == 0)
        count += 2;
}
static uint64_t early_await(void *mine, uint64_t threshold) {
    while (counter_read(mine) + 1 < threshold)
        sched_yield();
    return EVC_STRESS_DONE;
}

/* A component for each thread, which alone raises it. */
static void raise_own(memory_order order) {
    _Atomic uint64_t *own = &component[number()].count;
    atomic_store_explicit(own, atomic_load_explicit(own, memory_order_relaxed) + 1, order);
}
static void components_advance(void *mine) { (void)mine, raise_own(memory_order_seq_cst); }
static uint64_t components_read(void *mine) {
    uint64_t sum = 0;
    (void)mine;
    for (int i = 0; i < EVC_CALLS_WORKERS; i++)
        sum += component[i].count;
    return sum;
}
static uint64_t components_await(void *mine, uint64_t threshold) {
    uint64_t seen;
    while ((seen = components_read(mine)) < threshold)
        sched_yield();
    return seen;
}
static void release_advance(void *mine) { (void)mine, raise_own(memory_order_release); }

/* Its bug: a reader takes what it saw of each component when it read the last time. */
static uint64_t kept_read(void *mine) {
    static __thread uint64_t kept[EVC_CALLS_WORKERS];
    uint64_t sum = 0;
    (void)mine;
    for (int i = 0; i < EVC_CALLS_WORKERS; i++) {
        uint64_t seen = component[i].count;
        sum += i % 2 == 0 && kept[i] < seen ? kept[i] : seen;
        kept[i] = seen;
    }
    return sum;
}

/* A counter of 32 bits on which threads sleep. Its bug looks for sleepers before it counts. */
static void futex_advance(void *mine) {
    (void)mine;
    word++;
    if (sleepers)
        wake_all();
}
static void no_wake_advance(void *mine) {
    (void)mine;
    uint64_t asleep = sleepers;
    word++;
    if (asleep)
        wake_all();
}
static uint64_t futex_read(void *mine) { return (void)mine, word; }
static uint64_t futex_await(void *mine, uint64_t threshold) {
    uint32_t seen;
    (void)mine;
    for (int looks = 0; looks < 50; looks++)
        if ((seen = word) >= threshold)
            return seen;
    sleepers++;
    while ((seen = word) < threshold)
        sleep_on(seen);
    sleepers--;
    return seen;
}

/* Components, and threads that sleep on a word that changes where there are sleepers. Its bug has
 * no fence between the component's store and the look at the sleepers. */
static void fence_advance(void *mine) {
    release_advance(mine);
    atomic_thread_fence(memory_order_seq_cst);
    if (sleepers) {
        word++;
        wake_all();
    }
}
static void no_fence_advance(void *mine) {
    release_advance(mine);
    if (atomic_load_explicit(&sleepers, memory_order_acquire)) {
        word++;
        wake_all();
    }
}
static uint64_t fence_await(void *mine, uint64_t threshold) {
    uint64_t seen = components_read(mine);
    if (seen >= threshold)
        return seen;
    sleepers++;
    for (;;) {
        uint32_t before = word;
        if ((seen = components_read(mine)) >= threshold)
            break;
        sleep_on(before);
    }
    sleepers--;
    return seen;
}

/* Bugs of a count of 64 bits in two halves: the halves are raised one after the other; they are
 * raised at once, and read one after the other. The history has E from START. */
static void halves_advance(void *mine) {
    (void)mine;
    if (low++ == UINT32_MAX)
        high++;
}
static uint64_t halves_read(void *mine) {
    (void)mine;
    uint64_t upper = high;
    return upper << 32 | low;
}
static void torn_advance(void *mine) { (void)mine, whole++; }
static uint64_t torn_read(void *mine) {
    const volatile uint32_t *half = (const volatile uint32_t *)&whole;
    (void)mine;
    uint64_t upper = half[1];
    return upper << 32 | half[0];
}
static void declare_from_start(void *mine, evc_calls *record) {
    (void)mine;
    E = evc_calls_eventcount(record, "E", START);
}
static void halves_work(void *mine, evc_caller *w, int me, evc_chance *chance) {
    for (int k = 0; k < 10; k++) {
        evc_chance_pause(chance);
        if (2 * me < threads && k % 3 < 2)
            REAL_DONE(w, evc_call_advance(w, E),
                      chosen ? torn_advance(mine) : halves_advance(mine));
        else {
            evc_call_read(w, E);
            evc_return_number(w, chosen ? torn_read(mine) : halves_read(mine));
        }
    }
}

/* A sequencer. Its bug loads and stores. */
static void declare_sequencer(void *mine, evc_calls *record) {
    (void)mine;
    T = evc_calls_sequencer(record, "T");
}
static void sequencer_work(void *mine, evc_caller *w, int me, evc_chance *chance) {
    (void)mine, (void)me;
    for (int k = 0; k < 10; k++) {
        evc_chance_pause(chance);
        evc_call_ticket(w, T);
        uint64_t mine_now = count;
        if (chosen)
            count = mine_now + 1;
        else
            mine_now = count++;
        evc_return_number(w, mine_now);
    }
}

/* A lock. Its bug tests, and then sets. */
static void lock(void) {
    while (chosen ? held : atomic_exchange(&held, 1))
        sched_yield();
    held = 1;
}
static void unlock(void) { held = 0; }
static void declare_lock(void *mine, evc_calls *record) {
    (void)mine;
    S = evc_calls_semaphore(record, "S", 1);
}
static void lock_work(void *mine, evc_caller *w, int me, evc_chance *chance) {
    (void)mine, (void)me;
    for (int k = 0; k < 10; k++) {
        evc_chance_pause(chance);
        REAL_DONE(w, evc_call_p(w, S), lock());
        REAL_DONE(w, evc_call_v(w, S), unlock());
    }
}

/* The same with the order in which it is held: a number is drawn under the lock. */
static void declare_numbers(void *mine, evc_calls *record) {
    declare_sequencer(mine, record);
    E = evc_calls_eventcount(record, "E", 0);
}
static void numbers_work(void *mine, evc_caller *w, int me, evc_chance *chance) {
    (void)mine, (void)me;
    for (int k = 0; k < 5; k++) {
        evc_chance_pause(chance);
        evc_call_ticket(w, T);
        lock();
        uint64_t mine_now = drawn;
        drawn = mine_now + 1;
        evc_return_number(w, mine_now);
        REAL_DONE(w, evc_call_await(w, E, mine_now), (void)0);
        REAL_DONE(w, evc_call_advance(w, E), unlock());
    }
}

#define EVENTCOUNT(name, kind, advance, read, await)                                               \
    { name, kind, 0, 0, advance, read, await, NULL, NULL }
#define OTHER(name, kind, choice, declare, work)                                                   \
    { name, kind, choice, 0, NULL, NULL, NULL, declare, work }

static const real_object objects[] = {
    EVENTCOUNT("counter", RIGHT, counter_advance, counter_read, counter_await),
    EVENTCOUNT("relaxed", RIGHT, relaxed_advance, relaxed_read, counter_await),
    EVENTCOUNT("components", RIGHT, components_advance, components_read, components_await),
    EVENTCOUNT("release", RIGHT, release_advance, components_read, components_await),
    EVENTCOUNT("futex", RIGHT, futex_advance, futex_read, futex_await),
    EVENTCOUNT("fence", RIGHT, fence_advance, components_read, fence_await),
    OTHER("sequencer", RIGHT, 0, declare_sequencer, sequencer_work),
    OTHER("lock", RIGHT, 0, declare_lock, lock_work),
    OTHER("lock_numbers", RIGHT, 0, declare_numbers, numbers_work),
    EVENTCOUNT("load_store", BUG, load_store_advance, counter_read, NULL),
    EVENTCOUNT("held_back", BUG, held_back_advance, counter_read, NULL),
    EVENTCOUNT("early", BUG, counter_advance, counter_read, early_await),
    EVENTCOUNT("kept", BUG, components_advance, kept_read, NULL),
    OTHER("halves", BUG, 0, declare_from_start, halves_work),
    OTHER("twice", BUG, 1, declare_sequencer, sequencer_work),
    OTHER("late_set", BUG, 1, declare_lock, lock_work),
    OTHER("late_set_numbers", BUG, 1, declare_numbers, numbers_work),
    OTHER("torn", MAYBE, 1, declare_from_start, halves_work),
    EVENTCOUNT("no_wake", MAYBE, no_wake_advance, futex_read, futex_await),
    EVENTCOUNT("no_fence", MAYBE, no_fence_advance, components_read, fence_await),
    {NULL, RIGHT, 0, 0, NULL, NULL, NULL, NULL, NULL}};

int main(int words, char **arguments) { return real_main(words, arguments, objects, fresh); }
