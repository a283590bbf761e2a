/* ck_ec.c: the eventcounts of Concurrency Kit, of 32 and 64 bits, for many producers and for one.
 *
 *     apt-get install libck-dev
 *     cc -std=gnu11 -O2 -pthread -I../../recorder ck_ec.c -o ck_ec -lck
 *
 * `loop` waits as one is advised to: it looks at the value, and waits while that is too low. `wait`
 * records what ck_ec_wait(ec, mode, old, deadline) itself returns: 0, "the event counter has
 * changed", as an await of old + 1. `two` has two producers where one is allowed. */
#include "real.h"
#include <ck_ec.h>
#include <linux/futex.h>

static long futex(const void *word, int operation, uint32_t value, const struct timespec *until) {
    operation |= FUTEX_PRIVATE_FLAG;
    return syscall(SYS_futex, word, operation, value, until, NULL, FUTEX_BITSET_MATCH_ANY);
}

/* What the kit asks its user for. */
static int gettime(const struct ck_ec_ops *ops, struct timespec *now) {
    (void)ops;
    return clock_gettime(CLOCK_MONOTONIC, now);
}
static void wait32(const struct ck_ec_wait_state *state, const uint32_t *word, uint32_t seen,
                   const struct timespec *until) {
    (void)state;
    futex(word, FUTEX_WAIT_BITSET, seen, until);
}
static void wait64(const struct ck_ec_wait_state *state, const uint64_t *word, uint64_t seen,
                   const struct timespec *until) {
    (void)state;
    futex(word, FUTEX_WAIT_BITSET, (uint32_t)seen, until);
}
static void wake32(const struct ck_ec_ops *ops, const uint32_t *word) {
    (void)ops;
    futex(word, FUTEX_WAKE, INT32_MAX, NULL);
}
static void wake64(const struct ck_ec_ops *ops, const uint64_t *word) {
    (void)ops;
    futex(word, FUTEX_WAKE, INT32_MAX, NULL);
}
static const struct ck_ec_ops ops = {.gettime = gettime,
                                     .wait32 = wait32,
                                     .wait64 = wait64,
                                     .wake32 = wake32,
                                     .wake64 = wake64,
                                     .busy_loop_iter = 100,
                                     .initial_wait_ns = 2000000,
                                     .wait_scale_factor = 8};

/* What is chosen. */
enum { IS_64 = 1, IS_SINGLE = 2 };
static const struct ck_ec_mode modes[] = {{.ops = &ops, .single_producer = false},
                                          {.ops = &ops, .single_producer = true}};
static const struct ck_ec_mode *mode(void) { return &modes[(chosen & IS_SINGLE) != 0]; }

static _Alignas(128) struct ck_ec32 ec32;
static _Alignas(128) struct ck_ec64 ec64;
static int E;

static void fresh(void *mine) {
    (void)mine;
    ck_ec32_init(&ec32, 0);
    ck_ec64_init(&ec64, 0);
}

static void advance(void *mine) {
    (void)mine;
    if (chosen & IS_64)
        ck_ec64_inc(&ec64, mode());
    else
        ck_ec32_inc(&ec32, mode());
}

static uint64_t read_it(void *mine) {
    (void)mine;
    return chosen & IS_64 ? ck_ec64_value(&ec64) : ck_ec32_value(&ec32);
}

/* Returns whether the kit says that the count has changed. */
static int has_changed(uint64_t old, const struct timespec *until) {
    return chosen & IS_64 ? ck_ec64_wait(&ec64, mode(), old, until) == 0
                          : ck_ec32_wait(&ec32, mode(), (uint32_t)old, until) == 0;
}

static uint64_t await_it(void *mine, uint64_t threshold) {
    uint64_t seen;
    while ((seen = read_it(mine)) < threshold)
        has_changed(seen, NULL);
    return seen;
}

static void declare(void *mine, evc_calls *record) {
    (void)mine;
    E = evc_calls_eventcount(record, "E", 0);
}

/* Reads, and waits for a change, for at most 30 microseconds. */
static void wait_once(evc_caller *w) {
    const struct timespec span = {0, 30000};
    struct timespec until;
    evc_call_read(w, E);
    uint64_t old = read_it(NULL);
    evc_return_number(w, old);
    ck_ec_deadline(&until, mode(), &span);
    evc_call_await(w, E, old + 1);
    if (has_changed(old, &until))
        evc_return_done(w);
    else
        evc_return_timeout(w);
}

static void work(void *mine, evc_caller *w, int number, evc_chance *chance) {
    int producers = chosen & IS_SINGLE ? 1 : (threads + 1) / 2;
    for (int k = 0; k < 10; k++) {
        evc_chance_pause(chance);
        if (number < producers)
            REAL_DONE(w, evc_call_advance(w, E), advance(mine));
        else
            wait_once(w);
    }
}

#define LOOP(name, choice, producers)                                                              \
    { name, RIGHT, choice, producers, advance, read_it, await_it, NULL, NULL }
#define WAIT(name, choice)                                                                         \
    { name, MAYBE, choice, 0, NULL, NULL, NULL, declare, work }
#define TWO(name, choice)                                                                          \
    { name, BUG, choice, 0, advance, read_it, NULL, NULL, NULL }

static const real_object objects[] = {LOOP("ck_ec32_mp_loop", 0, 0),
                                      LOOP("ck_ec64_mp_loop", IS_64, 0),
                                      LOOP("ck_ec32_sp_loop", IS_SINGLE, 1),
                                      LOOP("ck_ec64_sp_loop", IS_64 | IS_SINGLE, 1),
                                      WAIT("ck_ec32_mp_wait", 0),
                                      WAIT("ck_ec64_mp_wait", IS_64),
                                      WAIT("ck_ec32_sp_wait", IS_SINGLE),
                                      WAIT("ck_ec64_sp_wait", IS_64 | IS_SINGLE),
                                      TWO("ck_ec32_sp_two", IS_SINGLE),
                                      TWO("ck_ec64_sp_two", IS_64 | IS_SINGLE),
                                      {NULL, RIGHT, 0, 0, NULL, NULL, NULL, NULL, NULL}};

int main(int words, char **word) { return real_main(words, word, objects, fresh); }
