/* ck_spurious.c: without any recorder: does ck_ec_wait return 0, "the event counter has changed",
 * while the count is what it was?
 *
 *     apt-get install libck-dev
 *     cc -std=gnu11 -O2 -pthread ck_spurious.c -o ck_spurious -lck
 *     ck_spurious [SECONDS]
 *
 * One thread advances, and stops for a moment now and then; three wait, and look at the count after
 * a wait that returned 0. It only grows, so if it is still the old one, it had not changed.
 * Run for so many seconds in each mode, by default 1. */
#include <ck_ec.h>
#include <linux/futex.h>
#include <pthread.h>
#include <stdio.h>
#include <stdlib.h>
#include <sys/syscall.h>
#include <time.h>
#include <unistd.h>

static long futex(const void *word, int operation, uint32_t value, const struct timespec *until) {
    operation |= FUTEX_PRIVATE_FLAG;
    return syscall(SYS_futex, word, operation, value, until, NULL, FUTEX_BITSET_MATCH_ANY);
}
static int gettime(const struct ck_ec_ops *ops, struct timespec *now) {
    (void)ops;
    return clock_gettime(CLOCK_MONOTONIC, now);
}
static void wait32(const struct ck_ec_wait_state *state, const uint32_t *word, uint32_t seen,
                   const struct timespec *until) {
    (void)state;
    futex(word, FUTEX_WAIT_BITSET, seen, until);
}
static void wait64(const struct ck_ec_wait_state *state, const uint64_t *word, uint64_t seen,
                   const struct timespec *until) {
    (void)state;
    futex(word, FUTEX_WAIT_BITSET, (uint32_t)seen, until);
}
static void wake32(const struct ck_ec_ops *ops, const uint32_t *word) {
    (void)ops;
    futex(word, FUTEX_WAKE, INT32_MAX, NULL);
}
static void wake64(const struct ck_ec_ops *ops, const uint64_t *word) {
    (void)ops;
    futex(word, FUTEX_WAKE, INT32_MAX, NULL);
}
static const struct ck_ec_ops ops = {
    .gettime = gettime, .wait32 = wait32, .wait64 = wait64, .wake32 = wake32, .wake64 = wake64};

static struct ck_ec_mode mode = {.ops = &ops};
static struct ck_ec32 ec32;
static struct ck_ec64 ec64;
static int is_64, has_ended;
static unsigned long waits, wrong;

static uint64_t value(void) { return is_64 ? ck_ec64_value(&ec64) : ck_ec32_value(&ec32); }

static void *wait_on(void *unused) {
    (void)unused;
    while (!__atomic_load_n(&has_ended, __ATOMIC_ACQUIRE)) {
        const struct timespec span = {0, 1000000};
        struct timespec until;
        ck_ec_deadline(&until, &mode, &span);
        uint64_t old = value();
        int status = is_64 ? ck_ec64_wait(&ec64, &mode, old, &until)
                           : ck_ec32_wait(&ec32, &mode, (uint32_t)old, &until);
        uint64_t now = value();
        __atomic_fetch_add(&waits, 1, __ATOMIC_RELAXED);
        __atomic_fetch_add(&wrong, status == 0 && now == old, __ATOMIC_RELAXED);
    }
    return NULL;
}

/* Advances for so many seconds, and returns how often. */
static unsigned long advance_for(double seconds) {
    struct timespec start, now;
    unsigned long advances = 0;
    clock_gettime(CLOCK_MONOTONIC, &start);
    do {
        if (is_64)
            ck_ec64_inc(&ec64, &mode);
        else
            ck_ec32_inc(&ec32, &mode);
        advances++;
        for (volatile int i = rand() % 20000; i > 0; i = i - 1)
            ;
        clock_gettime(CLOCK_MONOTONIC, &now);
    } while ((double)(now.tv_sec - start.tv_sec) + (double)(now.tv_nsec - start.tv_nsec) / 1e9 <
             seconds);
    return advances;
}

int main(int words, char **word) {
    double seconds = words > 1 ? atof(word[1]) : 1;
    for (int kind = 0; kind < 4; kind++) {
        pthread_t thread[3];
        is_64 = kind & 1;
        mode.single_producer = kind >> 1;
        has_ended = 0;
        waits = wrong = 0;
        for (int i = 0; i < 3; i++)
            pthread_create(&thread[i], NULL, wait_on, NULL);
        unsigned long advances = advance_for(seconds);
        __atomic_store_n(&has_ended, 1, __ATOMIC_RELEASE);
        for (int i = 0; i < 3; i++)
            pthread_join(thread[i], NULL);
        printf("ck_ec%d, %s: %lu advances, %lu waits, %lu returned 0 with the count unchanged\n",
               is_64 ? 64 : 32, kind >> 1 ? "one producer" : "many producers", advances, waits,
               wrong);
    }
}
