/* posix.c: a mutex, a condition variable and a semaphore of POSIX threads, as the C library has
 * them.
 *
 *     cc -std=gnu11 -O2 -pthread -I../../recorder posix.c -o posix
 *
 * `cond` is an eventcount under a mutex, whose advance wakes all; `cond_signal` wakes one, which
 * may be one that waits for more. */
#include "real.h"
#include <errno.h>
#include <semaphore.h>

static pthread_mutex_t mutex = PTHREAD_MUTEX_INITIALIZER;
static pthread_cond_t reached = PTHREAD_COND_INITIALIZER;
static sem_t semaphore;
static uint64_t count, drawn;
static int S, T, E;

enum { MUTEX, SEMAPHORE, TIMED };

static void fresh(void *mine) {
    (void)mine;
    count = drawn = 0;
    sem_init(&semaphore, 0, 2);
}

/* An eventcount. */
static void advance(void *mine) {
    (void)mine;
    pthread_mutex_lock(&mutex);
    count++;
    pthread_mutex_unlock(&mutex);
    pthread_cond_broadcast(&reached);
}
static void advance_for_one(void *mine) {
    (void)mine;
    pthread_mutex_lock(&mutex);
    count++;
    pthread_mutex_unlock(&mutex);
    pthread_cond_signal(&reached);
}
static uint64_t read_it(void *mine) {
    (void)mine;
    pthread_mutex_lock(&mutex);
    uint64_t seen = count;
    pthread_mutex_unlock(&mutex);
    return seen;
}
static uint64_t await_it(void *mine, uint64_t threshold) {
    (void)mine;
    pthread_mutex_lock(&mutex);
    while (count < threshold)
        pthread_cond_wait(&reached, &mutex);
    uint64_t seen = count;
    pthread_mutex_unlock(&mutex);
    return seen;
}

/* What takes and gives units: the mutex has one, the semaphore two. */
static void declare_units(void *mine, evc_calls *record) {
    (void)mine;
    S = evc_calls_semaphore(record, "S", chosen == MUTEX ? 1 : 2);
}
static int take(void) {
    struct timespec until;
    if (chosen == MUTEX)
        return pthread_mutex_lock(&mutex) == 0;
    if (chosen == TIMED) {
        clock_gettime(CLOCK_REALTIME, &until); /* (gives up at once) */
        return sem_timedwait(&semaphore, &until) == 0;
    }
    while (sem_wait(&semaphore) != 0)
        ;
    return 1;
}
static void give(void) {
    if (chosen == MUTEX)
        pthread_mutex_unlock(&mutex);
    else
        sem_post(&semaphore);
}
static void units(void *mine, evc_caller *w, int number, evc_chance *chance) {
    (void)mine, (void)number;
    for (int k = 0; k < 10; k++) {
        evc_chance_pause(chance);
        evc_call_p(w, S);
        if (!take()) {
            evc_return_timeout(w);
            continue;
        }
        evc_return_done(w);
        REAL_DONE(w, evc_call_v(w, S), give());
    }
}

/* The mutex with the order in which it is held. */
static void declare_numbers(void *mine, evc_calls *record) {
    (void)mine;
    T = evc_calls_sequencer(record, "T");
    E = evc_calls_eventcount(record, "E", 0);
}
static void numbers(void *mine, evc_caller *w, int number, evc_chance *chance) {
    (void)mine, (void)number;
    for (int k = 0; k < 5; k++) {
        evc_chance_pause(chance);
        evc_call_ticket(w, T);
        pthread_mutex_lock(&mutex);
        uint64_t own = drawn++;
        evc_return_number(w, own);
        REAL_DONE(w, evc_call_await(w, E, own), (void)0);
        REAL_DONE(w, evc_call_advance(w, E), pthread_mutex_unlock(&mutex));
    }
}

static const real_object objects[] = {
    {"cond", RIGHT, 0, 0, advance, read_it, await_it, NULL, NULL},
    {"cond_signal", BUG, 0, 0, advance_for_one, read_it, await_it, NULL, NULL},
    {"mutex", RIGHT, MUTEX, 0, NULL, NULL, NULL, declare_units, units},
    {"mutex_numbers", RIGHT, MUTEX, 0, NULL, NULL, NULL, declare_numbers, numbers},
    {"sem", RIGHT, SEMAPHORE, 0, NULL, NULL, NULL, declare_units, units},
    {"sem_timed", RIGHT, TIMED, 0, NULL, NULL, NULL, declare_units, units},
    {NULL, RIGHT, 0, 0, NULL, NULL, NULL, NULL, NULL}};

int main(int words, char **word) { return real_main(words, word, objects, fresh); }
