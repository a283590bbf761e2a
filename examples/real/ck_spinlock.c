/* ck_spinlock.c: the ticket lock and the fetch-and-store lock of Concurrency Kit.
 *
 *     apt-get install libck-dev
 *     cc -std=gnu11 -O2 -pthread -I../../recorder ck_spinlock.c -o ck_spinlock
 *
 * Each lock is recorded as a semaphore of one unit: p takes it, v lets go. With `numbers` its order
 * is recorded too: a ticket around lock(), an await of that number inside, and an advance around
 * unlock(). The number is the one that the ticket lock serves, or else drawn under the lock. */
#include "real.h"
#include <ck_spinlock.h>

enum { TICKET, TRY, FAS };
static _Alignas(128) ck_spinlock_ticket_t ticket_lock;
static _Alignas(128) ck_spinlock_fas_t fas_lock;
static uint64_t drawn;
static int S, T, E;

static void fresh(void *mine) {
    (void)mine;
    ck_spinlock_ticket_init(&ticket_lock);
    ck_spinlock_fas_init(&fas_lock);
    drawn = 0;
}

static void lock(void) {
    if (chosen == TICKET)
        ck_spinlock_ticket_lock(&ticket_lock);
    else if (chosen == FAS)
        ck_spinlock_fas_lock(&fas_lock);
    else
        while (!ck_spinlock_ticket_trylock(&ticket_lock))
            sched_yield();
}

static void unlock(void) {
    if (chosen == FAS)
        ck_spinlock_fas_unlock(&fas_lock);
    else
        ck_spinlock_ticket_unlock(&ticket_lock);
}

/* Returns the number of who holds the lock. */
static uint64_t own_number(void) {
#ifdef CK_F_SPINLOCK_TICKET_TRYLOCK
    if (chosen != FAS)
        return ticket_lock.value & 0xffff; /* (the half that is served, on x86-64) */
#endif
    return drawn++;
}

static void declare_semaphore(void *mine, evc_calls *record) {
    (void)mine;
    S = evc_calls_semaphore(record, "S", 1);
}

static void as_semaphore(void *mine, evc_caller *w, int number, evc_chance *chance) {
    (void)mine, (void)number;
    for (int k = 0; k < 10; k++) {
        evc_chance_pause(chance);
        REAL_DONE(w, evc_call_p(w, S), lock());
        REAL_DONE(w, evc_call_v(w, S), unlock());
    }
}

static void declare_numbers(void *mine, evc_calls *record) {
    (void)mine;
    T = evc_calls_sequencer(record, "T");
    E = evc_calls_eventcount(record, "E", 0);
}

static void by_numbers(void *mine, evc_caller *w, int number, evc_chance *chance) {
    (void)mine, (void)number;
    for (int k = 0; k < 5; k++) {
        evc_chance_pause(chance);
        evc_call_ticket(w, T);
        lock();
        uint64_t own = own_number();
        evc_return_number(w, own);
        REAL_DONE(w, evc_call_await(w, E, own), (void)0);
        REAL_DONE(w, evc_call_advance(w, E), unlock());
    }
}

#define SEMAPHORE(name, choice)                                                                    \
    { name, RIGHT, choice, 0, NULL, NULL, NULL, declare_semaphore, as_semaphore }
#define NUMBERS(name, choice)                                                                      \
    { name, RIGHT, choice, 0, NULL, NULL, NULL, declare_numbers, by_numbers }

static const real_object objects[] = {
    SEMAPHORE("ck_ticket", TICKET), SEMAPHORE("ck_ticket_try", TRY),
    SEMAPHORE("ck_fas", FAS),       NUMBERS("ck_ticket_numbers", TICKET),
    NUMBERS("ck_fas_numbers", FAS), {NULL, RIGHT, 0, 0, NULL, NULL, NULL, NULL, NULL}};

int main(int words, char **word) { return real_main(words, word, objects, fresh); }
