/* ck_ring.c: the ring and the queue of Concurrency Kit.
 *
 *     apt-get install libck-dev
 *     cc -std=gnu11 -O2 -pthread -I../../recorder ck_ring.c -o ck_ring
 *
 * A ring of 4 has room for 3. `ck_ring_sp_many` lets several threads produce by the call that is
 * for one. The queue has no bound: it is recorded with more room than there are items. */
#include "real.h"
#include <ck_fifo.h>
#include <ck_ring.h>

#define SIZE 4
static ck_ring_t ring;
static ck_ring_buffer_t slots[SIZE];

static void fresh(void *mine) {
    (void)mine;
    ck_ring_init(&ring, SIZE);
}

static void *pointer_of(uint64_t item) { return (void *)(uintptr_t)item; }

/* Many producers, many consumers. */
static int mp_produce(void *mine, uint64_t item) {
    (void)mine;
    while (!ck_ring_enqueue_mpmc(&ring, slots, pointer_of(item)))
        sched_yield();
    return 1;
}
static uint64_t mc_consume(void *mine) {
    void *item;
    (void)mine;
    while (!ck_ring_dequeue_mpmc(&ring, slots, &item))
        sched_yield();
    return (uint64_t)(uintptr_t)item;
}

/* One producer. With several an item can be lost, so both give up then. */
static int sp_produce(void *mine, uint64_t item) {
    (void)mine;
    for (int looks = 0; !ck_ring_enqueue_spmc(&ring, slots, pointer_of(item)); sched_yield())
        if (chosen && ++looks == 20)
            return 0;
    return 1;
}
static uint64_t sp_consume(void *mine) {
    void *item;
    (void)mine;
    for (int looks = 0; !ck_ring_dequeue_spmc(&ring, slots, &item); sched_yield())
        if (chosen && ++looks == 20)
            return EVC_STRESS_TIMEOUT;
    return (uint64_t)(uintptr_t)item;
}

#ifdef CK_F_FIFO_MPMC
/* The queue: each item has an entry of its own. */
#define ENTRIES 256
static ck_fifo_mpmc_t queue;
static ck_fifo_mpmc_entry_t entries[ENTRIES];
static unsigned used;

static void fresh_queue(void *mine) {
    fresh(mine);
    memset(entries, 0, sizeof entries);
    ck_fifo_mpmc_init(&queue, &entries[0]);
    used = 1;
}
static int queue_produce(void *mine, uint64_t item) {
    (void)mine;
    ck_fifo_mpmc_enqueue(&queue, &entries[__atomic_fetch_add(&used, 1, __ATOMIC_RELAXED)],
                         pointer_of(item));
    return 1;
}
static uint64_t queue_consume(void *mine) {
    ck_fifo_mpmc_entry_t *entry;
    void *item;
    (void)mine;
    while (!ck_fifo_mpmc_dequeue(&queue, &item, &entry))
        sched_yield();
    return (uint64_t)(uintptr_t)item;
}
#else
#define fresh_queue fresh
#endif

static const real_object objects[] = {
    REAL_QUEUE("ck_ring_mpmc", RIGHT, 0, 0, SIZE - 1, mp_produce, mc_consume),
    REAL_QUEUE("ck_ring_spmc", RIGHT, 0, 1, SIZE - 1, sp_produce, sp_consume),
    REAL_QUEUE("ck_ring_sp_many", BUG, 1, 0, SIZE - 1, sp_produce, sp_consume),
#ifdef CK_F_FIFO_MPMC
    REAL_QUEUE("ck_fifo_mpmc", RIGHT, 0, 0, ENTRIES, queue_produce, queue_consume),
#endif
    {NULL}};

int main(int words, char **word) { return real_main(words, word, objects, fresh_queue); }
