/* real.h: what the programs of examples/real have in common: a table of objects, and their words.
 *
 *     PROGRAM                                                   lists its objects
 *     PROGRAM OBJECT [THREADS [ROUNDS [CLOCK [SEED [SHAPE]]]]]  tries one
 *
 * CLOCK is counter, tsc or monotonic. SHAPE is mixed or, for an object that is listed with it,
 * ring. The status is that of evc_stress_says: 0 passed, 1 refused, 5 hung. A wrong history is kept
 * as OBJECT.calls. */
#ifndef REAL_H
#define REAL_H

#include "evc_stress.h"

/* What is to come of an object: it is right, or it has a bug that is planted, or what is wrong with
 * it shows now and then. */
enum real_kind { RIGHT, BUG, MAYBE };

typedef struct real_object {
    const char *name;
    enum real_kind kind;
    int choice; /* is put into `chosen` */
    int producers;
    void (*advance)(void *mine);
    uint64_t (*read)(void *mine);
    uint64_t (*await)(void *mine, uint64_t threshold); /* NULL where it could wait for ever */
    void (*declare)(void *mine, evc_calls *record);
    void (*work)(void *mine, evc_caller *worker, int number, evc_chance *chance);
    int capacity;
    int (*produce)(void *mine, uint64_t item);
    uint64_t (*consume)(void *mine);
} real_object;

/* A queue. `producers` is 0 for half of the threads. */
#define REAL_QUEUE(name, kind, choice, producers, capacity, produce, consume)                      \
    { name, kind, choice, producers, NULL, NULL, NULL, NULL, NULL, capacity, produce, consume }

static int chosen, threads;

/* Records a call that returns nothing. */
#define REAL_DONE(worker, invocation, call)                                                        \
    do {                                                                                           \
        invocation;                                                                                \
        call;                                                                                      \
        evc_return_done(worker);                                                                   \
    } while (0)

/* Returns whether threads can take turns on an object: each of them advances and awaits. */
static inline int real_has_ring(const real_object *it) {
    return it->await != NULL && it->producers == 0;
}

static inline int real_list(const real_object *objects) {
    static const char *const kinds[] = {"right", "bug", "maybe"};
    for (; objects->name; objects++)
        printf("%s %s%s\n", kinds[objects->kind], objects->name,
               real_has_ring(objects) ? " ring" : "");
    return 0;
}

/* Tries the object that the words name. The table ends with one that has no name. */
static inline int real_main(int words, char **word, const real_object *objects,
                            void (*fresh)(void *mine)) {
    static const char *const clocks[] = {"counter", "tsc", "monotonic"};
    static evc_stress s;
    static char keep[64];
    if (words < 2)
        return real_list(objects);
    while (objects->name && strcmp(objects->name, word[1]) != 0)
        objects++;
    if (!objects->name)
        return fprintf(stderr, "there is no object %s\n", word[1]), 2;
    s.threads = threads = words > 2 ? atoi(word[2]) : 4;
    s.rounds = words > 3 ? atoi(word[3]) : 1000;
    for (int i = 0; i < 3; i++)
        if (words > 4 && strcmp(word[4], clocks[i]) == 0)
            s.clock = (enum evc_calls_clock)i;
    s.seed = words > 5 ? strtoull(word[5], NULL, 10) : 0;
    if (words > 6 && strcmp(word[6], "ring") == 0) {
        if (!real_has_ring(objects))
            return fprintf(stderr, "%s takes no turns\n", objects->name), 2;
        s.shape = EVC_STRESS_RING;
    }
    if (objects->produce)
        s.shape = EVC_STRESS_QUEUE;
    s.hang_seconds = 2;
    s.producers = objects->producers;
    snprintf(keep, sizeof keep, "%.50s.calls", objects->name);
    s.keep = keep;
    s.fresh = fresh;
    s.advance = objects->advance;
    s.read = objects->read;
    s.await = objects->await;
    s.declare = objects->declare;
    s.work = objects->work;
    s.capacity = objects->capacity;
    s.produce = objects->produce;
    s.consume = objects->consume;
    chosen = objects->choice;
    int status = evc_stress_says(&s, evc_stress_run(&s));
    fflush(stderr);
    _exit(status); /* (after a hang the threads are still there) */
}

#endif
