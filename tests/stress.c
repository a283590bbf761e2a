/* tests/stress.c: what tests/run-recorder asks of recorder/evc_stress.h.
 *
 *     stress KIND SHAPE CLOCK ROUNDS
 *
 * KIND is an eventcount: right, or with a bug: lost (it loads and stores), early (an await returns
 * one early), kept (a reader keeps what it saw), wake (it wakes one of all that sleep), abort (it
 * aborts in an advance of the third round, and the file x.record has that round); unkept (lost, and
 * its history can't be written); or ticket and lock, other objects with bugs; or full, misused,
 * misnamed, silent, outside, unsure, faults of the test itself: outside hangs between its calls,
 * unsure puts one value into a cell again and again, so that no round is decided. SHAPE is
 * mixed or ring, or queue: then KIND is a ring of slots, right or with a bug: hasty (it publishes a
 * slot before that is written), shared (two producers have one ticket), wide (one slot too many).
 * The judge is the library if evc.h was included before this. */
#include "../recorder/evc_record.h"
#include "../recorder/evc_stress.h"

static const char *kind = "right";
static uint64_t count, holds;
static int object, rounds_begun;
static pthread_mutex_t lock = PTHREAD_MUTEX_INITIALIZER;
static pthread_cond_t reached = PTHREAD_COND_INITIALIZER;

static int is_kind(const char *word) { return strcmp(kind, word) == 0; }
static int has_bug(void) { return is_kind("lost") || is_kind("unkept"); }
static uint64_t load(uint64_t *number) { return __atomic_load_n(number, __ATOMIC_SEQ_CST); }
static void store(uint64_t *number, uint64_t value) {
    __atomic_store_n(number, value, __ATOMIC_SEQ_CST);
}

/* Returns a number and adds one. With a bug, others may change it in between. */
static uint64_t add(uint64_t *number, int has_bug) {
    if (!has_bug)
        return __atomic_fetch_add(number, 1, __ATOMIC_SEQ_CST);
    uint64_t seen = load(number);
    sched_yield();
    store(number, seen + 1);
    return seen;
}

static void fresh(void *mine) {
    (void)mine;
    store(&count, 0);
    store(&holds, 0);
    rounds_begun++;
}

static void advance(void *mine) {
    (void)mine;
    if (is_kind("wake")) {
        pthread_mutex_lock(&lock);
        add(&count, 0);
        pthread_cond_signal(&reached);
        pthread_mutex_unlock(&lock);
    } else if (add(&count, has_bug()) == 9 && is_kind("abort") && rounds_begun == 3)
        abort();
}

static uint64_t read_count(void *mine) {
    static __thread uint64_t kept;
    (void)mine;
    uint64_t seen = load(&count), before = kept;
    kept = seen;
    return is_kind("kept") && before < seen ? before : seen;
}

static uint64_t await(void *mine, uint64_t threshold) {
    (void)mine;
    if (is_kind("wake")) {
        pthread_mutex_lock(&lock);
        while (load(&count) < threshold)
            pthread_cond_wait(&reached, &lock);
        pthread_mutex_unlock(&lock);
        return EVC_STRESS_DONE;
    }
    for (int looks = 0; load(&count) + (uint64_t)is_kind("early") < threshold; sched_yield())
        if (has_bug() && ++looks == 30)
            return EVC_STRESS_TIMEOUT; /* (it may not come any more) */
    return is_kind("early") ? EVC_STRESS_DONE : load(&count);
}

/* A ring: the slot of ticket t is free when its turn is t, and has an item when that is t + 1. */
#define CAPACITY 2
static uint64_t turns[CAPACITY + 1], items[CAPACITY + 1], produced, consumed;

static uint64_t slots(void) { return CAPACITY + (uint64_t)is_kind("wide"); }

static void fresh_ring(void *mine) {
    (void)mine;
    for (uint64_t i = 0; i < slots(); i++) {
        store(&turns[i], i);
        store(&items[i], 0);
    }
    store(&produced, 0);
    store(&consumed, 0);
}

/* Draws a ticket when its slot has its turn. Returns 0 if that may not come, as items were lost. */
static int draw(uint64_t *next, uint64_t ahead, uint64_t *ticket) {
    for (int looks = 0; !is_kind("shared") || looks < 30; looks++) {
        *ticket = load(next);
        if (load(&turns[*ticket % slots()]) != *ticket + ahead)
            sched_yield();
        else if (is_kind("shared") && ahead == 0)
            return sched_yield(), store(next, *ticket + 1), 1;
        else if (__sync_bool_compare_and_swap(next, *ticket, *ticket + 1))
            return 1;
    }
    return 0;
}

static int produce(void *mine, uint64_t item) {
    uint64_t ticket;
    (void)mine;
    if (!draw(&produced, 0, &ticket))
        return 0;
    if (is_kind("hasty"))
        store(&turns[ticket % slots()], ticket + 1), sched_yield();
    store(&items[ticket % slots()], item);
    if (!is_kind("hasty"))
        store(&turns[ticket % slots()], ticket + 1);
    return 1;
}

static uint64_t consume(void *mine) {
    uint64_t ticket;
    (void)mine;
    if (!draw(&consumed, 1, &ticket))
        return EVC_STRESS_TIMEOUT;
    uint64_t item = load(&items[ticket % slots()]);
    store(&turns[ticket % slots()], ticket + slots());
    return item;
}

static void declare(void *mine, evc_calls *record) {
    (void)mine;
    object = is_kind("unsure")   ? evc_calls_cells(record, "X", 1)
             : is_kind("ticket") ? evc_calls_sequencer(record, "T")
                                 : evc_calls_semaphore(record, is_kind("misnamed") ? "p" : "S", 1);
}

static void hold(evc_caller *w, evc_chance *chance) {
    evc_call_p(w, object);
    while (load(&holds))
        sched_yield();
    sched_yield();
    store(&holds, 1);
    evc_return_done(w);
    evc_chance_pause(chance);
    evc_call_v(w, object);
    store(&holds, 0);
    evc_return_done(w);
}

static void put_and_get(evc_caller *w) {
    evc_call_put(w, object, 0, 1);
    store(&count, 1);
    sched_yield();
    evc_return_done(w);
    evc_call_get(w, object, 0);
    evc_return_number(w, load(&count));
}

static void work(void *mine, evc_caller *w, int number, evc_chance *chance) {
    (void)mine;
    for (int k = 0; k < (is_kind("full") ? 100 : is_kind("silent") ? 0 : 8); k++) {
        evc_chance_pause(chance);
        while (is_kind("outside") && number == 1 && k == 4)
            pause();
        if (is_kind("outside")) {
            evc_call_p(w, object);
            evc_return_timeout(w);
        } else if (is_kind("ticket")) {
            evc_call_ticket(w, object);
            evc_return_number(w, add(&count, 1));
        } else if (is_kind("misused"))
            evc_call_ticket(w, object);
        else if (is_kind("unsure"))
            put_and_get(w);
        else
            hold(w, chance);
    }
}

int main(int words, char **word) {
    static const char *const works[] = {"ticket",   "lock",   "full",    "misused",
                                        "misnamed", "silent", "outside", "unsure"};
    static evc_stress s;
    if (words != 5)
        return 2;
    kind = word[1];
    s.shape = strcmp(word[2], "ring") == 0    ? EVC_STRESS_RING
              : strcmp(word[2], "queue") == 0 ? EVC_STRESS_QUEUE
                                              : EVC_STRESS_MIXED;
    s.clock = strcmp(word[3], "tsc") == 0         ? EVC_CALLS_TSC
              : strcmp(word[3], "monotonic") == 0 ? EVC_CALLS_MONOTONIC
                                                  : EVC_CALLS_COUNTER;
    s.rounds = atoi(word[4]);
    s.hang_seconds = is_kind("wake") || is_kind("outside") ? 2 : 20;
    s.file = is_kind("abort") ? "x.record" : NULL;
    s.keep = is_kind("unkept") ? "nowhere/refused.calls" : NULL;
    s.fresh = s.shape == EVC_STRESS_QUEUE ? fresh_ring : fresh;
    s.advance = advance;
    s.read = read_count;
    s.await = await;
    s.capacity = CAPACITY;
    s.produce = produce;
    s.consume = consume;
    for (size_t i = 0; i < sizeof works / sizeof *works; i++)
        if (is_kind(works[i])) {
            s.declare = declare;
            s.work = work;
        }
    return evc_stress_says(&s, evc_stress_run(&s));
}
