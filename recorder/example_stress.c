/* A complete test of one's own eventcount: it passes. With the word `bug` it is refused, or hangs.
 *
 *     cc -std=c11 example_stress.c $(pkg-config --cflags --libs evc) -o example_stress
 *
 * The library judges, in this process. The harness is not proved. */
#include "evc.h"
#include "evc_stress.h"
#include <stdatomic.h>

static _Atomic uint64_t count;
static int has_bug;

static void fresh(void *mine) { atomic_store(&count, 0), (void)mine; }

static void advance(void *mine) {
    uint64_t seen = ((void)mine, atomic_load(&count));
    if (has_bug)
        sched_yield(), atomic_store(&count, seen + 1); /* others may come in between */
    else
        atomic_fetch_add(&count, 1);
}

static uint64_t read_it(void *mine) { return (void)mine, atomic_load(&count); }

static uint64_t await_it(void *mine, uint64_t threshold) {
    while (read_it(mine) < threshold)
        sched_yield();
    return read_it(mine);
}

int main(int words, char **word) {
    static evc_stress s = {.fresh = fresh, .advance = advance, .read = read_it, .await = await_it};
    has_bug = words > 1 && word[1][0] == 'b';
    return evc_stress_says(&s, evc_stress_run(&s));
}
