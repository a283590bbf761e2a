/* Two presses count the sheets that they print, and a watcher reads how many there are: an eventcount of two
 * components, and a sequencer that gives each press its job.
 *
 *     presses FILE [BUG]
 *
 * writes what they did as a trace. BUG plants one: `twice`, `shared` or `ticket` (docs/RECORDING.md). The three threads
 * take turns, so that each run is the same; a program of yours needs no turns. */
#include "evc_record.h"
#include <sched.h>
#include <stdatomic.h>

static evc_record record;
static int press[2], watcher;
static const char *bug = "";

static atomic_uint sheets[2]; /* the components of the eventcount, one for each press */
static atomic_uint jobs;      /* the sequencer */
static atomic_int turn;

static void wait_for(int mine) {
    while (atomic_load(&turn) != mine)
        sched_yield();
}
static void turn_over(void) { atomic_fetch_add(&turn, 1); }
static int has(const char *name) { return strcmp(bug, name) == 0; }

static void draw_job(int p) {
    evc_lock(&record);
    unsigned job = has("ticket") ? atomic_load(&jobs) : atomic_fetch_add(&jobs, 1);
    evc_number(&record, press[p], job, "ticket Job");
}

static void print_sheet(int p, unsigned seen) {
    evc_lock(&record);
    if (has("shared"))
        atomic_store(&sheets[0], seen + 1); /* what the other press has added since is lost */
    else
        atomic_fetch_add(&sheets[p], 1);
    evc_done(&record, press[p], "advance Sheets");
}

static void *run_press(void *which) {
    int p = *(int *)which;
    unsigned seen = atomic_load(&sheets[0]);
    wait_for(p);
    draw_job(p);
    turn_over();
    wait_for(p == 0 ? 2 : 4);
    print_sheet(p, seen);
    turn_over();
    return NULL;
}

/* One step of the watcher's read: a component, and the reply. */
static void watch(const char *act, int component, unsigned *sum, int is_last) {
    evc_lock(&record);
    *sum += atomic_load(&sheets[component]);
    if (is_last)
        evc_number(&record, watcher, *sum, "%s", act);
    else
        evc_pending(&record, watcher, "%s", act);
}

static void *run_watcher(void *none) {
    unsigned sum = 0;
    wait_for(3);
    watch("read Sheets", 0, &sum, 0);
    turn_over();
    wait_for(5);
    if (has("twice")) { /* all components once more, to be sure */
        watch("go", 1, &sum, 0);
        sum = 0;
        watch("go", 0, &sum, 0);
    }
    watch("go", 1, &sum, 1);
    return none;
}

int main(int count, char **words) {
    if (count < 2) {
        fprintf(stderr, "usage: presses FILE [twice|shared|ticket]\n");
        return 2;
    }
    bug = count > 2 ? words[2] : "";
    evc_open(&record, 100);
    press[0] = evc_worker(&record, "press1");
    press[1] = evc_worker(&record, "press2");
    watcher = evc_worker(&record, "watcher");
    evc_declare(&record, "eventcount Sheets signal press1 press2 observe watcher");
    evc_declare(&record, "sequencer Job take press1 press2");

    pthread_t threads[3];
    int which[2] = {0, 1};
    pthread_create(&threads[0], NULL, run_press, &which[0]);
    pthread_create(&threads[1], NULL, run_press, &which[1]);
    pthread_create(&threads[2], NULL, run_watcher, NULL);
    for (int i = 0; i < 3; i++)
        pthread_join(threads[i], NULL);

    enum evc_fault fault = evc_finish(&record, words[1]);
    evc_close(&record);
    if (fault != EVC_OK)
        fprintf(stderr, "the record: %s\n", evc_fault_name(fault));
    return fault != EVC_OK;
}
