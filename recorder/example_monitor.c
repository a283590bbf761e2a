/* Four threads that would not end by themselves, judged while they run.
 *
 *     example_monitor SECONDS [lost]
 *
 * The second word plants a bug. The judge is the program in EVC_CALLS, or `evc-calls` on PATH. The
 * recorder and the monitor are not proved. */
#include "evc_monitor.h"
#include <stdatomic.h>
#include <threads.h>

static evc_calls calls;
static int E, has_bug;
static _Atomic int has_ended;
static _Atomic uint64_t count;

static void *run(void *given) {
    evc_caller *w = given;
    while (!has_ended) {
        thrd_sleep(&(struct timespec){.tv_nsec = 10000}, NULL);
        evc_call_advance(w, E);
        uint64_t seen = count;
        if (has_bug)
            thrd_yield(), count = seen + 1; /* others may come in between */
        else
            count++;
        evc_return_done(w);
        evc_call_read(w, E), evc_return_number(w, count);
    }
    return NULL;
}

int main(int words, char **word) {
    static evc_monitor_program judge;
    static evc_monitor_thread monitor;
    evc_caller *worker[4];
    pthread_t thread[4];
    has_bug = words > 2;
    evc_calls_open(&calls, EVC_CALLS_COUNTER, NULL);
    for (int i = 0; i < 4; i++)
        worker[i] = evc_calls_worker(&calls, (const char *[]){"a", "b", "c", "d"}[i], 4096);
    E = evc_calls_eventcount(&calls, "E", 0);
    evc_monitor_start(&monitor, &calls, evc_monitor_by_program, evc_monitor_program_start(&judge));
    for (int i = 0; i < 4; i++)
        pthread_create(&thread[i], NULL, run, worker[i]);
    for (int tenths = words > 1 ? 10 * atoi(word[1]) : 10; tenths > 0; tenths--)
        if (evc_monitor_status(&monitor) == 0)
            thrd_sleep(&(struct timespec){.tv_nsec = 100000000}, NULL);
    has_ended = 1;
    for (int i = 0; i < 4; i++)
        pthread_join(thread[i], NULL);
    int status = evc_monitor_stop(&monitor);
    const char *says = status == 0 ? "right" : status == 1 ? "wrong" : "no verdict";
    printf("%s\n%s%s", says, judge.note, monitor.note);
    evc_calls_close(&calls);
    return status;
}
