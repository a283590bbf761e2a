/* tests/monitor.c: what tests/run-recorder asks of recorder/evc_monitor.h.
 *
 *     monitor KIND CLOCK CALLS OUT
 *
 * Four threads make so many calls each, of an eventcount, a sequencer and, as one in eight calls, a
 * database, in rings that are small. KIND is right; or with a bug: lost (one advance in 100 is
 * lost), twice (one ticket in 100 is drawn twice); or misused, or pending (a call has not returned
 * at the stop). The judge is `evc-calls`; or with the word file, which comes after the kind as in
 * right-file, the lines are written into OUT; or with the word stop, it takes at most 1000 lines; or
 * with the word library, if evc.h is included before all else, it is the library's monitor, and no
 * call is of the database. The program prints the status and the notes, and last whether its memory
 * grew by more than 8 MB after the first tenth. */
#ifdef EVC_H
#define HAS_LIBRARY
#endif
#include "../recorder/evc_monitor.h"
/* (no names of these clash) */
#include "../library/evc.h"
#include "../recorder/evc_record.h"
#include "../recorder/evc_stress.h"
#include <sys/resource.h>

static evc_calls calls;
static evc_monitor_thread monitor;
static const char *kind;
static int E, T, D, calls_to_make;
static long memory_before;
static uint64_t count, next, lines;
static FILE *out;

static int is_kind(const char *word) { return strstr(kind, word) != NULL; }

static int into_file(void *state, const char *line, size_t length) {
    (void)state;
    return fwrite(line, 1, length, out) == length ? 0 : 4;
}

static int until_stop(void *state, const char *line, size_t length) {
    (void)state, (void)line, (void)length;
    return ++lines > 1000 ? 7 : 0;
}

/* Adds one. With a bug one call in 100 doesn't. */
static uint64_t add(uint64_t *number, int has_bug, uint64_t chance) {
    return has_bug && chance % 100 == 0 ? __atomic_load_n(number, __ATOMIC_SEQ_CST)
                                         : __atomic_fetch_add(number, 1, __ATOMIC_SEQ_CST);
}

static void call(evc_caller *w, uint64_t chance) {
    static const uint64_t values[7] = {1, 2, 3, 4, 5, 6, 7};
    if (chance % 8 == 0 && w->number == 0 && !is_kind("library")) {
        evc_call_write(w, D, values);
        evc_return_done(w);
    } else if (chance % 8 < 3) {
        evc_call_advance(w, E);
        add(&count, is_kind("lost"), chance >> 8);
        evc_return_done(w);
    } else if (chance % 8 < 5) {
        evc_call_ticket(w, T);
        evc_return_number(w, add(&next, is_kind("twice"), chance >> 8));
    } else {
        evc_call_read(w, E);
        evc_return_number(w, __atomic_load_n(&count, __ATOMIC_SEQ_CST));
    }
}

/* Returns the peak memory so far, in KB. */
static long memory(void) {
    struct rusage usage;
    getrusage(RUSAGE_SELF, &usage);
    return usage.ru_maxrss;
}

static void *run(void *given) {
    evc_caller *w = (evc_caller *)given;
    uint64_t chance = 0x9E3779B97F4A7C15u * (uint64_t)(w->number + 1);
    for (int made = 0; made < calls_to_make; made++) {
        chance ^= chance << 13;
        chance ^= chance >> 7;
        chance ^= chance << 17;
        call(w, chance >> 11);
        if (is_kind("misused") && w->number == 2 && made == 500)
            evc_return_done(w);
        if (w->number == 0 && made == calls_to_make / 10)
            memory_before = memory();
    }
    if (is_kind("pending") && w->number == 1)
        evc_call_await(w, E, 1000000000);
    return NULL;
}

int main(int words, char **word) {
    static evc_monitor_program program;
#ifdef HAS_LIBRARY
    static evc_monitor_library library;
#endif
    evc_caller *w[4];
    pthread_t thread[4];
    char name[8], note[4096];
    if (words != 5)
        return 2;
    kind = word[1];
    calls_to_make = atoi(word[3]);
    evc_calls_open(&calls, strcmp(word[2], "tsc") == 0 ? EVC_CALLS_TSC : EVC_CALLS_COUNTER, NULL);
    for (int i = 0; i < 4; i++) {
        snprintf(name, sizeof name, "w%d", i);
        w[i] = evc_calls_worker(&calls, name, 61);
    }
    E = evc_calls_eventcount(&calls, "E", 0), T = evc_calls_sequencer(&calls, "T");
    D = evc_calls_database(&calls, "D", 7, "w0");
    if (is_kind("file"))
        out = fopen(word[4], "wb");
#ifdef HAS_LIBRARY
    if (is_kind("library"))
        evc_monitor_start(&monitor, &calls, evc_monitor_by_library,
                          evc_monitor_library_open(&library));
    else
#endif
        evc_monitor_start(&monitor, &calls,
                          is_kind("file")   ? into_file
                          : is_kind("stop") ? until_stop
                                            : evc_monitor_by_program,
                          is_kind("file") || is_kind("stop")
                              ? NULL
                              : evc_monitor_program_start(&program));
    for (int i = 0; i < 4; i++)
        pthread_create(&thread[i], NULL, run, w[i]);
    for (int i = 0; i < 4; i++)
        pthread_join(thread[i], NULL);
    long grown = memory() - memory_before;
    int status = evc_monitor_stop(&monitor);
    evc_monitor_pending(&monitor, note, sizeof note);
    const char *says = program.note;
#ifdef HAS_LIBRARY
    if (is_kind("library"))
        says = library.note, evc_monitor_library_close(&library);
#endif
    printf("%d\n%s%s%s%s", status, says, monitor.note, *monitor.note ? "\n" : "", note);
    printf("%s\n", grown < 8000 ? "constant" : "grown");
    fprintf(stderr, "%llu events\n", (unsigned long long)monitor.events);
    if (out)
        fclose(out);
    enum evc_calls_fault fault = evc_calls_write(&calls, "/dev/null");
    if (fault != EVC_CALLS_NO_RECORD)
        printf("a monitored record was written\n");
    evc_calls_close(&calls);
    return 0;
}
