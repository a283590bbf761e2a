/* evc_monitor.h: judges the calls of a program that does not end, while it runs.
 *
 * C11 or C++17, gcc or clang, POSIX threads, with evc_calls.h. Nothing of it is proved: it passes
 * the history to a judge, line by line.
 *
 *     evc_calls c;                                        declared as usual, without a file
 *     evc_monitor_program judge;                          `evc-calls check`, the library, or yours
 *     evc_monitor_thread m;
 *     evc_monitor_start(&m, &c, evc_monitor_by_program, evc_monitor_program_start(&judge));
 *     ..                                                  the threads record their calls
 *     int status = evc_monitor_stop(&m);                  0: each line was accepted, and the end
 *
 * Each worker's buffer is then a ring. A thread of the monitor empties the rings in the order of
 * the stamps, makes lines of the events, and gives them to the judge, one after another, with `end`
 * at the stop. Its memory does not grow. A worker whose ring is full waits, between two of its
 * calls: so give each room for what it calls within some milliseconds, 4096 calls or more.
 *
 * THE ORDER. A batch has all events with stamps before a cut some milliseconds ago. An event that a
 * stopped thread has noted down too late for its batch comes in a later one: an invocation then did
 * not take effect before, and a response that comes later says less. So it never rejects a right
 * program.
 *
 * THE JUDGE is a function. It is given a line with its LF, and returns 0 to go on; anything else
 * ends the judging, and is what evc_monitor_stop returns, and evc_monitor_status at once. Your
 * calls go on, unrecorded. If evc.h of the library is included first, its monitor judges the
 * lines, in this process:
 *
 *     evc_monitor_library judge;
 *     evc_monitor_start(&m, &c, evc_monitor_by_library, evc_monitor_library_open(&judge));
 *     ..
 *     int status = evc_monitor_stop(&m);                  1: judge.note says why
 *     evc_monitor_library_close(&judge); */
#ifndef EVC_MONITOR_H
#define EVC_MONITOR_H

#include "evc_calls.h"
#include <signal.h>
#include <sys/wait.h>

/* Judges a line of a history. Returns 0, or why it takes no more lines: 1 if the line is wrong. */
typedef int (*evc_monitor_judge)(void *state, const char *line, size_t length);

/* The statuses that are not the judge's. */
enum { EVC_MONITOR_NO_RECORD = 2, EVC_MONITOR_NO_VERDICT = 3 };

typedef struct evc_monitor_thread {
    evc_calls *calls;
    evc_monitor_judge judge;
    void *state;
    int status;      /* 0 as long as all is right */
    uint64_t events; /* how many were judged */
    char note[192];  /* why there is no record any more */
    pthread_t thread;
    int ends, is_running;
    evc_pass_ pass;
    evc_ring_ ring[EVC_CALLS_WORKERS];
} evc_monitor_thread;

static inline int evc_monitor_line_(evc_monitor_thread *m, const char *line, size_t length) {
    int status = m->judge(m->state, line, length);
    if (status != 0)
        __atomic_store_n(&m->status, status, __ATOMIC_RELEASE);
    return status == 0;
}

/* Judges the lines up to `run`. */
static inline void evc_monitor_heading_(evc_monitor_thread *m) {
    evc_sink_ sink = {NULL, 0, 0, 0, -1, 0};
    m->pass.line = evc_put_heading_(&sink, m->calls->head) + 1;
    size_t at = 0;
    while (at < sink.length) {
        const char *line = sink.bytes + at;
        size_t length = (size_t)((const char *)memchr(line, '\n', sink.length - at) - line) + 1;
        if (!evc_monitor_line_(m, line, length))
            break;
        at += length;
    }
    if (sink.has_failed)
        m->status = EVC_MONITOR_NO_RECORD;
    free(sink.bytes);
}

/* Gives slots back to their worker. */
static inline void evc_monitor_free_(evc_monitor_thread *m, int worker, evc_slot_ *slot,
                                     uint64_t slots) {
    uint64_t *freed = &m->ring[worker].freed;
    memset((void *)slot, 0, slots * sizeof *slot);
    __atomic_store_n(freed, *freed + slots, __ATOMIC_RELEASE);
}

/* Moves a cursor to the event after the one it is at, round the ring. */
static inline void evc_monitor_find_(evc_monitor_thread *m, int worker) {
    evc_cursor_ *k = &m->pass.cursor[worker];
    if (!k->is_response && k->slot < k->end) {
        uint64_t what = __atomic_load_n(&k->slot->what, __ATOMIC_ACQUIRE);
        k->is_over = what == 0;
        if (k->is_over) /* (a skip that is written from now on is for the next batch) */
            return;
        if (what == EVC_CALL_SKIP_) {
            evc_monitor_free_(m, worker, k->slot, (uint64_t)(k->end - k->slot));
            k->slot = k->end;
        }
    }
    if (!k->is_response && k->slot == k->end)
        k->slot = m->calls->worker[worker].first;
    evc_find_(&m->pass, worker);
}

/* Judges the line of a worker's event, and moves its cursor on. */
static inline void evc_monitor_event_(evc_monitor_thread *m, int worker) {
    char line[8192];
    evc_pass_ *p = &m->pass;
    evc_cursor_ *k = &p->cursor[worker];
    char *at = evc_put_word_(line, p->head->worker[worker].name);
    at = k->is_response ? evc_put_return_(at, k->slot) : evc_put_call_(at, p->head, k->slot);
    *at++ = '\n';
    evc_monitor_line_(m, line, (size_t)(at - line));
    if (k->is_response) {
        uint64_t slots = evc_slots_(k->slot->what >> 40);
        evc_monitor_free_(m, worker, k->slot, slots);
        k->slot += slots;
        p->pending--;
    } else {
        k->line = p->line;
        p->pending++;
    }
    k->is_response = !k->is_response;
    p->line++;
    m->events++;
    evc_monitor_find_(m, worker);
}

/* Judges all events before a cut. */
static inline void evc_monitor_batch_(evc_monitor_thread *m, uint64_t cut) {
    evc_pass_ *p = &m->pass;
    enum evc_calls_fault fault = EVC_CALLS_OK;
    int worker;
    p->cut = cut;
    for (uint64_t i = 0; i < p->head->workers; i++) {
        uint64_t own = __atomic_load_n(&p->head->worker[i].cut, __ATOMIC_ACQUIRE);
        if (own && own < p->cut) {
            uint64_t misuse = p->head->worker[i].misuse;
            p->cut = own;
            fault = misuse ? EVC_CALLS_MISUSED : EVC_CALLS_FULL;
            snprintf(m->note, sizeof m->note, "%s: worker %s: %s", evc_calls_fault_name(fault),
                     p->head->worker[i].name, evc_calls_misuse_(misuse));
        }
    }
    for (int i = 0; i < (int)p->head->workers; i++)
        if (p->cursor[i].is_over)
            evc_monitor_find_(m, i);
    while (m->status == 0 && p->fault == EVC_CALLS_OK && (worker = evc_earliest_(p)) >= 0)
        evc_monitor_event_(m, worker);
    if (p->fault != EVC_CALLS_OK)
        snprintf(m->note, sizeof m->note, "%s", evc_calls_fault_name(p->fault));
    if (m->status == 0 && (p->fault != EVC_CALLS_OK || fault != EVC_CALLS_OK))
        __atomic_store_n(&m->status, EVC_MONITOR_NO_RECORD, __ATOMIC_RELEASE);
}

static inline void *evc_monitor_main_(void *given) {
    evc_monitor_thread *m = (evc_monitor_thread *)given;
    evc_monitor_heading_(m);
    while (m->status == 0 && !__atomic_load_n(&m->ends, __ATOMIC_ACQUIRE))
        evc_monitor_batch_(m, evc_calls_cut_now_(m->calls));
    for (int i = 0; m->status != 0 && i < EVC_CALLS_WORKERS; i++)
        __atomic_store_n(&m->ring[i].is_over, 1, __ATOMIC_RELEASE);
    return NULL;
}

/* Begins to judge a record, after all is declared and before the first call. Returns whether it
 * does: not if the record is kept in a file, or has a fault. */
static inline int evc_monitor_start(evc_monitor_thread *m, evc_calls *c, evc_monitor_judge judge,
                                    void *state) {
    memset(m, 0, sizeof *m);
    m->calls = c;
    m->judge = judge;
    m->state = state;
    m->status = EVC_MONITOR_NO_RECORD;
    if (c->fault != EVC_CALLS_OK || c->is_monitored || c->file >= 0 || c->head->workers == 0)
        return 0;
    m->status = 0;
    evc_pass_begin_(&m->pass, c, UINT64_MAX);
    for (uint64_t i = 0; i < c->head->workers; i++) {
        c->worker[i].ring = &m->ring[i];
        m->pass.cursor[i].is_over = 1;
    }
    c->is_monitored = 1;
    m->is_running = pthread_create(&m->thread, NULL, evc_monitor_main_, m) == 0;
    return m->is_running;
}

/* Judges what is left, ends the history and the monitor, and returns its status. A call that has
 * not returned stays pending. */
static inline int evc_monitor_stop(evc_monitor_thread *m) {
    if (!m->is_running)
        return EVC_MONITOR_NO_RECORD;
    __atomic_store_n(&m->ends, 1, __ATOMIC_RELEASE);
    pthread_join(m->thread, NULL);
    m->is_running = 0;
    if (m->status == 0) /* (another processor's clock may be ahead by the skew) */
        evc_monitor_batch_(m, evc_calls_cut_now_(m->calls) + m->calls->head->skew + 1);
    if (m->status == 0 && evc_has_bound_(m->calls->head->clock) &&
        evc_measure_again_(m->calls->head) != EVC_CALLS_OK) {
        snprintf(m->note, sizeof m->note, "clock skewed: measured again at the end");
        m->status = EVC_MONITOR_NO_RECORD;
    }
    for (int i = 0; i < EVC_CALLS_WORKERS; i++)
        __atomic_store_n(&m->ring[i].is_over, 1, __ATOMIC_RELEASE);
    if (m->status == 0)
        evc_monitor_line_(m, "end\n", 4);
    return m->status;
}

/* Returns the status so far: 0 as long as all is right. */
static inline int evc_monitor_status(evc_monitor_thread *m) {
    return __atomic_load_n(&m->status, __ATOMIC_ACQUIRE);
}

/* Puts a line for each call that was pending at the stop. */
static inline void evc_monitor_pending(const evc_monitor_thread *m, char *note, size_t room) {
    note[0] = 0;
    evc_put_pending_(&m->pass, 0, note, room);
}

/* A judge: `evc-calls check`, a process of its own, the program in EVC_CALLS or on PATH. It answers
 * only at the end, and takes texts of at most 67108864 bytes: what comes after is not judged. */
typedef struct evc_monitor_program {
    const char *program;
    int in, notes, has_ended;
    pid_t child;
    uint64_t total;
    size_t length;
    char buffer[65536];
    char note[4096]; /* what it says at the end */
} evc_monitor_program;

/* Starts the program. Returns what evc_monitor_by_program takes. */
static inline evc_monitor_program *evc_monitor_program_start(evc_monitor_program *p) {
    int in[2], notes[2];
    memset(p, 0, sizeof *p);
    p->program = getenv("EVC_CALLS") ? getenv("EVC_CALLS") : "evc-calls";
    p->child = -1;
    if (pipe(in) != 0 || pipe(notes) != 0)
        return p;
    p->child = fork();
    if (p->child == 0) {
        dup2(in[0], 0), dup2(open("/dev/null", O_WRONLY), 1), dup2(notes[1], 2);
        close(in[0]), close(in[1]), close(notes[0]), close(notes[1]);
        execlp(p->program, p->program, "check", (char *)NULL);
        _exit(127);
    }
    close(in[0]), close(notes[1]);
    p->in = in[1];
    p->notes = notes[0];
    return p;
}

static inline void evc_monitor_flush_(evc_monitor_program *p) {
    void (*before)(int) = signal(SIGPIPE, SIG_IGN); /* (it may have ended) */
    evc_write_all_(p->in, p->buffer, p->length);
    signal(SIGPIPE, before);
    p->length = 0;
}

/* Ends the program's text, and returns its status. */
static inline int evc_monitor_verdict_(evc_monitor_program *p) {
    size_t have = 0;
    ssize_t came;
    int status;
    p->has_ended = 1;
    memcpy(p->buffer + p->length, "end\n", 4);
    p->length += 4;
    evc_monitor_flush_(p);
    close(p->in);
    while (have + 1 < sizeof p->note &&
           (came = read(p->notes, p->note + have, sizeof p->note - 1 - have)) > 0)
        have += (size_t)came;
    close(p->notes);
    if (waitpid(p->child, &status, 0) != p->child || !WIFEXITED(status))
        return EVC_MONITOR_NO_VERDICT;
    status = WEXITSTATUS(status);
    if (status == 127)
        snprintf(p->note, sizeof p->note, "there is no program %.200s\n", p->program);
    return status == 0 || status == 1 ? status : EVC_MONITOR_NO_VERDICT;
}

/* Passes a line to the program. */
static inline int evc_monitor_by_program(void *state, const char *line, size_t length) {
    evc_monitor_program *p = (evc_monitor_program *)state;
    if (p->child < 0)
        return EVC_MONITOR_NO_VERDICT;
    if (p->has_ended)
        return 0;
    int is_end = length == 4 && memcmp(line, "end\n", 4) == 0;
    if (is_end || p->total + length + 4 > EVC_CALLS_TEXT_MAX)
        return evc_monitor_verdict_(p);
    if (p->length + length + 4 > sizeof p->buffer)
        evc_monitor_flush_(p);
    memcpy(p->buffer + p->length, line, length);
    p->length += length;
    p->total += length;
    return 0;
}

#ifdef EVC_H
/* A judge: the library's monitor. It rejects a line when it comes, and takes histories of any
 * length. One with calls of cells, databases, or buffers with several producers or consumers is
 * kept, and decided at its end. */
typedef struct evc_monitor_library {
    struct evc_monitor monitor;
    char note[EVC_NOTES_ROOM + 1]; /* why it judges no more */
} evc_monitor_library;

/* Opens the library's monitor. Returns what evc_monitor_by_library takes. */
static inline evc_monitor_library *evc_monitor_library_open(evc_monitor_library *l) {
    l->note[0] = 0;
    evc_monitor_open(&l->monitor);
    return l;
}

/* Passes a line to the library's monitor. */
static inline int evc_monitor_by_library(void *state, const char *line, size_t length) {
    evc_monitor_library *l = (evc_monitor_library *)state;
    int status = evc_monitor_line(&l->monitor, (const uint8_t *)line, length - 1);
    if (status == EVC_STATUS_DONE && length == 4 && memcmp(line, "end\n", 4) == 0)
        status = evc_monitor_end(&l->monitor);
    if (status == EVC_STATUS_DONE)
        return 0;
    l->note[evc_monitor_note(&l->monitor, (uint8_t *)l->note, EVC_NOTES_ROOM)] = 0;
    return status == EVC_STATUS_REFUSED ? 1 : EVC_MONITOR_NO_VERDICT;
}

/* Frees what the library's monitor has allocated, after the stop. */
static inline void evc_monitor_library_close(evc_monitor_library *l) {
    evc_monitor_close(&l->monitor);
}
#endif

#endif
