/* evc_record.h: records what a program does with its own eventcounts and sequencers, as a trace for
 * `evc check`.
 *
 * C11 and POSIX threads, this one header, nothing to link. docs/RECORDING.md shows how it is used.
 * Nothing of it is proved: what it has written is judged by `evc check`.
 *
 *     evc_record r;
 *     evc_open(&r, 1000000);              the limit of each component and each sequencer
 *     int a = evc_worker(&r, "a");        all workers, before the first step
 *     evc_declare(&r, "eventcount E signal a observe a");
 *
 *     evc_lock(&r);                       on the thread of worker a, around each atomic step
 *     atomic_fetch_add(&count, 1);
 *     evc_done(&r, a, "advance E");       writes the line, and releases the lock
 *
 *     enum evc_fault fault = evc_finish(&r, "my.trace");
 *     evc_close(&r);
 *
 * The first fault is kept; evc_first_fault returns it at any time. After it your steps go on,
 * unrecorded. If it came before the end, the text stays without its last line, so that `evc check`
 * calls it `unfinished`. The record is in memory until evc_finish: a program that crashes leaves
 * none. One that hangs leaves its trace so far by evc_watch or evc_write_so_far. Any thread may
 * make every call except evc_open and evc_close.
 */
#ifndef EVC_RECORD_H
#define EVC_RECORD_H

#include <pthread.h>
#include <sched.h>
#include <stdarg.h>
#include <stdint.h>
#include <stdio.h>
#include <stdlib.h>
#include <string.h>
#include <time.h>
#include <unistd.h>

/* What a trace may have. */
#define EVC_TRACE_MAX 67108864u
#define EVC_LINE_MAX 8192u
#define EVC_WORKERS_MAX 16

enum evc_fault {
    EVC_OK,
    EVC_UNKNOWN_WORKER,   /* a step of a worker that evc_worker has not given */
    EVC_TOO_MANY_WORKERS, /* more than 16 */
    EVC_TOO_LATE,  /* a worker or an object after the first step, or anything after evc_finish */
    EVC_BAD_LINE,  /* a line is too long, has a line feed, declares no object, or has no form */
    EVC_TOO_LARGE, /* the trace would have more than 67108864 bytes */
    EVC_NO_MEMORY,
    EVC_NOT_WRITTEN,   /* the file could not be opened, written or closed */
    EVC_BAD_NAME,      /* no name: a letter, and at most 15 letters, digits or underscores */
    EVC_RESERVED_WORD, /* the name is a reserved word */
    EVC_NAME_TAKEN     /* the name is that of another worker or object */
};

static inline const char *evc_fault_name(enum evc_fault fault) {
    static const char *const names[] = {"no fault",          "unknown worker", "too many workers",
                                        "declared too late", "bad line",       "too large",
                                        "no memory",         "not written",    "bad name",
                                        "reserved word",     "name taken"};
    return names[fault];
}

/* Bytes that grow. */
struct evc_text {
    char *bytes;
    size_t length, room;
};

typedef struct evc_record {
    pthread_mutex_t lock;
    enum evc_fault fault;
    int workers, steps_began, finished;
    unsigned long long limit;
    char names[EVC_WORKERS_MAX][32];
    struct evc_text objects, steps, whole;
    size_t heading; /* the bytes of the header and of the last line, without the objects */
    int at_gate;
    unsigned long long chance[EVC_WORKERS_MAX]; /* what the pauses of each worker come from */
    pthread_t watchdog;
    pthread_mutex_t watch_lock;
    pthread_cond_t watch_ends;
    int is_watched, watch_is_over, watch_seconds;
    char watch_path[256];
} evc_record;

static inline void evc_fail_(evc_record *r, enum evc_fault fault) {
    if (r->fault == EVC_OK)
        r->fault = fault;
}

static inline int evc_put_(evc_record *r, struct evc_text *text, const char *bytes, size_t length) {
    if (length == 0)
        return 1;
    if (text->room - text->length < length) {
        size_t room = text->room ? text->room * 2 : 65536;
        while (room - text->length < length)
            room *= 2;
        char *grown = (char *)realloc(text->bytes, room);
        if (!grown) {
            evc_fail_(r, EVC_NO_MEMORY);
            return 0;
        }
        text->bytes = grown;
        text->room = room;
    }
    memcpy(text->bytes + text->length, bytes, length);
    text->length += length;
    return 1;
}

/* Adds a line, with its line feed, if the trace has room for it. */
static inline void evc_line_(evc_record *r, struct evc_text *text, char *line, int length) {
    if (length < 0 || (unsigned)length > EVC_LINE_MAX || memchr(line, '\n', (size_t)length)) {
        evc_fail_(r, EVC_BAD_LINE);
        return;
    }
    if (r->heading + r->objects.length + r->steps.length + (size_t)length + 1 > EVC_TRACE_MAX) {
        evc_fail_(r, EVC_TOO_LARGE);
        return;
    }
    line[length] = '\n';
    evc_put_(r, text, line, (size_t)length + 1);
}

/* Chooses the pauses of evc_pause_between: the same ones for the same seed. */
static inline void evc_seed(evc_record *r, unsigned long long seed) {
    for (int i = 0; i < EVC_WORKERS_MAX; i++)
        r->chance[i] = (seed + 1) * 0x9E3779B97F4A7C15u ^ (unsigned)(i + 1) * 0xD1B54A32D192ED03u;
}

/* Begins a record. The limit is that of each component and each sequencer, from 1 to
 * 281474976710655: the trace has version 2. */
static inline void evc_open(evc_record *r, unsigned long long limit) {
    char digits[24];
    memset(r, 0, sizeof *r);
    pthread_mutex_init(&r->lock, NULL);
    pthread_mutex_init(&r->watch_lock, NULL);
    pthread_cond_init(&r->watch_ends, NULL);
    evc_seed(r, 0);
    r->limit = limit;
    r->heading = strlen("evc-trace 2\nlimit \nworkers\nrun\nend\n");
    r->heading += (size_t)snprintf(digits, sizeof digits, "%llu", limit);
}

/* Returns what is wrong with the form of a name: of a word with so many bytes. */
static inline enum evc_fault evc_name_fault_(const char *name, size_t length) {
    static const char reserved[] =
        " advance await both buffer cells consume database done end eventcount get go hand last "
        "limit "
        "observe p pboth pending produce put read repeat run schedule semaphore sequencer signal "
        "snapshot take ticket use v worker workers write ";
    char word[20] = " ";
    if (length < 1 || length > 16)
        return EVC_BAD_NAME;
    for (size_t i = 0; i < length; i++) {
        int is_letter = (name[i] >= 'a' && name[i] <= 'z') || (name[i] >= 'A' && name[i] <= 'Z');
        int is_rest = (name[i] >= '0' && name[i] <= '9') || name[i] == '_';
        if (!is_letter && (i == 0 || !is_rest))
            return EVC_BAD_NAME;
    }
    memcpy(word + 1, name, length);
    word[length + 1] = ' ';
    return strstr(reserved, word) ? EVC_RESERVED_WORD : EVC_OK;
}

/* Returns the name of what a line declares, and its length: for `both` the line itself. Returns
 * NULL if it declares nothing. */
static inline const char *evc_declared_(const char *line, size_t *length) {
    static const char *const kinds[] = {"eventcount ", "sequencer ", "cells ",
                                        "buffer ",     "database ",  "semaphore "};
    for (size_t i = 0; i < sizeof kinds / sizeof *kinds; i++) {
        size_t kind = strlen(kinds[i]);
        if (strncmp(line, kinds[i], kind) == 0) {
            *length = strcspn(line + kind, " \n");
            return line + kind;
        }
    }
    *length = strlen("both");
    return strncmp(line, "both use ", 9) == 0 ? line : NULL;
}

/* Returns whether a worker or an object has this name. */
static inline int evc_is_taken_(const evc_record *r, const char *name, size_t length) {
    const char *line = r->objects.bytes;
    for (int i = 0; i < r->workers; i++)
        if (strlen(r->names[i]) == length && memcmp(r->names[i], name, length) == 0)
            return 1;
    while (line && line < r->objects.bytes + r->objects.length) {
        size_t other = 0;
        const char *object = evc_declared_(line, &other);
        if (object && other == length && memcmp(object, name, length) == 0)
            return 1;
        line =
            (const char *)memchr(line, '\n', (size_t)(r->objects.bytes + r->objects.length - line));
        line = line ? line + 1 : NULL;
    }
    return 0;
}

/* Declares a worker, and returns the number by which its steps name it, or -1 if there was a
 * fault. */
static inline int evc_worker(evc_record *r, const char *name) {
    int worker = -1;
    size_t length = strlen(name);
    pthread_mutex_lock(&r->lock);
    enum evc_fault fault = evc_name_fault_(name, length);
    if (r->steps_began || r->finished)
        fault = EVC_TOO_LATE;
    else if (r->workers == EVC_WORKERS_MAX)
        fault = EVC_TOO_MANY_WORKERS;
    else if (fault == EVC_OK && evc_is_taken_(r, name, length))
        fault = EVC_NAME_TAKEN;
    if (fault == EVC_OK) {
        worker = r->workers++;
        strcpy(r->names[worker], name);
        r->heading += length + 1;
    } else
        evc_fail_(r, fault);
    pthread_mutex_unlock(&r->lock);
    return worker;
}

/* Declares objects, by a line of docs/REFERENCE.md, as "sequencer T take a b". Returns what is wrong
 * with it. The workers and numbers in it are not checked. */
static inline enum evc_fault evc_declare(evc_record *r, const char *declaration) {
    char line[EVC_LINE_MAX + 2];
    size_t length = 0;
    const char *object = evc_declared_(declaration, &length);
    enum evc_fault fault = !object                 ? EVC_BAD_LINE
                           : object == declaration ? EVC_OK
                                                   : evc_name_fault_(object, length);
    pthread_mutex_lock(&r->lock);
    if (r->steps_began || r->finished)
        fault = EVC_TOO_LATE;
    else if (fault == EVC_OK && evc_is_taken_(r, object, length))
        fault = EVC_NAME_TAKEN;
    if (fault != EVC_OK)
        evc_fail_(r, fault);
    if (r->fault == EVC_OK) {
        evc_line_(r, &r->objects, line, snprintf(line, sizeof line, "%s", declaration));
        fault = r->fault;
    }
    pthread_mutex_unlock(&r->lock);
    return fault;
}

/* Returns the first fault so far. */
static inline enum evc_fault evc_first_fault(evc_record *r) {
    pthread_mutex_lock(&r->lock);
    enum evc_fault fault = r->fault;
    pthread_mutex_unlock(&r->lock);
    return fault;
}

/* Waits until so many threads are here, so that they begin their first steps at once. It can be used
 * again. */
static inline void evc_gate(evc_record *r, int threads) {
    pthread_mutex_lock(&r->lock);
    int all = (r->at_gate / threads + 1) * threads, here = ++r->at_gate;
    pthread_mutex_unlock(&r->lock);
    while (here < all) {
        sched_yield();
        pthread_mutex_lock(&r->lock);
        here = r->at_gate;
        pthread_mutex_unlock(&r->lock);
    }
}

/* Pauses between two steps of a worker, by chance: not at all, for a moment, or until others ran.
 */
static inline void evc_pause_between(evc_record *r, int worker) {
    if (worker < 0 || worker >= EVC_WORKERS_MAX)
        return;
    unsigned long long *chance = &r->chance[worker];
    *chance ^= *chance << 13;
    *chance ^= *chance >> 7;
    *chance ^= *chance << 17;
    if (*chance >> 60 < 4)
        for (unsigned i = (unsigned)(*chance >> 32) % 8000; i > 0; i--)
            __asm__ __volatile__("" ::: "memory");
    else if (*chance >> 60 < 6)
        sched_yield();
}

/* Takes the lock for one atomic step. One of the three calls below releases it. */
static inline void evc_lock(evc_record *r) { pthread_mutex_lock(&r->lock); }

static inline void evc_step_(evc_record *r, int worker, const char *reply, const char *act,
                             va_list more) {
    char line[EVC_LINE_MAX + 2];
    r->steps_began = 1;
    if (r->finished)
        evc_fail_(r, EVC_TOO_LATE);
    else if (worker < 0 || worker >= r->workers)
        evc_fail_(r, EVC_UNKNOWN_WORKER);
    if (r->fault == EVC_OK) {
        int begun = snprintf(line, sizeof line, "%s ", r->names[worker]);
        int asked = vsnprintf(line + begun, sizeof line - (size_t)begun, act, more);
        int length = -1;
        if (asked >= 0 && (size_t)(begun + asked) < sizeof line) {
            size_t left = sizeof line - (size_t)(begun + asked);
            length = begun + asked + snprintf(line + begun + asked, left, " = %s", reply);
        }
        evc_line_(r, &r->steps, line, length);
    }
    pthread_mutex_unlock(&r->lock);
}

#if defined(__GNUC__)
#define EVC_FORMAT_(at) __attribute__((format(printf, at, at + 1)))
#else
#define EVC_FORMAT_(at)
#endif

/* The step was an advance, a put or a hand. The act is a format, as in evc_done(&r, w, "put X[%d]
 * %d", i, v). */
EVC_FORMAT_(3) static inline void evc_done(evc_record *r, int worker, const char *act, ...) {
    va_list more;
    va_start(more, act);
    evc_step_(r, worker, "done", act, more);
    va_end(more);
}

/* The step did not end the read or await: a component is left, or the sum is below the threshold.
 */
EVC_FORMAT_(3) static inline void evc_pending(evc_record *r, int worker, const char *act, ...) {
    va_list more;
    va_start(more, act);
    evc_step_(r, worker, "pending", act, more);
    va_end(more);
}

/* The step returned a number: the sum of a read or an await at its last step, a ticket, or the
 * value of a get. */
EVC_FORMAT_(4)
static inline void evc_number(evc_record *r, int worker, unsigned long long number, const char *act,
                              ...) {
    char reply[24];
    va_list more;
    snprintf(reply, sizeof reply, "%llu", number);
    va_start(more, act);
    evc_step_(r, worker, reply, act, more);
    va_end(more);
}

/* Makes the trace of the steps so far, with its last line if there was no fault. */
static inline void evc_make_whole_(evc_record *r) {
    char line[64];
    r->whole.length = 0;
    snprintf(line, sizeof line, "evc-trace 2\nlimit %llu\nworkers", r->limit);
    int fits = evc_put_(r, &r->whole, line, strlen(line));
    for (int i = 0; fits && i < r->workers; i++)
        fits = evc_put_(r, &r->whole, " ", 1) &&
               evc_put_(r, &r->whole, r->names[i], strlen(r->names[i]));
    fits = fits && evc_put_(r, &r->whole, "\n", 1) &&
           evc_put_(r, &r->whole, r->objects.bytes, r->objects.length);
    fits = fits && evc_put_(r, &r->whole, "run\n", 4) &&
           evc_put_(r, &r->whole, r->steps.bytes, r->steps.length);
    if (fits && r->fault == EVC_OK)
        evc_put_(r, &r->whole, "end\n", 4);
}

/* Ends the record, and returns the bytes of the trace, which stay until evc_close. If there was a
 * fault, it is returned: the bytes are those up to it, without the last line, or the whole trace if
 * the fault came after the end. The pointer may be NULL if the fault is EVC_NO_MEMORY. */
static inline enum evc_fault evc_finish_bytes(evc_record *r, const char **bytes, size_t *length) {
    pthread_mutex_lock(&r->lock);
    if (!r->finished) {
        r->finished = 1;
        evc_make_whole_(r);
    }
    *bytes = r->whole.bytes;
    *length = r->whole.length;
    enum evc_fault fault = r->fault;
    pthread_mutex_unlock(&r->lock);
    return fault;
}

/* Writes bytes into a file, and returns whether all of them were. */
static inline int evc_file_(const char *path, const char *bytes, size_t length) {
    FILE *file = fopen(path, "wb");
    int written = file && fwrite(bytes, 1, length, file) == length;
    if (file && fclose(file) != 0)
        written = 0;
    return written;
}

/* Ends the record, and writes the trace into a file. Returns the first fault, or EVC_NOT_WRITTEN if
 * there was none but this file was not written: then it may be tried again. */
static inline enum evc_fault evc_finish(evc_record *r, const char *path) {
    const char *bytes;
    size_t length;
    enum evc_fault fault = evc_finish_bytes(r, &bytes, &length);
    int written = evc_file_(path, bytes, length);
    return fault == EVC_OK && !written ? EVC_NOT_WRITTEN : fault;
}

/* Writes the trace of the steps so far, and lets the record go on: of a program that hangs. If a
 * thread hangs with the lock, it is read all the same. */
static inline enum evc_fault evc_write_so_far(evc_record *r, const char *path) {
    int tries = 0, is_locked = 0;
    while (!is_locked && tries++ < 100000) {
        is_locked = pthread_mutex_trylock(&r->lock) == 0;
        if (!is_locked)
            sched_yield();
    }
    if (!r->finished)
        evc_make_whole_(r);
    enum evc_fault fault = r->fault;
    int written = evc_file_(path, r->whole.bytes, r->whole.length);
    if (is_locked)
        pthread_mutex_unlock(&r->lock);
    return fault == EVC_OK && !written ? EVC_NOT_WRITTEN : fault;
}

static inline void *evc_record_watch_(void *given);

/* Watches the record from now on, until evc_close. If no step was recorded for so many seconds, the
 * trace so far is written into a file, and the program ends with status 5. Returns whether it
 * watches. */
static inline int evc_watch(evc_record *r, int seconds, const char *path) {
    if (r->is_watched || seconds < 1 || strlen(path) >= sizeof r->watch_path)
        return 0;
    r->watch_seconds = seconds;
    strcpy(r->watch_path, path);
    r->is_watched = pthread_create(&r->watchdog, NULL, evc_record_watch_, r) == 0;
    return r->is_watched;
}

/* Returns how many bytes the steps have, or 0 if the lock is held. */
static inline size_t evc_steps_(evc_record *r) {
    size_t length = 0;
    if (pthread_mutex_trylock(&r->lock) == 0) {
        length = r->steps.length;
        pthread_mutex_unlock(&r->lock);
    }
    return length;
}

static inline void *evc_record_watch_(void *given) {
    evc_record *r = (evc_record *)given;
    size_t before = 0;
    time_t since = time(NULL);
    pthread_mutex_lock(&r->watch_lock);
    while (!r->watch_is_over) {
        struct timespec until;
        until.tv_sec = time(NULL) + 1;
        until.tv_nsec = 0;
        pthread_cond_timedwait(&r->watch_ends, &r->watch_lock, &until);
        size_t steps = evc_steps_(r);
        if (steps > before) {
            before = steps;
            since = time(NULL);
        } else if (time(NULL) - since > r->watch_seconds && !r->watch_is_over) {
            enum evc_fault fault = evc_write_so_far(r, r->watch_path);
            fprintf(stderr, "hung: no step for %d s; the trace is in %s: %s\n", r->watch_seconds,
                    r->watch_path, evc_fault_name(fault));
            fflush(stderr);
            _exit(5);
        }
    }
    pthread_mutex_unlock(&r->watch_lock);
    return NULL;
}

/* Frees the record's memory. No other call may be running then. */
static inline void evc_close(evc_record *r) {
    if (r->is_watched) {
        pthread_mutex_lock(&r->watch_lock);
        r->watch_is_over = 1;
        pthread_cond_signal(&r->watch_ends);
        pthread_mutex_unlock(&r->watch_lock);
        pthread_join(r->watchdog, NULL);
    }
    free(r->objects.bytes);
    free(r->steps.bytes);
    free(r->whole.bytes);
    pthread_mutex_destroy(&r->lock);
    pthread_mutex_destroy(&r->watch_lock);
    pthread_cond_destroy(&r->watch_ends);
}

#endif
