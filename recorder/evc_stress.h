/* evc_stress.h: many short rounds of threads on fresh objects, each judged.
 *
 * C11 or C++17, gcc or clang, POSIX threads, with evc_calls.h. Nothing of it is proved: a history
 * is right or wrong because the judge says so.
 *
 *     #include "evc.h"                                        the library judges, in this process:
 *     #include "evc_stress.h"                                 link it, as cc my_test.c libevc.a
 *
 *     static void fresh(void *mine) { .. }                    makes the eventcount new
 *     static void advance(void *mine) { .. }
 *     static uint64_t read(void *mine) { .. }
 *     static uint64_t await(void *mine, uint64_t threshold) { .. }
 *
 *     evc_stress s = {.fresh = fresh, .advance = advance, .read = read, .await = await};
 *     return evc_stress_says(&s, evc_stress_run(&s));
 *
 * (In C++ set its fields one after another, as their order counts there.)
 *
 * JUDGES. If evc.h is not included before it, the judge is the program `evc-calls`, found on PATH
 * or by the variable EVC_CALLS. Or set `judge`: evc_stress_by_library, evc_stress_by_program, or a
 * function of yours.
 *
 * SHAPES. EVC_STRESS_MIXED: half of the threads (`producers`) advance and read, the others read and
 * await. EVC_STRESS_RING: each thread awaits its turn and advances, so every wake-up is needed.
 * EVC_STRESS_QUEUE, with `produce`, `consume` and `capacity`: the producers produce, ten items each
 * with numbers of their own, and the others consume as many. Either both may give up, or neither.
 * For other objects give `declare` and `work` in place of these functions.
 *
 * All threads spin at a gate and start at once, and pause by chance between calls. The same seed
 * gives the same pauses; how the threads interleave is up to the machine. It stops at the first
 * history that is wrong or hung, and keeps it as the file `keep`, with its note in `keep`.note. If
 * there is none, but some round is not decided, the first of these is kept: there is no verdict. A
 * pass says little if few calls overlapped: `overlap` is how many calls of others were pending when
 * one was called, on average. Below 0.3 a pass is called weak. */
#ifndef EVC_STRESS_H
#define EVC_STRESS_H

#include "evc_calls.h"
#include <dirent.h>
#include <signal.h>
#include <sys/wait.h>

/* Judges a history, or several, one after another. Returns 0 if each is linearizable, 1 if one is
 * not, 5 if one is not decided, and otherwise a status without a verdict. The note is lines, ended
 * by 0: why, or remarks. */
typedef int (*evc_judge)(const char *text, size_t length, char *note, size_t room);

/* Writes a text to the judge's input, and reads its notes. */
static inline void evc_judge_talk_(int in, int notes, const char *text, size_t length, char *note,
                                   size_t room) {
    void (*before)(int) = signal(SIGPIPE, SIG_IGN); /* (it may have seen enough) */
    evc_write_all_(in, text, length);
    close(in);
    signal(SIGPIPE, before);
    size_t have = 0;
    ssize_t came;
    char rest[256];
    while ((came = read(notes, rest, sizeof rest)) > 0)
        for (ssize_t i = 0; i < came && have + 1 < room; i++)
            note[have++] = rest[i];
    note[have] = 0;
    close(notes);
}

/* Judges by `evc-calls check`, a process of its own: the program in EVC_CALLS, or on PATH. */
static inline int evc_stress_by_program(const char *text, size_t length, char *note, size_t room) {
    const char *program = getenv("EVC_CALLS") ? getenv("EVC_CALLS") : "evc-calls";
    int in[2], notes[2], status;
    if (pipe(in) != 0 || pipe(notes) != 0)
        return snprintf(note, room, "no pipe\n"), 4;
    pid_t child = fork();
    if (child == 0) {
        dup2(in[0], 0), dup2(open("/dev/null", O_WRONLY), 1), dup2(notes[1], 2);
        close(in[0]), close(in[1]), close(notes[0]), close(notes[1]);
        execlp(program, program, "check", (char *)NULL);
        _exit(127);
    }
    close(in[0]), close(notes[1]);
    evc_judge_talk_(in[1], notes[0], text, length, note, room);
    if (child < 0 || waitpid(child, &status, 0) != child || !WIFEXITED(status))
        return snprintf(note, room, "the judge was stopped\n"), 4;
    if (WEXITSTATUS(status) == 127)
        snprintf(note, room, "there is no program %.200s: %s\n", program,
                 "set EVC_CALLS, or include evc.h first and link libevc");
    return WEXITSTATUS(status);
}

#ifdef EVC_H
/* Judges by evc_calls_check of the library, in this process. */
static inline int evc_stress_by_library(const char *text, size_t length, char *note, size_t room) {
    const char *at = text, *end = text + length, *line;
    size_t histories = 0;
    for (; at < end && (line = (const char *)memchr(at, '\n', (size_t)(end - at))); at = line + 1)
        histories += line - at == 3 && memcmp(at, "run", 3) == 0;
    struct evc_written written = {0, 0};
    size_t order_room = EVC_CALLS_ROOM(length, histories + 1);
    uint8_t *order = (uint8_t *)malloc(order_room);
    if (!order)
        return snprintf(note, room, "no memory\n"), EVC_STATUS_NO_MEMORY;
    int status = evc_calls_check((const uint8_t *)text, length, order, order_room, (uint8_t *)note,
                                 room - 1, &written);
    note[written.notes] = 0;
    free(order);
    return status;
}
#endif

/* The judge if none is given. */
#ifndef EVC_STRESS_JUDGE
#ifdef EVC_H
#define EVC_STRESS_JUDGE evc_stress_by_library
#else
#define EVC_STRESS_JUDGE evc_stress_by_program
#endif
#endif

/* Where the pauses and choices of a thread come from. */
typedef struct evc_chance {
    uint64_t state;
} evc_chance;

static inline uint64_t evc_chance_below(evc_chance *chance, uint64_t bound) {
    chance->state ^= chance->state << 13;
    chance->state ^= chance->state >> 7;
    chance->state ^= chance->state << 17;
    return (chance->state >> 11) % bound;
}

/* Does nothing for a while. */
static inline void evc_spin_(uint64_t turns) {
    for (uint64_t i = 0; i < 4 * turns; i++)
        EVC_BARRIER_();
}

/* Pauses: usually not at all, now and then for a moment, until others ran, or asleep. */
static inline void evc_chance_pause(evc_chance *chance) {
    uint64_t kind = evc_chance_below(chance, 64);
    if (kind < 16)
        evc_spin_(evc_chance_below(chance, 100));
    else if (kind < 20)
        sched_yield();
    else if (kind == 20)
        evc_nap_(1000);
}

/* What an await returns, other than the count, and a consume, other than an item. */
#define EVC_STRESS_DONE UINT64_MAX
#define EVC_STRESS_TIMEOUT (UINT64_MAX - 1)

enum evc_stress_shape { EVC_STRESS_MIXED, EVC_STRESS_RING, EVC_STRESS_QUEUE };

/* The numbers are the statuses of evc_stress_says. */
enum evc_stress_result {
    EVC_STRESS_PASSED = 0,
    EVC_STRESS_REFUSED = 1,
    EVC_STRESS_NO_RECORD = 2,  /* nothing could be recorded, or a worker had no room */
    EVC_STRESS_NO_VERDICT = 3, /* the judge has none */
    EVC_STRESS_HUNG = 5
};

struct evc_stress;
typedef struct evc_hand_ {
    struct evc_stress *of;
    evc_caller *worker;
    int number;
    evc_chance chance;
} evc_hand_;

typedef struct evc_stress {
    /* To be set. 0 or NULL means what is in brackets. */
    int threads;   /* at most 16 [4] */
    int rounds;    /* [1000] */
    int room;      /* for the calls of a thread in a round [64] */
    int batch;     /* so many rounds are judged together [20 by the program, otherwise 1] */
    int producers; /* so many threads advance, in mixed rounds, or produce [half, rounded up] */
    int capacity;  /* so many items may be in the queue */
    uint64_t seed;
    double hang_seconds; /* without an invocation or a response [10]; it waits longer for threads
                            that the machine has not given their turn */
    const char *keep;    /* the file for a wrong history ["refused.calls"] */
    const char *file;    /* keeps the record of the round, should the program die: for recover.c */
    enum evc_calls_clock clock;
    enum evc_stress_shape shape;
    evc_judge judge; /* [EVC_STRESS_JUDGE] */
    void *mine;      /* is given to the functions below */
    void (*fresh)(void *mine);
    void (*advance)(void *mine);
    uint64_t (*read)(void *mine);
    uint64_t (*await)(void *mine, uint64_t threshold);
    int (*produce)(void *mine, uint64_t item); /* returns 0 if it gave up */
    uint64_t (*consume)(void *mine);
    void (*declare)(void *mine, evc_calls *record);
    void (*work)(void *mine, evc_caller *worker, int number, evc_chance *chance);
    /* The results. */
    int round;     /* the last one, from 1 */
    int undecided; /* so many rounds are not decided */
    uint64_t calls;
    double overlap, seconds;
    int is_kept; /* a wrong history is in the file `keep` */
    char note[4096];
    /* Its own. */
    evc_calls record;
    evc_hand_ hand[EVC_CALLS_WORKERS];
    pthread_t thread[EVC_CALLS_WORKERS];
    int object;
    char before_[128];
    uint64_t begun, ready, left, ends;
    char after_[128];
    evc_sink_ texts;
    size_t *starts;
    int waiting; /* rounds that are not judged so far */
    uint64_t overlaps, lines;
} evc_stress;

/* The shapes. */

static inline void evc_stress_advance_(evc_stress *s, evc_caller *w) {
    evc_call_advance(w, s->object);
    s->advance(s->mine);
    evc_return_done(w);
}

static inline uint64_t evc_stress_read_(evc_stress *s, evc_caller *w) {
    evc_call_read(w, s->object);
    uint64_t count = s->read(s->mine);
    evc_return_number(w, count);
    return count;
}

/* Awaits a count, and returns what the count then is at least. */
static inline uint64_t evc_stress_await_(evc_stress *s, evc_caller *w, uint64_t threshold) {
    evc_call_await(w, s->object, threshold);
    uint64_t count = s->await(s->mine, threshold);
    if (count == EVC_STRESS_DONE)
        evc_return_done(w);
    else if (count == EVC_STRESS_TIMEOUT)
        evc_return_timeout(w);
    else
        evc_return_number(w, count);
    return count < EVC_STRESS_TIMEOUT ? count : threshold;
}

/* Advances six times in ten calls, or reads and awaits what is to come. */
static inline void evc_stress_mixed_(evc_stress *s, evc_hand_ *h) {
    uint64_t producers = (uint64_t)s->producers, total = 6 * producers, left = 6, last = 0;
    for (uint64_t calls = 10; calls > 0; calls--) {
        evc_chance_pause(&h->chance);
        uint64_t by_chance = evc_chance_below(&h->chance, calls);
        if ((uint64_t)h->number < producers && by_chance < left) {
            left--;
            evc_stress_advance_(s, h->worker);
        } else if ((uint64_t)h->number < producers || by_chance % 2 == 0 || !s->await)
            last = evc_stress_read_(s, h->worker);
        else {
            uint64_t threshold = last + 1 + evc_chance_below(&h->chance, 2);
            last = evc_stress_await_(s, h->worker, threshold < total ? threshold : total);
        }
    }
}

/* Awaits its turn ten times, and then lets the next one in. */
static inline void evc_stress_ring_(evc_stress *s, evc_hand_ *h) {
    for (int lap = 0; lap < 10; lap++) {
        evc_stress_await_(s, h->worker, (uint64_t)(lap * s->threads + h->number));
        if (evc_chance_below(&h->chance, 2))
            evc_spin_(evc_chance_below(&h->chance, 3000));
        evc_stress_advance_(s, h->worker);
    }
}

static inline void evc_stress_produce_(evc_stress *s, evc_caller *w, uint64_t item) {
    evc_call_produce(w, s->object, item);
    if (s->produce(s->mine, item))
        evc_return_done(w);
    else
        evc_return_timeout(w);
}

static inline void evc_stress_consume_(evc_stress *s, evc_caller *w) {
    evc_call_consume(w, s->object);
    uint64_t item = s->consume(s->mine);
    if (item == EVC_STRESS_TIMEOUT)
        evc_return_timeout(w);
    else
        evc_return_number(w, item);
}

/* Produces ten items, or consumes a share of all. */
static inline void evc_stress_queue_(evc_stress *s, evc_hand_ *h) {
    int others = s->threads - s->producers, place = h->number - s->producers;
    int total = 10 * s->producers, produces = place < 0;
    int calls = produces ? 10 : total * (place + 1) / others - total * place / others;
    for (int k = 0; k < calls; k++) {
        evc_chance_pause(&h->chance);
        if (produces)
            evc_stress_produce_(s, h->worker, (uint64_t)(100 * h->number + 100 + k));
        else
            evc_stress_consume_(s, h->worker);
    }
}

/* The threads. */

/* Waits for a round, and then for the other threads, spinning. The last one that comes lets all go.
 * If each thread can have a processor, it spins for long, so that all start at once even on a
 * machine with other work. Returns 0 at the end. */
static inline int evc_stress_gate_(evc_stress *s, uint64_t round) {
    int spins = 0;
    while (__atomic_load_n(&s->begun, __ATOMIC_ACQUIRE) != round) {
        if (__atomic_load_n(&s->ends, __ATOMIC_ACQUIRE))
            return 0;
        if (++spins > 2000)
            evc_nap_(20000);
    }
    uint64_t all = round * (uint64_t)s->threads;
    uint64_t here = __atomic_add_fetch(&s->ready, 1, __ATOMIC_ACQ_REL);
    int most = s->threads <= sysconf(_SC_NPROCESSORS_ONLN) ? 1000000 : 20000;
    for (spins = 0; here < all; here = __atomic_load_n(&s->ready, __ATOMIC_ACQUIRE))
        if (++spins % most == 0)
            sched_yield();
    return 1;
}

/* Moves a thread to the next processor in turn, from which it may be moved to others: threads that
 * were started on one would stay there for long. */
static inline void evc_stress_spread_(int number) {
    unsigned long mask[EVC_MASK_WORDS_];
    uint64_t count = 0, turn;
    memset(mask, 0, sizeof mask);
    if (!evc_affinity_(0, mask, sizeof mask))
        return;
    for (uint64_t i = 0; i < EVC_MASK_WORDS_ * EVC_MASK_BITS_; i++)
        count += mask[i / EVC_MASK_BITS_] >> i % EVC_MASK_BITS_ & 1;
    turn = count ? (uint64_t)number % count : 0;
    for (uint64_t i = 0; i < EVC_MASK_WORDS_ * EVC_MASK_BITS_; i++)
        if ((mask[i / EVC_MASK_BITS_] >> i % EVC_MASK_BITS_ & 1) && turn-- == 0)
            evc_pin_(i);
    evc_affinity_(1, mask, sizeof mask);
}

static inline void *evc_stress_main_(void *given) {
    evc_hand_ *h = (evc_hand_ *)given;
    evc_stress *s = h->of;
    evc_stress_spread_(h->number);
    for (uint64_t round = 1; evc_stress_gate_(s, round); round++) {
        if (s->work)
            s->work(s->mine, h->worker, h->number, &h->chance);
        else if (s->shape == EVC_STRESS_RING)
            evc_stress_ring_(s, h);
        else if (s->shape == EVC_STRESS_QUEUE)
            evc_stress_queue_(s, h);
        else
            evc_stress_mixed_(s, h);
        __atomic_sub_fetch(&s->left, 1, __ATOMIC_ACQ_REL);
    }
    return NULL;
}

/* What a look at the threads of this process saw: of each, how long it has run, in ticks of 10 ms,
 * and how often it was given a processor. */
#define EVC_LOOK_THREADS_ 256
typedef struct evc_look_ {
    long thread[EVC_LOOK_THREADS_];
    unsigned long ticks[EVC_LOOK_THREADS_], turns[EVC_LOOK_THREADS_];
    int count;
} evc_look_;

/* Reads a file of a thread, as text. */
static inline void evc_thread_file_(const char *thread, const char *name, char *text, size_t room) {
    char path[64];
    snprintf(path, sizeof path, "/proc/self/task/%.20s/%s", thread, name);
    int file = open(path, O_RDONLY);
    ssize_t length = file < 0 ? -1 : read(file, text, room - 1);
    if (file >= 0)
        close(file);
    text[length < 0 ? 0 : length] = 0;
}

/* Returns whether a thread is ready to run, how long it has run and how often. */
static inline int evc_thread_runs_(const char *thread, unsigned long *ticks, unsigned long *turns) {
    char text[512];
    unsigned long user = 0, system = 0;
    evc_thread_file_(thread, "schedstat", text, sizeof text);
    sscanf(text, "%*u %*u %lu", turns);
    evc_thread_file_(thread, "stat", text, sizeof text);
    const char *state = strrchr(text, ')');
    if (!state || strlen(state) < 3)
        return 0;
    sscanf(state + 3, "%*d %*d %*d %*d %*d %*u %*u %*u %*u %*u %lu %lu", &user, &system);
    *ticks = user + system;
    return state[2] == 'R';
}

/* Looks at all threads but the calling one. Returns how many are ready to run and have hardly run
 * since the look before: a machine with other work has not given them their turn. (On Linux, else
 * 0.) */
static inline int evc_starved_(evc_look_ *look) {
    evc_look_ before = *look;
    int starved = 0;
#ifdef __linux__
    DIR *folder = opendir("/proc/self/task");
    look->count = 0;
    for (struct dirent *it; folder && (it = readdir(folder)) && look->count < EVC_LOOK_THREADS_;) {
        unsigned long ticks = 0, turns = 0;
        long thread = atol(it->d_name);
        if (thread == 0 || thread == syscall(SYS_gettid))
            continue;
        int is_ready = evc_thread_runs_(it->d_name, &ticks, &turns), has_run = 0;
        for (int i = 0; i < before.count; i++)
            has_run |= before.thread[i] == thread &&
                       (ticks >= before.ticks[i] + 2 || turns >= before.turns[i] + 20);
        starved += is_ready && !has_run;
        look->thread[look->count] = thread;
        look->turns[look->count] = turns;
        look->ticks[look->count++] = ticks;
    }
    if (folder)
        closedir(folder);
#else
    (void)before, (void)look;
#endif
    return starved;
}

/* How often a round is given more time for threads that have not run. */
#define EVC_STRESS_PATIENCE_ 40

/* Lets the threads do one round. Returns whether it hung. */
static inline int evc_stress_round_(evc_stress *s) {
    int is_pending;
    evc_calls_clear(&s->record);
    if (s->fresh)
        s->fresh(s->mine);
    __atomic_store_n(&s->left, (uint64_t)s->threads, __ATOMIC_RELEASE);
    __atomic_store_n(&s->begun, (uint64_t)s->round, __ATOMIC_RELEASE);
    uint64_t before = 0, since = evc_nanoseconds_(), idle = 0;
    uint64_t half = (uint64_t)(s->hang_seconds * 5e8);
    evc_look_ look;
    look.count = 0;
    for (int looks = 0; __atomic_load_n(&s->left, __ATOMIC_ACQUIRE) > 0;) {
        evc_nap_(20000);
        uint64_t moves = evc_calls_moves_(&s->record, &is_pending);
        uint64_t lapse = evc_lapse_(&since, 10000000);
        idle = moves == before ? idle + lapse : 0;
        looks = moves == before ? looks : 0;
        before = moves;
        if (idle <= half)
            continue;
        int starved = evc_starved_(&look);
        if (looks > 0 && (starved == 0 || looks > EVC_STRESS_PATIENCE_))
            return 1;
        looks++;
        idle = 0;
    }
    return 0;
}

/* The verdict. */

static inline enum evc_stress_result evc_stress_no_(evc_stress *s, enum evc_stress_result result,
                                                    const char *why) {
    snprintf(s->note, sizeof s->note, "%s\n", why);
    return result;
}

/* Writes bytes into a file. */
static inline int evc_stress_write_(const char *path, const char *bytes, size_t length) {
    int file = open(path, O_WRONLY | O_CREAT | O_TRUNC, 0644);
    int is_written = file >= 0 && evc_write_all_(file, bytes, length);
    if (file >= 0 && close(file) != 0)
        is_written = 0;
    return is_written;
}

/* Keeps a history, with its note: on standard error, if its file can't be written. */
static inline void evc_stress_keep_(evc_stress *s, const char *text, size_t length) {
    char path[512];
    int fits = snprintf(path, sizeof path, "%s.note", s->keep) < (int)sizeof path;
    s->is_kept = evc_stress_write_(s->keep, text, length) && fits &&
                 evc_stress_write_(path, s->note, strlen(s->note));
    if (!s->is_kept) {
        fprintf(stderr, "could not write %s and its note, so here it is\n", s->keep);
        fflush(stderr);
        evc_write_all_(2, text, length);
    }
}

/* Finds the first wrong one of the histories that wait for a verdict, and keeps it. Of those that
 * are not decided the first of all rounds is kept. */
static inline enum evc_stress_result evc_stress_find_(evc_stress *s) {
    int undecided = s->undecided;
    for (int i = 0; i < s->waiting; i++) {
        size_t end = i + 1 < s->waiting ? s->starts[i + 1] : s->texts.length;
        const char *text = s->texts.bytes + s->starts[i];
        int status = s->judge(text, end - s->starts[i], s->note, sizeof s->note);
        if (status == 0 || (status == 5 && s->undecided++ > 0))
            continue;
        evc_stress_keep_(s, text, end - s->starts[i]);
        if (status == 5)
            continue;
        s->round -= s->waiting - 1 - i;
        return status == 1 ? EVC_STRESS_REFUSED : EVC_STRESS_NO_VERDICT;
    }
    s->note[0] = 0;
    if (s->undecided > undecided)
        return EVC_STRESS_PASSED;
    return evc_stress_no_(s, EVC_STRESS_NO_VERDICT, "the judge refuses them together only");
}

/* Judges the histories that wait for a verdict. If none is wrong, the note has the judge's remarks.
 */
static inline enum evc_stress_result evc_stress_judge_(evc_stress *s) {
    enum evc_stress_result result = EVC_STRESS_PASSED;
    s->note[0] = 0;
    if (s->waiting > 0 && s->judge(s->texts.bytes, s->texts.length, s->note, sizeof s->note) != 0)
        result = evc_stress_find_(s);
    s->waiting = 0;
    s->texts.length = 0;
    s->texts.total = 0;
    return result;
}

/* Adds the text of the round to those that wait, up to a stamp. */
static inline enum evc_stress_result evc_stress_text_(evc_stress *s, uint64_t cut,
                                                      evc_pass_ *pass) {
    s->starts[s->waiting++] = s->texts.length;
    evc_put_history_(&s->texts, pass, &s->record, cut);
    s->calls += pass->calls;
    s->overlaps += pass->overlaps;
    if (s->texts.has_failed)
        return evc_stress_no_(s, EVC_STRESS_NO_RECORD, "no memory");
    if (pass->fault == EVC_CALLS_FULL || pass->fault == EVC_CALLS_MISUSED)
        return evc_stress_no_(s, EVC_STRESS_NO_RECORD, s->record.note);
    return pass->fault == EVC_CALLS_OK
               ? EVC_STRESS_PASSED
               : evc_stress_no_(s, EVC_STRESS_NO_RECORD, evc_calls_fault_name(pass->fault));
}

/* Notes what is pending in a round that hung, and then what the judge has remarked on it. */
static inline void evc_stress_pending_(evc_stress *s, const evc_pass_ *pass) {
    char remarks[sizeof s->note];
    memcpy(remarks, s->note, sizeof remarks);
    if (pass->pending > 0)
        evc_put_pending_(pass, 0, s->note, sizeof s->note);
    else
        snprintf(s->note, sizeof s->note, "no call is pending: a thread hangs between its calls\n");
    size_t have = strlen(s->note), more = strlen(remarks), room = sizeof s->note - 1 - have;
    memcpy(s->note + have, remarks, more < room ? more : room);
    s->note[have + (more < room ? more : room)] = 0;
}

/* Judges a round that hung, with those that wait for a verdict. If none is wrong, it is kept as
 * hung. */
static inline enum evc_stress_result evc_stress_hung_(evc_stress *s) {
    evc_pass_ pass;
    s->round--;
    enum evc_stress_result result = evc_stress_judge_(s);
    if (result != EVC_STRESS_PASSED)
        return result;
    s->round++;
    result = evc_stress_text_(s, evc_calls_cut_now_(&s->record), &pass);
    size_t length = s->texts.length;
    if (result == EVC_STRESS_PASSED)
        result = evc_stress_judge_(s);
    if (result != EVC_STRESS_PASSED)
        return result;
    evc_stress_pending_(s, &pass);
    evc_stress_keep_(s, s->texts.bytes, length);
    return EVC_STRESS_HUNG;
}

/* Running. */

static inline void evc_stress_defaults_(evc_stress *s) {
    s->threads = s->threads ? s->threads : 4;
    s->rounds = s->rounds ? s->rounds : 1000;
    s->room = s->room ? s->room : 64;
    s->producers = s->producers ? s->producers : (s->threads + 1) / 2;
    s->hang_seconds = s->hang_seconds > 0 ? s->hang_seconds : 10;
    s->keep = s->keep ? s->keep : "refused.calls";
    s->judge = s->judge ? s->judge : EVC_STRESS_JUDGE;
    s->batch = s->batch > 0 ? s->batch : s->judge == evc_stress_by_program ? 20 : 1;
    s->round = s->waiting = s->is_kept = s->undecided = 0;
    s->calls = s->overlaps = s->begun = s->ready = s->left = s->ends = 0;
    s->overlap = s->seconds = 0;
    s->note[0] = 0;
    memset(&s->texts, 0, sizeof s->texts);
    s->texts.file = -1;
}

/* Returns whether the functions are there that the threads call. */
static inline int evc_stress_has_calls_(const evc_stress *s) {
    if (s->work)
        return 1;
    if (s->shape == EVC_STRESS_QUEUE)
        return s->produce && s->consume;
    return s->advance && s->read && (s->await || s->shape == EVC_STRESS_MIXED);
}

static inline void evc_stress_declare_(evc_stress *s) {
    char names[8 * EVC_CALLS_WORKERS] = "", *at = names;
    for (int i = 0; i < s->producers && i < s->threads; i++)
        at += sprintf(at, i ? " w%d" : "w%d", i);
    if (s->declare)
        s->declare(s->mine, &s->record);
    else if (s->shape == EVC_STRESS_QUEUE)
        s->object = evc_calls_buffer(&s->record, "B", (unsigned)s->capacity, names);
    else
        s->object = evc_calls_eventcount(&s->record, "E", 0);
}

/* Declares workers and objects, and starts the threads. */
static inline enum evc_stress_result evc_stress_begin_(evc_stress *s) {
    char name[24];
    evc_stress_defaults_(s);
    if (!evc_stress_has_calls_(s))
        return evc_stress_no_(s, EVC_STRESS_NO_RECORD, "there is nothing to call");
    s->starts = (size_t *)calloc((size_t)s->batch, sizeof *s->starts);
    evc_calls_open(&s->record, s->clock, s->file);
    for (int i = 0; i < s->threads; i++) {
        snprintf(name, sizeof name, "w%d", i);
        evc_hand_ hand = {s, evc_calls_worker(&s->record, name, (uint64_t)s->room), i, {0}};
        hand.chance.state = (s->seed + 1) * 0x9E3779B97F4A7C15u ^ (uint64_t)(i + 1) << 32;
        if (s->record.fault != EVC_CALLS_OK || !s->starts)
            return evc_stress_no_(s, EVC_STRESS_NO_RECORD, s->record.note);
        s->hand[i] = hand;
    }
    evc_stress_declare_(s);
    if (s->record.fault != EVC_CALLS_OK)
        return evc_stress_no_(s, EVC_STRESS_NO_RECORD, s->record.note);
    for (int i = 0; i < s->threads; i++)
        if (pthread_create(&s->thread[i], NULL, evc_stress_main_, &s->hand[i]) != 0)
            return evc_stress_no_(s, EVC_STRESS_NO_RECORD, "a thread did not start");
    return EVC_STRESS_PASSED;
}

/* Runs the rounds. After a hang the threads are still there: leave the program then. */
static inline enum evc_stress_result evc_stress_run(evc_stress *s) {
    enum evc_stress_result result = evc_stress_begin_(s);
    if (result != EVC_STRESS_PASSED)
        return result;
    int is_hung = 0;
    uint64_t since = evc_nanoseconds_();
    while (s->round < s->rounds && !is_hung && result == EVC_STRESS_PASSED) {
        evc_pass_ pass;
        s->round++;
        is_hung = evc_stress_round_(s);
        if (is_hung)
            result = evc_stress_hung_(s);
        else
            result = evc_stress_text_(s, UINT64_MAX, &pass);
        int is_due = s->waiting == s->batch || s->texts.length > 8000000 || s->round == s->rounds;
        if (result == EVC_STRESS_PASSED && is_due)
            result = evc_stress_judge_(s);
        if (result == EVC_STRESS_PASSED)
            s->note[0] = 0;
    }
    if (result == EVC_STRESS_PASSED && s->undecided > 0) {
        result = EVC_STRESS_NO_VERDICT;
        snprintf(s->note, sizeof s->note, "%d rounds are not decided\n", s->undecided);
    }
    s->seconds = (double)(evc_nanoseconds_() - since) / 1e9;
    s->overlap = s->calls ? (double)s->overlaps / (double)s->calls : 0;
    if (result != EVC_STRESS_NO_RECORD && evc_calls_settle_(&s->record) != EVC_CALLS_OK)
        result = evc_stress_no_(s, EVC_STRESS_NO_RECORD, s->record.note);
    if (is_hung)
        return result;
    __atomic_store_n(&s->ends, 1, __ATOMIC_RELEASE);
    for (int i = 0; i < s->threads; i++)
        pthread_join(s->thread[i], NULL);
    evc_calls_close(&s->record);
    free(s->texts.bytes);
    free(s->starts);
    return result;
}

/* Prints the result, and returns the status for it. */
static inline int evc_stress_says(const evc_stress *s, enum evc_stress_result result) {
    static const char *const words[] = {"passed", "REFUSED", "no record", "no verdict", "", "HUNG"};
    fprintf(stderr, "%s: round %d, %llu calls, overlap %.2f, %.2f s\n%s", words[result], s->round,
            (unsigned long long)s->calls, s->overlap, s->seconds, s->note);
    if (result == EVC_STRESS_PASSED && s->overlap < 0.3)
        fprintf(stderr, "weak: the calls hardly overlapped\n");
    if (s->is_kept)
        fprintf(stderr, "the history is in %s\n", s->keep);
    return (int)result;
}

#endif
