/* Makes one allocation, or one start of a thread, fail in the program that it is preloaded into.

   REFUSED_REQUEST=N   the N-th call of malloc and realloc, counted over all threads, returns NULL.
   REFUSED_START=N     the N-th call of pthread_create fails.
   REFUSED_TELL=FD     the failure is written to this file descriptor at once: a program may end by _exit,
                       and then nothing that would run at its end can report it.

   tests/trying/running.py builds it. No header is included, so that it needs only the toolchain's compiler. */

typedef unsigned long size_t;

extern void *dlsym(void *, const char *);
extern char *getenv(const char *);
extern long atol(const char *);
extern long write(int, const void *, size_t);

#define NEXT ((void *)-1L) /* RTLD_NEXT: the function of this name that would be called without this file. */
#define NO_RESOURCES 11    /* EAGAIN */

static long requests, starts;

static long number_of(const char *name) {
    const char *value = getenv(name);
    return value ? atol(value) : -1;
}

/* Counts a call, and returns whether it is the one that fails. */
static int is_refused(long *calls, const char *name) {
    if (__atomic_add_fetch(calls, 1, __ATOMIC_SEQ_CST) != number_of(name)) return 0;
    long tell = number_of("REFUSED_TELL");
    if (tell >= 0) write((int)tell, "refused\n", 8);
    return 1;
}

void *malloc(size_t size) {
    static void *(*next)(size_t);
    if (!next) next = (void *(*)(size_t))dlsym(NEXT, "malloc");
    return is_refused(&requests, "REFUSED_REQUEST") ? 0 : next(size);
}

void *realloc(void *old, size_t size) {
    static void *(*next)(void *, size_t);
    if (!next) next = (void *(*)(void *, size_t))dlsym(NEXT, "realloc");
    return is_refused(&requests, "REFUSED_REQUEST") ? 0 : next(old, size);
}

int pthread_create(void *thread, const void *attributes, void *(*work)(void *), void *given) {
    static int (*next)(void *, const void *, void *(*)(void *), void *);
    if (!next) next = (int (*)(void *, const void *, void *(*)(void *), void *))dlsym(NEXT, "pthread_create");
    return is_refused(&starts, "REFUSED_START") ? NO_RESOURCES : next(thread, attributes, work, given);
}
