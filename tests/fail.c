/* Makes one read or one write of the program that it is preloaded into fail, and others move few bytes.

   FAILED_READ=N    read N of standard input fails, counted from 0, with the error of number FAILED_ERROR, by default
                    as a connection that was reset.
   FAILED_WRITE=N   write N to standard output fails, or takes nothing if FAILED_TAKES is set.
   FAILED_NOTE=N    write N to standard error fails.
   FAILED_PIECE=N   each other read and write of these moves N bytes at most.

   tests/trying/running.py builds it. No header is included, so that it needs only the toolchain's compiler. */

typedef unsigned long size_t;
typedef long ssize_t;

extern void *dlsym(void *, const char *);
extern char *getenv(const char *);
extern long atol(const char *);
extern int *__errno_location(void);

#define NEXT ((void *)-1L) /* RTLD_NEXT: the function of this name that would be called without this file. */
#define BROKEN_PIPE 32     /* EPIPE */
#define RESET 104          /* ECONNRESET */

static long reads, writes, notes;

static long number_of(const char *name, long otherwise) {
    const char *value = getenv(name);
    return value ? atol(value) : otherwise;
}

/* Counts a call, and returns whether it is the one that fails. */
static int is_failing(long *calls, const char *name) {
    return __atomic_fetch_add(calls, 1, __ATOMIC_SEQ_CST) == number_of(name, -1);
}

static size_t piece(size_t size) {
    size_t most = (size_t)number_of("FAILED_PIECE", 8192);
    return size < most ? size : most;
}

static ssize_t failed(int error) {
    *__errno_location() = error;
    return -1;
}

ssize_t read(int file, void *buffer, size_t size) {
    static ssize_t (*next)(int, void *, size_t);
    if (!next) next = (ssize_t (*)(int, void *, size_t))dlsym(NEXT, "read");
    if (file != 0) return next(file, buffer, size);
    if (is_failing(&reads, "FAILED_READ")) return failed((int)number_of("FAILED_ERROR", RESET));
    return next(file, buffer, piece(size));
}

ssize_t write(int file, const void *buffer, size_t size) {
    static ssize_t (*next)(int, const void *, size_t);
    if (!next) next = (ssize_t (*)(int, const void *, size_t))dlsym(NEXT, "write");
    if (file == 1 && is_failing(&writes, "FAILED_WRITE")) return getenv("FAILED_TAKES") ? 0 : failed(BROKEN_PIPE);
    if (file == 2 && is_failing(&notes, "FAILED_NOTE")) return failed(BROKEN_PIPE);
    return next(file, buffer, file == 1 || file == 2 ? piece(size) : size);
}

ssize_t __write(int file, const void *buffer, size_t size) { return write(file, buffer, size); }
