/* eventfd.c: Linux's eventfd as a semaphore, of two units.
 *
 *     cc -std=gnu11 -O2 -pthread -I../../recorder eventfd.c -o eventfd
 */
#include "real.h"
#include <sys/eventfd.h>

static int S, file = -1;

static void fresh(void *mine) {
    (void)mine;
    if (file >= 0)
        close(file);
    file = eventfd(2, EFD_SEMAPHORE);
}

static void declare(void *mine, evc_calls *record) {
    (void)mine;
    S = evc_calls_semaphore(record, "S", 2);
}

static void take(void) {
    uint64_t units;
    while (read(file, &units, sizeof units) != sizeof units)
        ;
}
static void give(void) {
    const uint64_t units = 1;
    while (write(file, &units, sizeof units) != sizeof units)
        ;
}

static void work(void *mine, evc_caller *w, int number, evc_chance *chance) {
    (void)mine, (void)number;
    for (int k = 0; k < 8; k++) {
        evc_chance_pause(chance);
        REAL_DONE(w, evc_call_p(w, S), take());
        evc_chance_pause(chance);
        REAL_DONE(w, evc_call_v(w, S), give());
    }
}

static const real_object objects[] = {{"eventfd", RIGHT, 0, 0, NULL, NULL, NULL, declare, work},
                                      {NULL, RIGHT, 0, 0, NULL, NULL, NULL, NULL, NULL}};

int main(int words, char **word) { return real_main(words, word, objects, fresh); }
