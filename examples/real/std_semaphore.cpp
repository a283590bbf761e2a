/* std_semaphore.cpp: std::counting_semaphore of C++20, of two units.
 *
 *     c++ -std=c++20 -O2 -pthread -I../../recorder std_semaphore.cpp -o std_semaphore
 */
#include "real.h"
#include <memory>
#include <semaphore>

static std::unique_ptr<std::counting_semaphore<1000>> semaphore;
static int S;

static void fresh(void *) { semaphore = std::make_unique<std::counting_semaphore<1000>>(2); }

static void declare(void *, evc_calls *record) { S = evc_calls_semaphore(record, "S", 2); }

static void work(void *, evc_caller *w, int, evc_chance *chance) {
    for (int k = 0; k < 8; k++) {
        evc_chance_pause(chance);
        REAL_DONE(w, evc_call_p(w, S), semaphore->acquire());
        evc_chance_pause(chance);
        REAL_DONE(w, evc_call_v(w, S), semaphore->release());
    }
}

static const real_object objects[] = {
    {"std_counting_semaphore", MAYBE, 0, 0, NULL, NULL, NULL, declare, work},
    {NULL, RIGHT, 0, 0, NULL, NULL, NULL, NULL, NULL}};

int main(int words, char **word) { return real_main(words, word, objects, fresh); }
