/* eigen.cpp: Eigen's EventCount, by which threads sleep until a counter of theirs is high enough.
 *
 *     apt-get install libeigen3-dev
 *     c++ -std=c++20 -O2 -pthread -I../../recorder -I/usr/include/eigen3 eigen.cpp -o eigen
 *
 * In Eigen 3.4.0 a waiter that comes later may take the signal of an earlier one (eigen_stolen.cpp).
 * Bugs of its user: `one` wakes one, which may be one that waits for more; `no_look` doesn't look
 * at the counter again between Prewait and CommitWait. */
#include "real.h"
#include <atomic>
#include <memory>
#include <unsupported/Eigen/CXX11/ThreadPool>

using Waiters = Eigen::MaxSizeVector<Eigen::EventCount::Waiter>;
enum { ALL, ONE, NO_LOOK };

static std::atomic<uint64_t> count;
static std::unique_ptr<Waiters> waiters;
static std::unique_ptr<Eigen::EventCount> sleepers;

static void fresh(void *) {
    count = 0;
    sleepers.reset();
    waiters = std::make_unique<Waiters>((size_t)threads);
    waiters->resize((size_t)threads);
    sleepers = std::make_unique<Eigen::EventCount>(*waiters);
}

/* Returns the number of the calling thread, from 0. */
static size_t number() {
    static std::atomic<size_t> next;
    static thread_local size_t mine = next++;
    return mine;
}

static void advance(void *) {
    count.fetch_add(1);
    sleepers->Notify(chosen != ONE);
}
static uint64_t read_it(void *) { return count.load(); }
static uint64_t await_it(void *, uint64_t threshold) {
    uint64_t seen;
    while ((seen = count.load()) < threshold) {
        sleepers->Prewait();
        if (chosen != NO_LOOK && (seen = count.load()) >= threshold) {
            sleepers->CancelWait();
            return seen;
        }
        sleepers->CommitWait(&(*waiters)[number()]);
    }
    return seen;
}

static const real_object objects[] = {
    {"eigen", MAYBE, ALL, 0, advance, read_it, await_it, NULL, NULL},
    {"eigen_one", BUG, ONE, 0, advance, read_it, await_it, NULL, NULL},
    {"eigen_no_look", MAYBE, NO_LOOK, 0, advance, read_it, await_it, NULL, NULL},
    {NULL, RIGHT, 0, 0, NULL, NULL, NULL, NULL, NULL}};

int main(int words, char **word) { return real_main(words, word, objects, fresh); }
