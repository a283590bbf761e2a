/* std_atomic.cpp: std::atomic of C++20 as an eventcount, by its wait and notify.
 *
 *     c++ -std=c++20 -O2 -pthread -I../../recorder std_atomic.cpp -o std_atomic
 *
 * An int is waited for by a futex of its own, a uint64_t by one of the library's. `int_one` wakes
 * one, which may be one that waits for more. */
#include "real.h"
#include <atomic>

static std::atomic<uint64_t> large;
static std::atomic<int> small;

static void fresh(void *) {
    large = 0;
    small = 0;
}

static void large_advance(void *) {
    large.fetch_add(1);
    large.notify_all();
}
static uint64_t large_read(void *) { return large.load(); }
static uint64_t large_await(void *, uint64_t threshold) {
    uint64_t seen;
    while ((seen = large.load()) < threshold)
        large.wait(seen);
    return seen;
}

static void small_advance(void *) {
    small.fetch_add(1, std::memory_order_release);
    small.notify_all();
}
static void small_advance_for_one(void *) {
    small.fetch_add(1);
    small.notify_one();
}
static uint64_t small_read(void *) { return (uint64_t)small.load(std::memory_order_acquire); }
static uint64_t small_await(void *, uint64_t threshold) {
    int seen;
    while ((uint64_t)(seen = small.load(std::memory_order_acquire)) < threshold)
        small.wait(seen, std::memory_order_acquire);
    return (uint64_t)seen;
}

static const real_object objects[] = {
    {"std_atomic_64", RIGHT, 0, 0, large_advance, large_read, large_await, NULL, NULL},
    {"std_atomic_int", RIGHT, 0, 0, small_advance, small_read, small_await, NULL, NULL},
    {"std_atomic_int_one", BUG, 0, 0, small_advance_for_one, small_read, small_await, NULL, NULL},
    {NULL, RIGHT, 0, 0, NULL, NULL, NULL, NULL, NULL}};

int main(int words, char **word) { return real_main(words, word, objects, fresh); }
