/* sem_hang.cpp: without any recorder: does std::counting_semaphore hang while units are free?
 *
 *     c++ -std=c++20 -O2 -pthread sem_hang.cpp -o sem_hang
 *     sem_hang [THREADS [ROUNDS]]
 *
 * Threads, by default 4, acquire and release a semaphore of two units, 200 times in each round, by
 * default in 300 rounds. If nothing moves for two seconds, try_acquire is asked from outside. The
 * status is 5 if it hung. */
#include <atomic>
#include <chrono>
#include <cstdio>
#include <cstdlib>
#include <sched.h>
#include <semaphore>
#include <thread>
#include <unistd.h>
#include <vector>

static std::atomic<int> left, held, come;

/* Waits by chance: for up to so many turns of a loop, rarely until others ran. */
static void linger(unsigned &chance) {
    chance = chance * 1103515245 + 12345;
    if (chance >> 28 == 0)
        sched_yield();
    for (unsigned turns = chance >> 24; turns > 0; turns--)
        std::atomic_signal_fence(std::memory_order_seq_cst);
}

static void use(std::counting_semaphore<1000> &units, int threads, unsigned chance) {
    come++;
    while (come < threads)
        sched_yield();
    for (int k = 0; k < 200; k++) {
        linger(chance);
        units.acquire();
        held++;
        linger(chance);
        held--;
        units.release();
    }
    left--;
}

/* Waits for the threads of a round. Returns whether they ended. */
static bool have_ended() {
    auto start = std::chrono::steady_clock::now();
    while (left > 0) {
        std::this_thread::yield();
        if (std::chrono::steady_clock::now() - start > std::chrono::seconds(2))
            return false;
    }
    return true;
}

int main(int words, char **word) {
    int threads = words > 1 ? atoi(word[1]) : 4, rounds = words > 2 ? atoi(word[2]) : 300;
    for (int round = 0; round < rounds; round++) {
        std::counting_semaphore<1000> units(2);
        std::vector<std::thread> running;
        left = threads;
        held = come = 0;
        for (int i = 0; i < threads; i++)
            running.emplace_back([&units, threads, round, i] {
                use(units, threads, unsigned(round * 7919 + i + 1));
            });
        if (!have_ended()) {
            int waiting = left, holding = held;
            printf("round %d: %d threads wait, %d hold a unit; try_acquire from outside: %s\n",
                   round, waiting, holding, units.try_acquire() ? "got one" : "got none");
            fflush(stdout);
            _exit(5);
        }
        for (auto &thread : running)
            thread.join();
    }
    printf("%d rounds of %d threads, no hang\n", rounds, threads);
}
