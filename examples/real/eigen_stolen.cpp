/* eigen_stolen.cpp: Eigen's EventCount in one thread, which plays two waiters. Notify(true) comes
 * after the first has called Prewait, so the first may not sleep. It sleeps for ever: a waiter that
 * came after the Notify took its signal.
 *
 *     apt-get install libeigen3-dev
 *     c++ -std=c++20 -O2 -pthread -I/usr/include/eigen3 eigen_stolen.cpp -o eigen_stolen
 *
 * With status 1 it has slept for two seconds, with status 0 each wait has returned. */
#include <csignal>
#include <cstdio>
#include <cstdlib>
#include <unistd.h>
#include <unsupported/Eigen/CXX11/ThreadPool>

int main() {
    signal(SIGALRM, [](int) {
        static const char said[] = "the first waiter sleeps, though Notify(true) came after its Prewait\n";
        (void)!write(STDOUT_FILENO, said, sizeof said - 1);
        _exit(1);
    });
    Eigen::MaxSizeVector<Eigen::EventCount::Waiter> waiters(2);
    waiters.resize(2);
    Eigen::EventCount sleepers(waiters);
    sleepers.Prewait();               /* the first is about to wait, */
    sleepers.Notify(true);            /* and all are notified: */
    sleepers.Prewait();               /* the second comes later, */
    sleepers.CommitWait(&waiters[1]); /* and returns at once, */
    alarm(2);
    sleepers.CommitWait(&waiters[0]); /* but the first, which was notified, doesn't */
    puts("each wait returned");
    return 0;
}
