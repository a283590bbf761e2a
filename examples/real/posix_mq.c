/* posix_mq.c: a message queue of POSIX, of messages that are one number.
 *
 *     cc -std=gnu11 -O2 -pthread -I../../recorder posix_mq.c -lrt -o posix_mq
 *
 * `mq` waits for room and for a message, `mq_try` looks some times and gives up. `mq_large` has
 * room for one message more than is declared. A system without such queues has no object here. */
#include "real.h"
#include <errno.h>
#include <mqueue.h>

enum { WAIT, TRY, LARGE };
#define CAPACITY 3
static mqd_t queue = (mqd_t)-1;

/* Opens a new queue, whose name is gone at once. Returns whether it is open. */
static int has_queue(void) {
    struct mq_attr of = {.mq_maxmsg = CAPACITY + (chosen == LARGE), .mq_msgsize = sizeof(uint64_t)};
    char name[32];
    if (queue != (mqd_t)-1)
        mq_close(queue);
    snprintf(name, sizeof name, "/evc-%ld", (long)getpid());
    queue = mq_open(name, O_RDWR | O_CREAT | O_EXCL | (chosen == TRY ? O_NONBLOCK : 0), 0600, &of);
    mq_unlink(name);
    return queue != (mqd_t)-1;
}

static void fresh(void *mine) {
    (void)mine;
    if (!has_queue())
        exit(2);
}

static int may_look_again(int looks) {
    if (errno == EAGAIN)
        sched_yield();
    return errno == EINTR || looks < 20;
}

static int produce(void *mine, uint64_t item) {
    (void)mine;
    for (int looks = 0; mq_send(queue, (const char *)&item, sizeof item, 0) != 0; looks++)
        if (!may_look_again(looks))
            return 0;
    return 1;
}

static uint64_t consume(void *mine) {
    uint64_t item = 0;
    (void)mine;
    for (int looks = 0; mq_receive(queue, (char *)&item, sizeof item, NULL) != sizeof item; looks++)
        if (!may_look_again(looks))
            return EVC_STRESS_TIMEOUT;
    return item;
}

static const real_object objects[] = {
    REAL_QUEUE("mq", RIGHT, WAIT, 0, CAPACITY, produce, consume),
    REAL_QUEUE("mq_try", RIGHT, TRY, 0, CAPACITY, produce, consume),
    REAL_QUEUE("mq_large", BUG, LARGE, 0, CAPACITY, produce, consume),
    {NULL}};

int main(int words, char **word) {
    return has_queue() ? real_main(words, word, objects, fresh) : words < 2 ? 0 : 2;
}
