/* Makes each fault of a record, by its name, and shows what the recorder says. The record that is too large stays as
 * cut.trace. */
#include <stdint.h>
#include <stdio.h>
#include <stdlib.h>

/* The memory of a record: an allocation of more than this fails. */
static size_t memory = SIZE_MAX;

static void *refusing_realloc(void *old, size_t size) { return size > memory ? NULL : realloc(old, size); }
#define realloc refusing_realloc
#include "evc_record.h"
#undef realloc

static evc_record record;

static int open_record(void) {
    evc_open(&record, 4294967295u);
    int a = evc_worker(&record, "a");
    evc_declare(&record, "eventcount E signal a observe a");
    return a;
}

static void advance(int worker) {
    evc_lock(&record);
    evc_done(&record, worker, "advance E");
}

static void tell(const char *asked, const char *path) {
    printf("%s: %s\n", asked, evc_fault_name(evc_finish(&record, path)));
    evc_close(&record);
}

int main(void) {
    advance(open_record());
    tell("a step", "/dev/null");

    open_record();
    advance(7);
    tell("a step of worker 7", "/dev/null");

    open_record();
    for (char name[] = "b"; name[0] <= 'q'; name[0]++)
        if (name[0] != 'p')
            evc_worker(&record, name);
    evc_worker(&record, "r");
    tell("17 workers", "/dev/null");

    open_record();
    evc_worker(&record, "p");
    tell("a worker p", "/dev/null");

    open_record();
    evc_declare(&record, "sequencer 9 take a");
    tell("a sequencer 9", "/dev/null");

    open_record();
    evc_declare(&record, "semaphore E 1 use a");
    tell("a second E", "/dev/null");

    open_record();
    evc_declare(&record, "counter C signal a");
    tell("a counter", "/dev/null");

    advance(open_record());
    evc_worker(&record, "b");
    tell("a worker after a step", "/dev/null");

    open_record();
    evc_declare(&record, "sequencer T\ntake a");
    tell("a line of two lines", "/dev/null");

    int a = open_record();
    for (int i = 0; i < 4194304; i++)
        advance(a);
    tell("4194304 steps", "cut.trace");

    a = open_record();
    memory = 100000;
    for (int i = 0; i < 10000; i++)
        advance(a);
    tell("10000 steps with little memory", "/dev/null");

    memory = SIZE_MAX;
    advance(open_record());
    tell("a file in no folder", "nowhere/x.trace");
    return 0;
}
