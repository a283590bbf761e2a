/* A test of one's own code: record what it does, check the record in memory, and fail with the checker's note.
 *
 *     cc -std=c11 sheets_test.c $(pkg-config --cflags --libs evc) -o sheets_test
 *     ./sheets_test [BUG]
 *
 * Two threads count sheets, each by a counter of its own, and then the number of sheets is read. With a word BUG one of
 * them records a sheet that it doesn't count. */
#include "evc.h"
#include "evc_record.h"
#include <stdatomic.h>

static evc_record record;
static int press[2], watcher;
static atomic_uint sheets[2];
static int has_bug;

static void *run_press(void *which) {
    int p = *(int *)which;
    for (int i = 0; i < 1000; i++) {
        evc_lock(&record);
        if (!(has_bug && p == 1 && i == 500))
            atomic_fetch_add(&sheets[p], 1);
        evc_done(&record, press[p], "advance Sheets");
    }
    return NULL;
}

static void read_sheets(void) {
    evc_lock(&record);
    unsigned sum = atomic_load(&sheets[0]);
    evc_pending(&record, watcher, "read Sheets");
    evc_lock(&record);
    sum += atomic_load(&sheets[1]);
    evc_number(&record, watcher, sum, "go");
}

/* Checks the record in memory. Returns 0 if it is right, otherwise 1, and prints the note. */
static int fails(void) {
    const char *trace;
    size_t length;
    enum evc_fault fault = evc_finish_bytes(&record, &trace, &length);
    if (fault != EVC_OK) {
        printf("the record: %s\n", evc_fault_name(fault));
        return 1;
    }
    size_t room = EVC_ROOM(length);
    uint8_t *text = malloc(room), notes[EVC_NOTES_ROOM];
    struct evc_written written;
    if (!text) {
        printf("no memory\n");
        return 1;
    }
    int status = evc_check((const uint8_t *)trace, length, text, room, notes, sizeof notes, &written);
    free(text);
    if (status == EVC_STATUS_DONE)
        return 0;
    printf("not right: %.*s", (int)written.notes, (const char *)notes);
    return 1;
}

int main(int count, char **words) {
    (void)words;
    has_bug = count > 1;
    evc_open(&record, 10000);
    press[0] = evc_worker(&record, "press1");
    press[1] = evc_worker(&record, "press2");
    watcher = evc_worker(&record, "watcher");
    evc_declare(&record, "eventcount Sheets signal press1 press2 observe watcher");
    pthread_t threads[2];
    int which[2] = {0, 1};
    for (int p = 0; p < 2; p++)
        pthread_create(&threads[p], NULL, run_press, &which[p]);
    for (int p = 0; p < 2; p++)
        pthread_join(threads[p], NULL);
    read_sheets();
    int failed = fails();
    evc_close(&record);
    if (!failed)
        printf("right\n");
    return failed;
}
