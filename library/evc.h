/* evc.h: `evc check`, `audit`, `upgrade` and `sim`, and `evc-calls check`, as calls, for bytes in memory, and monitors that
 * judge histories of calls line by line. C11 and C++.
 *
 *     cc -std=c11 my_test.c libevc.a
 *
 * Each call reads a text that you give, writes its answer into memory that you give, and returns a status. It keeps
 * nothing: two threads may call at once, each with memory of its own. It allocates by malloc and frees all of it.
 * (Monitors, at the end, keep what they need.) docs/LIBRARY.md says what is proved of a call, and what is only tested.
 *
 *     uint8_t *text = malloc(EVC_ROOM(length)), notes[EVC_NOTES_ROOM];
 *     struct evc_written written;
 *     if (evc_check(trace, length, text, EVC_ROOM(length), notes, sizeof notes, &written) != EVC_STATUS_DONE)
 *         fprintf(stderr, "%.*s", (int)written.notes, (const char *)notes);
 *
 * No pointer may be NULL, even if its length is 0. The memory of the text, that of the notes and
 * `written` may not overlap each other or the input. */
#ifndef EVC_H
#define EVC_H

#include <stddef.h>
#include <stdint.h>

#ifdef __cplusplus
extern "C" {
#endif

/* How a call has ended, by the numbers of the exit statuses of the programs `evc` and `evc-calls`. */
enum evc_status {
    /* The whole text was written. */
    EVC_STATUS_DONE = 0,
    /* The input is no trace or no script, or a group is not followed, or the schedule names a worker that has ended.
     * Of evc_calls_check: the input is no history of calls, or one is not linearizable; then the texts of those before it
     * were written. The notes say what is wrong, and in which line; of the other calls no text was written. */
    EVC_STATUS_REFUSED = 1,
    /* Only of the calls on a monitor: its text has ended, or it was closed. Nothing was done. */
    EVC_STATUS_USAGE = 2,
    /* The text had too little room. A prefix of it was written, and the notes end in `write fault`. */
    EVC_STATUS_NO_ROOM = 3,
    /* malloc gave nothing. No text was written; of evc_calls_check those of some first histories may have been. */
    EVC_STATUS_NO_MEMORY = 4,
    /* Of evc_calls_check: a history is not decided. The notes say which object, and why; the texts of the histories
     * before it were written. Of a monitor: the same, at the end of the history. */
    EVC_STATUS_NOT_DECIDED = 5
};

/* How many bytes a call wrote of the text and of the notes. */
struct evc_written {
    size_t text;
    size_t notes;
};

/* Room enough for the text of evc_check, evc_audit and evc_upgrade, for a trace of so many bytes. */
#define EVC_ROOM(trace_length) (2 * (trace_length) + 16384)

/* Room enough for the text of evc_sim, for a script of so many bytes. */
#define EVC_SIM_ROOM(script_length) (44 * (script_length) + 64)

/* Room enough for the notes of any call except evc_calls_check. With less room they are cut off. */
#define EVC_NOTES_ROOM 1024

/* Room enough for the text and for the notes of evc_calls_check, for so many bytes with so many histories. Notes of one
 * history without pending awaits usually fit EVC_NOTES_ROOM. */
#define EVC_CALLS_ROOM(calls_length, histories) (2 * (calls_length) + 16384 * (histories))
#define EVC_CALLS_NOTES_ROOM(calls_length, histories) ((calls_length) + 4096 * (histories))

/* Whether a trace is right, and the order of its completed calls and the totals. */
uint8_t evc_check(const uint8_t *trace, size_t trace_length, uint8_t *text, size_t text_room, uint8_t *notes,
                  size_t notes_room, struct evc_written *written);

/* Whether the workers of a trace follow its buffers, databases and semaphores, and what came of it. */
uint8_t evc_audit(const uint8_t *trace, size_t trace_length, uint8_t *text, size_t text_room, uint8_t *notes,
                  size_t notes_room, struct evc_written *written);

/* The same trace in version 2 of the format. Its text is exactly as long as the trace. */
uint8_t evc_upgrade(const uint8_t *trace, size_t trace_length, uint8_t *text, size_t text_room, uint8_t *notes,
                    size_t notes_room, struct evc_written *written);

/* The trace of what the workers of a script do by its schedule. The notes then say how each worker has ended. */
uint8_t evc_sim(const uint8_t *script, size_t script_length, uint8_t *text, size_t text_room, uint8_t *notes,
                size_t notes_room, struct evc_written *written);

/* Whether each history of calls is linearizable, and an order of the calls of each (docs/REFERENCE.md, "Histories
 * of calls"). The notes have a remark on each await that is pending although the count had surely reached its threshold; with
 * status 0 nothing else. Those on all histories that were accepted come first, and then what ended the check. */
uint8_t evc_calls_check(const uint8_t *calls, size_t calls_length, uint8_t *text, size_t text_room, uint8_t *notes,
                        size_t notes_room, struct evc_written *written);

/* MONITORS. A monitor judges histories of calls line by line, as `evc-calls watch` does, in memory that does not grow with
 * them; but the text of one that declares cells, databases, or buffers with several producers or consumers is kept until
 * its end. It lies in memory of yours:
 *
 *     struct evc_monitor monitor;
 *     uint8_t note[EVC_NOTES_ROOM];
 *     evc_monitor_open(&monitor);
 *     while (next_line(&line, &length) && evc_monitor_line(&monitor, line, length) == EVC_STATUS_DONE)
 *         ;
 *     if (evc_monitor_end(&monitor) != EVC_STATUS_DONE)
 *         fprintf(stderr, "%.*s", (int)evc_monitor_note(&monitor, note, sizeof note), (const char *)note);
 *     evc_monitor_close(&monitor);
 *
 * A status that is not EVC_STATUS_DONE stays: later lines and the end return it again, and nothing is judged any more. A
 * monitor allocates, by malloc, for what a history declares, its pending calls and its text, again for each history; the
 * close frees all of it. Open a monitor only once before its close, don't move it, and make only one call on it at a time. Any
 * thread may. */
#define EVC_MONITOR_WORDS 1280
struct evc_monitor {
    uint64_t kept[EVC_MONITOR_WORDS];
};

/* Opens a monitor, to which no line came yet. It allocates nothing. */
void evc_monitor_open(struct evc_monitor *monitor);

/* Judges the next line of the text, which is given without its line feed. */
uint8_t evc_monitor_line(struct evc_monitor *monitor, const uint8_t *line, size_t length);

/* Ends the text. EVC_STATUS_DONE: it was one of histories, and each is linearizable. */
uint8_t evc_monitor_end(struct evc_monitor *monitor);

/* Writes why a monitor judges no more, as far as there is room (EVC_NOTES_ROOM), and returns how many bytes that are. It
 * writes none for as long as the status is EVC_STATUS_DONE. */
size_t evc_monitor_note(struct evc_monitor *monitor, uint8_t *note, size_t room);

/* How many histories have ended, how many calls were invoked, and how many others were pending then, added up over all
 * of them: divided by the calls it is how far they overlap. */
struct evc_load {
    uint64_t histories;
    uint64_t calls;
    uint64_t others;
};

/* Says what came so far. */
void evc_monitor_load(struct evc_monitor *monitor, struct evc_load *load);

/* Frees what a monitor has allocated. */
void evc_monitor_close(struct evc_monitor *monitor);

/* How many bytes a monitor takes: at most sizeof(struct evc_monitor). */
size_t evc_monitor_size(void);

/* The version: 1000 for each first number and 1 for each second, so 2 for version 0.2. */
uint32_t evc_version(void);

#ifdef __cplusplus
}
#endif

#endif
