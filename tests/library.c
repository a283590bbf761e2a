/* Makes calls of library/evc.h, one for each request on standard input, and answers on standard output.
   tests/run-library builds it, and says what is asked and what has to come.

   A request: 8 bytes, the first of which names the call (c, a, u, s, or h for histories of calls, or m for a monitor of
   them, or v for the version, which is returned as the status); three numbers of 8 bytes, lowest first: the length of the
   input, the room for the text and that for the notes; and the input. An answer: 8 bytes, namely the status, one that is
   1 if a byte was changed that had to stay, or if a monitor answered otherwise than evc.h says, and six more; the two
   lengths that the call returned; the text and the notes. The driver uses no malloc, so that every allocation is the
   library's.

   The lines of the input are given to a monitor one by one, and then to a second one, whose answer is returned. Its text
   is the load, three numbers of 8 bytes, and a fourth: the number of the line with the first status that was not
   EVC_STATUS_DONE, or 0. */
#include "../library/evc.h"

/* (the toolchain's compiler has no headers) */
extern long read(int, void *, size_t);
extern long write(int, const void *, size_t);
extern void _exit(int);
extern void *memset(void *, int, size_t);

#define ROOM (160u << 20)
#define MARK 0xA5

static uint8_t input[(68u << 20)], text[ROOM], notes[(70u << 20)];

static int take(void *to, size_t length) {
    uint8_t *at = to;
    while (length > 0) {
        long n = read(0, at, length);
        if (n <= 0)
            return 0;
        at += n;
        length -= (size_t)n;
    }
    return 1;
}

static void give(const void *from, size_t length) {
    const uint8_t *at = from;
    while (length > 0) {
        long n = write(1, at, length);
        if (n <= 0)
            _exit(9);
        at += n;
        length -= (size_t)n;
    }
}

/* Returns whether the bytes from one address up to another are still the mark. */
static int is_marked(const uint8_t *bytes, size_t from, size_t end) {
    for (size_t i = from; i < end; i++)
        if (bytes[i] != MARK)
            return 0;
    return 1;
}

/* (from the C library that the tests run on: how many bytes of malloc's are in use) */
struct mallinfo2 {
    size_t arena, ordblks, smblks, hblks, hblkhd, usmblks, fsmblks, uordblks, fordblks, keepcost;
};
extern struct mallinfo2 mallinfo2(void);

static struct {
    uint8_t before[64];
    struct evc_monitor monitor;
    uint8_t behind[64];
} place;

/* Gives a monitor the lines of the input, and its end. Returns whether a later status differed from the first. */
static int feed(size_t length, uint8_t *status, uint64_t *line_of_first) {
    uint64_t number = 0;
    int is_other = 0;
    *line_of_first = 0;
    for (size_t at = 0; at < length; number++) {
        size_t end = at;
        while (end < length && input[end] != '\n')
            end++;
        uint8_t came = evc_monitor_line(&place.monitor, input + at, end - at);
        if (*line_of_first != 0)
            is_other |= came != *status;
        else if (came != EVC_STATUS_DONE)
            *line_of_first = number + 1, *status = came;
        at = end + 1;
    }
    uint8_t came = evc_monitor_end(&place.monitor);
    if (*line_of_first != 0)
        return is_other || came != *status;
    *status = came;
    return 0;
}

/* Returns whether a monitor whose text has ended, or that was closed, says so, and accepts nothing. */
static int has_no_use(void) {
    uint8_t note[1];
    return evc_monitor_line(&place.monitor, input, 0) == EVC_STATUS_USAGE && evc_monitor_end(&place.monitor) == EVC_STATUS_USAGE &&
           evc_monitor_note(&place.monitor, note, sizeof note) == 0;
}

/* Judges the input by a monitor. Returns whether it answered otherwise than evc.h says, or did not free all that it
   allocated. (The first request of a process takes some memory for malloc's own use.) */
static int judge(size_t length, size_t room, uint8_t *status, size_t *noted) {
    struct evc_load load[2];
    uint64_t line;
    int is_wrong = evc_monitor_size() > sizeof place.monitor;
    size_t in_use = mallinfo2().uordblks;
    memset(&place, MARK, sizeof place);
    evc_monitor_open(&place.monitor);
    is_wrong |= in_use != 0 && mallinfo2().uordblks != in_use;
    is_wrong |= feed(length, status, &line);
    *noted = evc_monitor_note(&place.monitor, notes, room);
    is_wrong |= *status == EVC_STATUS_DONE ? !has_no_use() || *noted != 0 : evc_monitor_note(&place.monitor, notes, room) != *noted;
    evc_monitor_load(&place.monitor, &load[0]);
    evc_monitor_load(&place.monitor, &load[1]);
    is_wrong |= load[0].histories != load[1].histories || load[0].calls != load[1].calls || load[0].others != load[1].others;
    evc_monitor_close(&place.monitor);
    is_wrong |= !has_no_use() || (in_use != 0 && mallinfo2().uordblks != in_use);
    evc_monitor_load(&place.monitor, &load[1]);
    is_wrong |= load[1].histories != 0 || load[1].calls != 0 || load[1].others != 0;
    evc_monitor_close(&place.monitor);
    is_wrong |= !is_marked(place.before, 0, sizeof place.before) || !is_marked(place.behind, 0, sizeof place.behind);
    uint64_t told[4] = {load[0].histories, load[0].calls, load[0].others, line};
    for (size_t i = 0; i < sizeof told; i++)
        text[i] = ((const uint8_t *)told)[i];
    return is_wrong;
}

int main(void) {
    struct {
        uint8_t call[8];
        uint64_t length, text, notes;
    } asked;
    while (take(&asked, sizeof asked)) {
        if (asked.length > sizeof input || asked.text > sizeof text - 64 || asked.notes > sizeof notes - 64)
            return 8;
        if (!take(input, asked.length))
            return 7;
        if (asked.call[0] == 'v') {
            uint8_t version[24] = {(uint8_t)evc_version()};
            give(version, sizeof version);
            continue;
        }
        memset(text, MARK, asked.text + 64);
        memset(notes, MARK, asked.notes + 64);
        struct evc_written written = {77, 77};
        uint8_t (*call)(const uint8_t *, size_t, uint8_t *, size_t, uint8_t *, size_t, struct evc_written *) =
            asked.call[0] == 'c'   ? evc_check
            : asked.call[0] == 'a' ? evc_audit
            : asked.call[0] == 'u' ? evc_upgrade
            : asked.call[0] == 'h' ? evc_calls_check
                                   : evc_sim;
        int is_wrong = 0;
        uint8_t status = EVC_STATUS_DONE;
        if (asked.call[0] == 'm') {
            written.text = 32;
            is_wrong = judge(asked.length, asked.notes, &status, &written.notes);
            memset(notes, MARK, asked.notes + 64);
            is_wrong |= judge(asked.length, asked.notes, &status, &written.notes);
        } else {
            status = call(input, asked.length, text, asked.text, notes, asked.notes, &written);
        }
        struct {
            uint8_t status, changed, none[6];
            uint64_t text, notes;
        } told = {status, 0, {0}, written.text, written.notes};
        told.changed = is_wrong || written.text > asked.text || written.notes > asked.notes ||
                       !is_marked(text, written.text, asked.text + 64) || !is_marked(notes, written.notes, asked.notes + 64);
        give(&told, sizeof told);
        if (written.text > asked.text || written.notes > asked.notes)
            return 6;
        give(text, written.text);
        give(notes, written.notes);
    }
    return 0;
}
