/* Writes the history of a record that is kept in a file, of a program that has ended: killed, too.
 *
 *     recover FILE HISTORY
 *
 * FILE is what evc_calls_open was given, or Record::in_file. The notes say which calls were pending
 * at the end. The status is 0 if the whole history was written, 1 if it is cut, 2 if there is none;
 * a note says why. A record with a measured clock is recovered on the machine that made it, before
 * that is started again. It is not proved. */
#include "evc_calls.h"

static evc_calls calls;
static char note[16384];

int main(int count, char **words) {
    if (count != 3) {
        fprintf(stderr, "usage: recover FILE HISTORY\n");
        return 2;
    }
    enum evc_calls_fault fault = evc_calls_recover(&calls, words[1]);
    if (fault == EVC_CALLS_OK)
        fault = evc_calls_settle_(&calls);
    if (fault == EVC_CALLS_OK) {
        evc_pass_ pass;
        fault = evc_calls_write_(&calls, words[2], UINT64_MAX, &pass);
        evc_put_pending_(&pass, 0, note, sizeof note);
    }
    if (fault != EVC_CALLS_OK)
        fprintf(stderr, "%s\n", calls.note);
    if (fault == EVC_CALLS_OK || evc_calls_is_cut(fault))
        fputs(note, stderr);
    evc_calls_close(&calls);
    return fault == EVC_CALLS_OK ? 0 : evc_calls_is_cut(fault) ? 1 : 2;
}
