"""What the C library answers if each allocation fails in turn."""

from trying.counting import Fault
from trying.library.driver import CALLS, Answer, answer_in, short
from trying.refusing import NO_MEMORY

NOTHING_REFUSED = "no request was refused"


def reports_no_memory(command, given, right):
    """Returns whether an answer reports out of memory. Some first histories of calls may have been judged before."""
    if command != CALLS:
        return given == Answer(4, b"", NO_MEMORY)
    is_prefix = right.text.startswith(given.text) and right.notes.startswith(given.notes[: -len(NO_MEMORY)])
    return given.status == 4 and given.notes.endswith(NO_MEMORY) and is_prefix


def fault_of_refusals(refuser, path, asked, is_right):
    """Returns what is wrong if each allocation of the driver fails in turn. `is_right(given, was_refused)` says whether
    an answer is right."""
    refused = 0
    for number, ran in refuser.refusals([path], asked):
        try:
            given, rest = answer_in(ran.output)
        except Fault as fault:
            return f"request {number}: {fault}"
        if ran.status != 0 or rest or not is_right(given, ran.was_refused):
            return f"request {number}: {short(given)}"
        refused += ran.was_refused
    return None if refused else NOTHING_REFUSED
