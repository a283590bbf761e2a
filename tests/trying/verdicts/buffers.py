"""What the certificate of a fault of a buffer says of its calls, by counting, and what an undecided one leaves open."""

import re

from trying.verdicts.brute import Calls, is_linearizable
from trying.verdicts.chains import is_chain, is_decided, windows_of
from trying.verdicts.histories import kept
from trying.verdicts.turns import Crowd, is_outrun, is_put_in_turn, is_taken_in_turn, turns_of


def accesses(calls):
    """Returns the produces that may have taken effect, the consumes that returned an item, and where the pending ones were
    invoked."""
    puts = [(c[2][1], c[4], c[5]) for c in calls if c[2][0] == "produce" and c[3] != "timeout"]
    takes = [(c[3], c[4], c[5]) for c in calls if c[2][0] == "consume" and c[3] not in (None, "timeout")]
    return puts, takes, [c[4] for c in calls if c[2][0] == "consume" and c[5] is None]


def shows_bounds(calls, room, words, end):
    """Whether these words, each POSITION:ITEMS/DUE, are bounds that leave the items no order."""
    bounds = [tuple(int(n) for n in word.replace("/", ":").split(":")) for word in words]
    return is_chain(windows_of(*accesses(calls)), room, bounds, end)


def shows_steps(calls, room, words, end):
    """Whether these words leave the items no order: in or out; steps, each POSITION:NUMBER, with /TAKERS*ITEM and
    @POSITION; and a clash."""
    flow, *rest = words
    puts, takes, asked = accesses(calls)
    if not (is_taken_in_turn(puts) if flow == "out" else is_put_in_turn(puts, takes, asked)):
        return False
    split = next(i for i, word in enumerate(rest) if word in ("closed", "few", "full"))
    steps = [step_of(word) for word in rest[:split]]
    return is_outrun(*turns_of(flow, puts, takes, asked, room, end), steps, clash_of(*rest[split:]), end)


def clash_of(name, *words):
    """Returns a clash of these words: closed TURN; or few, shortages POSITION:TURN/TURNS-TAKERS*ITEM, and +OTHERS; or full,
    TURN@POSITION, KNOWN, and shares TAKERS/TURNS*ITEM with @POSITION."""
    if name == "closed":
        return int(*words)
    if name == "full":
        turn, at = map(int, words[0].split("@"))
        return Crowd(turn, at, int(words[1]), [share_of(word) for word in words[2:]])
    *shortages, others = words
    forms = [re.fullmatch(r"(\d+):(\d+)/(\d+)-(\d+)\*(\d+)", word) for word in shortages]
    return [tuple(map(int, form.groups())) for form in forms], int(re.fullmatch(r"\+(\d+)", others)[1])


def share_of(word):
    found = re.fullmatch(r"(\d+)/(\d+)\*(\d+)(?:@(\d+))?", word)
    takers, turns, item, after = (None if n is None else int(n) for n in found.groups())
    return item, after, takers, turns


def step_of(word):
    found = re.fullmatch(r"(\d+):(\d+)(?:/(\d+)\*(\d+)(?:@(\d+))?)?", word)
    at, number, takers, item, after = (None if n is None else int(n) for n in found.groups())
    return at, number, None if takers is None else (takers, item, after)


def shows_of_buffer(calls, room, name, a, b):
    """Whether the calls of a buffer show a fault of this name, by these two calls."""
    done = [c for c in calls if c[5] is not None and c[3] != "timeout"]
    pending = [c for c in calls if c[5] is None]
    puts = lambda cs, v: [c for c in cs if c[2][0] == "produce" and v in (None, c[2][1])]
    takes = lambda v: [c for c in done if c[2][0] == "consume" and v in (None, c[3])]
    begun = lambda cs, upto: sum(1 for c in cs if c[4] <= upto)
    ended = lambda cs, upto: sum(1 for c in cs if c[5] <= upto)
    begun_puts = lambda v, upto: begun(puts(done, v) + puts(pending, v), upto)
    asking = lambda upto: begun([c for c in pending if c[2][0] == "consume"], upto)
    left = lambda upto: [c for c in puts(done, None) if not begun(takes(c[2][1]), upto)]
    if name == "unproduced":
        return begun_puts(a[3], a[5]) < ended(takes(a[3]), a[5])
    if name == "overfull":
        return room + begun(takes(None), a[5]) + asking(a[5]) < ended(puts(done, None), a[5])
    if name == "crowded":
        return room + asking(a[5]) < ended(left(a[5]), a[5])
    if name == "squeezed":
        z = b[2][1]
        apart = not begun(takes(z), a[5]) or not begun_puts(z, a[5])
        once = len(puts(done + pending, z)) == 1
        full = room + asking(b[5]) <= ended(left(b[5]), a[5])
        return a[5] < b[5] and once and apart and full
    if begun_puts(b[3], a[5]):
        return False
    if name == "overtaken":
        x = a[2][1]
        later = sum(1 for c in takes(x) if b[5] < c[4])
        return len(puts(done + pending, x)) < ended(puts(done, x), a[5]) + later
    return name == "passed" and asking(b[5]) < ended(left(b[5]), a[5])


def undecided_faults(kind, events, k, at):
    """What is wrong with a buffer k that is undecided from this position on."""
    if is_decided(*accesses([c for c in Calls(None, events).calls if c[1] == k])):
        return "undecided, and the buffer is of the decided class"
    own = kept([c for c in Calls(None, events[:at]).calls if c[1] == k], lambda call: True)
    return None if is_linearizable([kind], own) else f"undecided from {at} on, but faulty before"
