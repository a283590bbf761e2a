"""Checks by counting what the certificate of a fault says of a history of calls."""

from trying.verdicts.brute import Calls, is_linearizable
from trying.verdicts.buffers import shows_bounds, shows_of_buffer, shows_steps
from trying.verdicts.histories import kept


def least(op, reply):
    if op[0] == "read":
        return reply
    return {"done": op[1], "timeout": 0}.get(reply, reply)


def most(op, reply):
    if reply == "timeout":
        return op[1] - 1
    return None if reply == "done" else reply


def certificate_faults(kinds, events, at, k, name, words):
    """Returns what is wrong with a certificate: the fault that the events up to position `at` have on object k."""
    calls = [c for c in Calls(kinds, events[: at + 1]).calls if c[1] == k]
    if name == "overdue":
        return None if shows_bounds(calls, kinds[k][1], words, at + 1) else name
    if name == "outrun":
        return None if shows_steps(calls, kinds[k][1], words, at + 1) else name
    numbers = [int(word) for word in words if "-" not in word]
    named = []
    for word in words:
        if "-" in word:
            first = int(word.split("-")[0])
            named += [c for c in calls if c[4] == first]
    if len(named) != len(words) - len(numbers):
        return "a call that is not there"
    begun = lambda op, upto: sum(1 for c in calls if c[2] == op and c[4] <= upto)
    start = kinds[k][1] if len(kinds[k]) > 1 else 0
    a, b = (named + [None, None])[:2]
    if kinds[k][0] == "buffer":
        return None if shows_of_buffer(calls, kinds[k][1], name, a, b) else name
    if name == "below":
        return None if a[2][0] == "await" and (
            a[2][1] == 0 if a[3] == "timeout" else a[3] < a[2][1]
        ) else name
    if name == "few":
        return None if start + begun(["advance"], a[5]) < least(a[2], a[3]) else name
    made = lambda low: sum(
        1 for c in calls if c[2] == ["advance"] and c[5] is not None and low <= c[4] and c[5] < a[4]
    )
    if name == "many":
        return None if most(a[2], a[3]) < start + made(0) else name
    if name == "since":
        few = most(a[2], a[3]) < least(b[2], b[3]) + made(b[5] + 1)
        return None if b[5] < a[4] and few else name
    if name == "twice":
        return None if a is not b and a[3] == b[3] else name
    if name == "turned":
        return None if a[5] < b[4] and b[3] < a[3] else name
    if name == "drawn":
        few = sum(1 for c in calls if c[5] is not None and c[3] <= a[3])
        return None if few + sum(
            1 for c in calls if c[5] is None and c[4] <= a[5]
        ) <= a[3] else name
    if name == "taken":
        i = numbers[0]
        took = [c for c in calls if c[3] == "done" and c[2][0][0] == "p" and i in c[2][1:]]
        takes = sum(1 for c in took if c[5] <= a[5])
        return None if takes > kinds[k][1 + i] + begun(["v", i], a[5]) else name
    if name == "nowhere":
        return None if a[3] != 0 and begun(["put", a[3]], a[5]) == 0 else name
    value = lambda c: c[2][1] if c[2][0] == "put" else c[3]
    puts = lambda v: sum(1 for c in calls if c[2] == ["put", v]) + (v == 0)
    precedes = lambda one, other: one[5] is not None and one[5] < other[4]
    if name == "stale":
        return None if precedes(a, b) and value(a) != 0 == b[3] and puts(0) == 1 else name
    if name == "alternate":
        a, b, c, d = named
        turned = precedes(a, b) and precedes(c, d) and value(a) == value(d) != value(b) == value(c)
        return None if turned and (
            puts(value(a)) == 1 or a is d
        ) and (puts(value(b)) == 1 or b is c) else name
    if name == "chain":
        return None if not is_linearizable(
            [kinds[k]],
            kept(calls, lambda c: c[2][0] == "put" or c in named),
        ) else name
    return f"an unknown fault {name}"
