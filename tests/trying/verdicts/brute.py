"""Verdicts on histories of calls by trying every order: the sequential specification of each kind, and a search.

A history has the kinds of its objects, each a name with numbers, and its events: (worker, "calls", object, op) and
(worker, "returns", reply), where an op is a name with numbers too.
"""


def first_state(kind):
    name, *numbers = kind
    if name == "buffer":
        return numbers[0], ()
    return tuple(numbers) if name in ("eventcount", "semaphores") else (0,)


def step(state, op, reply):
    """Returns the state after a call with this reply, or None if the object can't give it."""
    name, *args = op
    n = state[0]
    if name in ("produce", "consume"):
        return step_of_buffer(state, op, reply)
    if name == "advance":
        return (n + 1,) if reply == "done" else None
    if name == "read" or name == "get":
        return state if reply == n else None
    if name == "await":
        if reply == "timeout":
            return state if n < args[0] else None
        if n < args[0]:
            return None
        return state if reply in ("done", n) else None
    if name == "ticket":
        return (n + 1,) if reply == n else None
    if name == "put":
        return (args[0],) if reply == "done" else None
    if reply == "timeout":
        return state
    change = {"v": 1, "p": -1, "pboth": -1}[name]
    after = list(state)
    for i in args:
        after[i] += change
    return tuple(after) if min(after) >= 0 and reply == "done" else None


def step_of_buffer(state, op, reply):
    room, items = state
    if reply == "timeout":
        return state
    if op[0] == "produce":
        return (room, items + (op[1],)) if reply == "done" and len(items) < room else None
    return (room, items[1:]) if items[:1] == (reply,) else None


def natural(state, op):
    """Returns the reply of a pending call that takes effect here, or None if it can't."""
    name, *args = op
    if name == "produce":
        return "done" if len(state[1]) < state[0] else None
    if name == "consume":
        return state[1][0] if state[1] else None
    if name in ("read", "get", "ticket"):
        return state[0]
    if name == "await":
        return "done" if state[0] >= args[0] else None
    if name in ("p", "pboth"):
        return "done" if all(state[i] > 0 for i in args) else None
    return "done"


class Calls:
    """The calls of a history, each with the positions of its invocation and its response, which is None if the call is
    pending."""

    def __init__(self, kinds, events):
        self.kinds, self.calls, open_of = kinds, [], {}
        for at, (worker, what, *rest) in enumerate(events):
            if what == "calls":
                open_of[worker] = len(self.calls)
                self.calls.append([worker, rest[0], rest[1], None, at, None])
            else:
                call = self.calls[open_of.pop(worker)]
                call[3], call[5] = rest[0], at


def is_linearizable(kinds, events):
    """Returns whether some order of all completed calls and some pending ones is a legal sequential history that keeps
    the real-time order."""
    calls = Calls(kinds, events).calls
    count = len(calls)
    need = sum(1 << i for i, c in enumerate(calls) if c[5] is not None)
    precedes = lambda one, other: one[5] is not None and one[5] < other[4]
    before = [
        sum(1 << j for j, one in enumerate(calls) if precedes(one, other)) for other in calls
    ]
    seen = set()

    def go(taken, states):
        if taken & need == need:
            return True
        if (taken, states) in seen:
            return False
        seen.add((taken, states))
        for i, (_, k, op, reply, _, last) in enumerate(calls):
            if taken >> i & 1 or before[i] & ~taken:
                continue
            given = reply if last is not None else natural(states[k], op)
            after = step(states[k], op, given) if given is not None else None
            if after is not None and go(taken | 1 << i, states[:k] + (after,) + states[k + 1 :]):
                return True
        return False

    return go(0, tuple(first_state(kind) for kind in kinds))


def first_fault(kinds, events):
    """Returns the position of the first event with which there is no linearization, or None."""
    if is_linearizable(kinds, events):
        return None
    low, high = 0, len(events)
    while high - low > 1:
        mid = (low + high) // 2
        low, high = (mid, high) if is_linearizable(kinds, events[:mid]) else (low, mid)
    return high - 1


def is_open(kind, events, k):
    if kind[0] == "buffer":
        return True
    if kind[0] not in ("cell", "database"):
        return False
    calls = [c for c in Calls(None, events).calls if c[1] == k]
    puts = [c for c in calls if c[2][0] == "put"]
    got = {c[3] for c in calls if c[2][0] == "get" and c[5] is not None}
    times = lambda v: sum(1 for p in puts if p[2][1] == v) + (v == 0)
    end = len(events) + 1
    overlap = any(
        a is not b and a[4] < (b[5] or end) and b[4] < (a[5] or end) for a in puts for b in puts
    )
    return overlap and any(times(v) > 1 for v in got)


def is_got_from_nowhere(events, k):
    """Returns whether a get of cell k returned a value that was never put until then."""
    calls = [c for c in Calls(None, events).calls if c[1] == k]
    puts = [(c[2][1], c[4]) for c in calls if c[2][0] == "put"]
    gets = [(c[3], c[5]) for c in calls if c[2][0] == "get" and c[5] is not None]
    return any(v != 0 and not any(w == v and first < last for w, first in puts) for v, last in gets)


def monitor_stop(kinds, events):
    """Returns the position at which a monitor stops: that of the first call of an object that it doesn't watch, or of an
    event before it with which the history has no linearization; or None."""
    unwatched = (
        at
        for at, (_, what, *rest) in enumerate(events)
        if what == "calls" and kinds[rest[0]][0] in ("cell", "database", "buffer")
    )
    end = next(unwatched, None)
    fault = first_fault(kinds, events[:end])
    return end if fault is None else fault
