"""Histories of calls: all of a few calls on one object, random ones on several, and long ones."""

import collections
import itertools
import random

from trying.verdicts.brute import first_state, natural, step

# The calls of which the histories of one object are made: the operations, and the replies of each.
VALUES = [
    (["put", 0], ["done"]),
    (["put", 1], ["done"]),
    (["put", 2], ["done"]),
    (["get"], [0, 1, 2]),
]
ITEMS = [
    (["produce", 1], ["done"]),
    (["produce", 2], ["done"]),
    (["consume"], [1, 2, "timeout"]),
]
ALPHABETS = {
    ("eventcount", 0): [
        (["advance"], ["done"]),
        (["read"], [0, 1, 2]),
        (["await", 1], ["done", "timeout", 2]),
        (["await", 2], ["timeout", 1]),
    ],
    ("eventcount", 1): [
        (["advance"], ["done"]),
        (["read"], [0, 1, 2]),
        (["await", 2], ["done", 2, "timeout"]),
    ],
    ("sequencer",): [(["ticket"], [0, 1, 2, 3])],
    ("semaphores", 1): [(["p", 0], ["done", "timeout"]), (["v", 0], ["done"])],
    ("semaphores", 0, 1): [
        (["p", 0], ["done"]),
        (["v", 0], ["done"]),
        (["pboth", 0, 1], ["done", "timeout"]),
        (["v", 1], ["done"]),
    ],
    ("cell",): VALUES,
    ("database", 2): VALUES,
    ("buffer", 1): ITEMS,
    ("buffer", 2): ITEMS,
}

# The calls that may give up.
WAITING = ("await", "p", "pboth", "produce", "consume")


def shapes(count):
    """Returns each way in which so many calls may overlap, as events ('calls' or 'returns', which call)."""

    def go(begun, pending):
        if begun == count:
            yield []
        else:
            for rest in go(begun + 1, pending | {begun}):
                yield [("calls", begun), *rest]
        for i in sorted(pending):
            for rest in go(begun, pending - {i}):
                yield [("returns", i), *rest]

    return list(go(0, frozenset()))


def small_histories(kind, count, letters):
    """Yields all histories of so many calls of one object, each call by a worker of its own."""
    for shape in shapes(count):
        ended = {i for what, i in shape if what == "returns"}
        completed = [(op, reply) for op, replies in letters for reply in replies]
        pending = [(op, None) for op, _ in letters]
        choices = [completed if i in ended else pending for i in range(count)]
        for given in itertools.product(*choices):
            ends = {"calls": lambda i: (0, given[i][0]), "returns": lambda i: (given[i][1],)}
            yield [kind], [(str(i), what, *ends[what](i)) for what, i in shape]


def random_history(rng, kinds, count, workers, alone=None):
    """Returns a history from a simulation of the objects: a call takes effect between its two events. In some histories
    one reply is changed. If `alone` is `produce` or `consume`, only the first worker makes such calls, and no other ones."""
    states = [first_state(kind) for kind in kinds]
    busy, events, changed = {}, [], rng.random() < 0.5
    begun = 0
    while begun < count or (busy and rng.random() < 0.9):
        worker = str(rng.randrange(workers))
        if worker not in busy:
            if begun < count:
                k = rng.randrange(len(kinds))
                ops = [op for op, _ in ALPHABETS[tuple(kinds[k])]]
                op = rng.choice([op for op in ops if alone is None or (op[0] == alone) == (worker == "0")])
                busy[worker] = [k, op, None]
                events.append((worker, "calls", k, op))
                begun += 1
            continue
        k, op, reply = busy[worker]
        if reply is None:
            reply = natural(states[k], op)
            if reply is None and op[0] in WAITING and rng.random() < 0.2:
                reply = "timeout"
            if reply is not None:
                states[k] = step(states[k], op, reply)
                busy[worker][2] = reply
            elif rng.random() < 0.3 and begun == count:
                break
            continue
        if rng.random() < 0.6:
            if changed and isinstance(reply, int) and rng.random() < 0.3:
                reply, changed = max(0, reply + rng.choice([-1, 1])), False
            events.append((worker, "returns", reply))
            del busy[worker]
    return kinds, events


def random_histories(seed, count):
    rng = random.Random(seed)
    sorts = [list(kind) for kind in ALPHABETS]
    for _ in range(count):
        kinds = [rng.choice(sorts) for _ in range(rng.choice([1, 1, 2, 3]))]
        yield random_history(rng, kinds, rng.randint(1, 8), rng.randint(2, 4))


def swapped(rng, events):
    """Returns events of a buffer in which two neighbouring consumes have each other's replies."""
    items = [i for i, (_, what, *rest) in enumerate(events) if what == "returns" and isinstance(rest[0], int)]
    if len(items) > 1:
        i = rng.randrange(len(items) - 1)
        one, other = items[i : i + 2]
        first, second = events[one][2], events[other][2]
        events[one], events[other] = (*events[one][:2], second), (*events[other][:2], first)
    return events


def histories_in_turn(seed, count):
    """Yields histories of a buffer with one producer or one consumer, whose items come again. In half of them two replies
    are swapped."""
    rng = random.Random(seed)
    for _ in range(count):
        kind = rng.choice([["buffer", 1], ["buffer", 2]])
        alone = rng.choice(["produce", "consume"])
        kinds, events = random_history(rng, [kind], rng.randint(4, 10), rng.randint(2, 4), alone)
        yield kinds, swapped(rng, events) if rng.random() < 0.5 else events


def histories_of_two(seed, count):
    """Yields histories of a buffer with one producer and one consumer, whose replies are by chance."""
    rng = random.Random(seed)
    for _ in range(count):
        kind, busy, events = ["buffer", rng.choice([1, 1, 2, 3])], set(), []
        for _ in range(rng.randint(2, 12)):
            worker = rng.choice("01")
            if worker not in busy:
                busy.add(worker)
                events.append((worker, "calls", 0, ["produce", rng.choice([1, 2])] if worker == "0" else ["consume"]))
            else:
                busy.remove(worker)
                replies = ["done", "done", "done", "timeout"] if worker == "0" else [1, 1, 2, 2, "timeout"]
                events.append((worker, "returns", rng.choice(replies)))
        yield [kind], events


def long_history(rng, kind, count, workers):
    """Returns a history of many calls of one object, as text, from a simulation of it."""
    sort = kind[0]
    state, busy, fresh, items = 1 if sort == "semaphores" else 0, {}, 0, collections.deque()
    lines = [" ".join(map(str, kind)), "run"]
    for _ in range(2 * count):
        worker = rng.randrange(workers)
        if worker in busy:
            lines.append(f"{worker} returns {busy.pop(worker)}")
            continue
        if sort == "eventcount":
            op, reply = rng.choice(
                [("advance", "done"), ("read", state), (f"await {state // 2}", "done")]
            )
            state += op == "advance"
        elif sort == "sequencer":
            op, reply, state = "ticket", state, state + 1
        elif sort == "semaphores":
            op = "p 0" if state and rng.random() < 0.5 else "v 0"
            reply, state = "done", state + (1 if op == "v 0" else -1)
        elif sort == "buffer":
            if not items or (len(items) < kind[1] and rng.random() < 0.5):
                fresh += 1
                items.append(fresh)
                op, reply = f"produce {fresh}", "done"
            else:
                op, reply = "consume", items.popleft()
        elif rng.random() < 0.3:
            fresh += 1
            op, reply, state = f"put {fresh}", "done", fresh
        else:
            op, reply = "get", state
        busy[worker] = reply
        lines.append(f"{worker} calls 0 {op}")
    return "\n".join(lines) + "\nend\n"


def kept(calls, holds):
    """The events of those calls of one object for which this holds."""
    ends = []
    for i, c in enumerate(calls):
        if holds(c):
            ends.append((c[4], (str(i), "calls", 0, c[2])))
            if c[5] is not None:
                ends.append((c[5], (str(i), "returns", c[3])))
    return [event for _, event in sorted(ends, key=lambda it: it[0])]
