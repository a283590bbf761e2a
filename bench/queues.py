"""Makes histories of the calls of a buffer (docs/REFERENCE.md, evc-calls 1), for bench/run.

The buffer is right: a call takes effect as it is invoked, or as soon as there is room or an item. The same kind and number
of items give the same text each time. In a rejected one, two of the last consumes have each other's items.
"""

import collections
import random

PRODUCERS = "alice bob carol dave".split()
CONSUMERS = "erin frank grace heidi".split()
ROOM = 64

# The kinds of histories: how many producers and consumers there are, whether calls overlap, whether consumers wait until
# the buffer is full, and how many different items there are.
Kind = collections.namedtuple("Kind", "producers consumers overlap late values", defaults=(True, False, None))
KINDS = {
    "in order": Kind(1, 1, overlap=False),
    "interleaved": Kind(4, 4),
    "late consumers": Kind(4, 4, late=True),
    "one producer, 9 values": Kind(1, 4, values=9),
}


def header(kind):
    producers, consumers = PRODUCERS[: kind.producers], CONSUMERS[: kind.consumers]
    users = f"produce {' '.join(producers)} consume {' '.join(consumers)}"
    lines = ["evc-calls 1", "limit 1", f"workers {' '.join(producers + consumers)}", f"buffer B {ROOM} {users}", "run"]
    return "\n".join(lines) + "\n"


class Calls:
    """The calls of a buffer, some of which are pending, and what was put in so far."""

    def __init__(self, kind, items):
        self.kind, self.left, self.items, self.made = kind, items, items, 0
        self.pending, self.held = {}, collections.deque()

    def may_call(self, worker):
        """Returns whether a worker calls now. Consumers call as often as there are items."""
        held = len(self.held)
        if not self.kind.overlap and (self.pending or held == (ROOM if worker in PRODUCERS else 0)):
            return False
        if worker in PRODUCERS:
            return self.made < self.items
        is_late = self.kind.late and held < ROOM - len(CONSUMERS) and self.made < self.items
        return not is_late and sum(it in CONSUMERS for it in self.pending) < self.left

    def call(self, worker):
        """Returns the line of a new call."""
        if worker in CONSUMERS:
            self.pending[worker] = None
            return f"{worker} calls consume B\n"
        self.made += 1
        item = self.made if self.kind.values is None else self.made * self.made % self.kind.values + 1
        self.pending[worker] = item
        return f"{worker} calls produce B {item}\n"

    def reply(self, worker):
        """Returns the line with the reply of a pending call, or None if it has to wait."""
        if worker in PRODUCERS:
            if len(self.held) == ROOM:
                return None
            self.held.append(self.pending.pop(worker))
            return f"{worker} returns done\n"
        if not self.held:
            return None
        del self.pending[worker]
        self.left -= 1
        return f"{worker} returns {self.held.popleft()}\n"


def events(kind, draw, items):
    """Yields the lines of the events until so many items were put in and taken out."""
    calls = Calls(kind, items)
    workers = PRODUCERS[: kind.producers] + CONSUMERS[: kind.consumers]
    while calls.left or calls.pending:
        worker = workers[int(draw() * len(workers))]
        if worker in calls.pending:
            line = calls.reply(worker)
            if line:
                yield line
        elif calls.may_call(worker):
            yield calls.call(worker)


def write_history(path, name, items):
    """Writes a history of so many items."""
    kind, draw = KINDS[name], random.Random(1).random
    with open(path, "w", encoding="ascii", newline="\n") as file:
        file.write(header(kind))
        file.writelines(events(kind, draw, items))
        file.write("end\n")


def write_rejected(path, source):
    """Writes a history in which a consume near the end returned the item of an earlier one, and that returned its."""
    with open(source, encoding="ascii") as text:
        lines = text.read().split("\n")
    replies = [i for i, line in enumerate(lines) if " returns " in line and line[-1].isdigit()]
    last, item = replies[-3], lambda i: lines[i].split()[-1]
    first = next(i for i in reversed(replies[: -ROOM // 2]) if item(i) != item(last))
    lines[first], lines[last] = (
        lines[i].replace(f" returns {item(i)}", f" returns {item(j)}") for i, j in ((first, last), (last, first))
    )
    with open(path, "w", encoding="ascii", newline="\n") as file:
        file.write("\n".join(lines))
