"""Makes histories of calls (docs/REFERENCE.md, evc-calls 1), for bench/run.

Eight workers make calls on right objects. Each call takes effect as it is invoked or as it returns, by chance, so each
history is linearizable. The same kind and size give the same text each time.
"""

import random

WORKERS = "alice bob carol dave erin frank grace heidi".split()
ALL = " ".join(WORKERS)
OTHERS = " ".join(WORKERS[1:])

# What a text declares, by the object of its calls. Only one worker writes to `C` and `D`: their puts don't overlap.
DECLARED = {
    "E": f"eventcount E signal {ALL} observe {ALL}",
    "T": f"sequencer T take {ALL}",
    "X": f"cells X 1 write {ALL} read {ALL}",
    "C": f"cells C 1 write {WORKERS[0]} read {OTHERS}",
    "S": f"semaphore S 3 use {ALL}",
    "D": f"database D 4 write {WORKERS[0]} read {OTHERS}",
}

# The objects of each kind of history. A header declares them in the order of DECLARED.
KINDS = {
    "eventcount": "E",
    "sequencer": "T",
    "semaphore": "S",
    "cell put once": "X",
    "cell with one writer": "C",
    "database": "D",
    "mixed": "ETXCSD",
}

# How many calls a tiny history has.
TINY = 8

# More bytes than the last calls of a history and its last line have.
ROOM = 1000


class Objects:
    """The objects, and the effect of a call on them: it returns its reply, or None if it has to wait."""

    def __init__(self):
        self.count = self.tickets = self.puts = self.value = self.cell = 0
        self.units, self.numbers = 3, "0 0 0 0"

    def advance(self):
        self.count += 1
        return "done"

    def read(self):
        return str(self.count)

    def wait(self):
        return "done"

    def ticket(self):
        self.tickets += 1
        return str(self.tickets - 1)

    def p(self):
        if not self.units:
            return None
        self.units -= 1
        return "done"

    def v(self):
        self.units += 1
        return "done"

    def put_once(self, value):
        self.value = value
        return "done"

    def get_once(self):
        return str(self.value)

    def put(self, value):
        self.cell = value
        return "done"

    def get(self):
        return str(self.cell)

    def write(self, numbers):
        self.numbers = numbers
        return "done"

    def snapshot(self):
        return self.numbers

    def new_call(self, draw, worker, kind):
        """Returns the text of a new call, and its act. (A P is called only while there are units.)"""
        chance = draw()
        writes = worker == WORKERS[0]
        if kind == "E":
            if chance < 0.5:
                return "advance E", self.advance
            if chance < 0.75:
                return "read E", self.read
            return f"await E {self.count // 2}", self.wait
        if kind == "T":
            return "ticket T", self.ticket
        if kind == "S":
            return ("v S", self.v) if chance < 0.5 or not self.units else ("p S", self.p)
        if kind == "X":
            if chance < 0.25:
                self.puts += 1
                value = self.puts
                return f"put X[0] {value}", lambda: self.put_once(value)
            return "get X[0]", self.get_once
        if kind == "C":
            if writes:
                value = int(chance * 10)
                return f"put C[0] {value}", lambda: self.put(value)
            return "get C[0]", self.get
        if writes:
            numbers = " ".join(str(int(draw() * 10)) for _ in range(4))
            return f"write D {numbers}", lambda: self.write(numbers)
        return "snapshot D", self.snapshot


def header(kinds):
    lines = [DECLARED[kind] for kind in DECLARED if kind in kinds]
    return "\n".join(["evc-calls 1", "limit 1000000000", f"workers {ALL}", *lines, "run"]) + "\n"


def events(kinds, draw, calls, size):
    """Yields the lines of so many calls, or fewer if they have more than `size` bytes."""
    objects, pending, left = Objects(), {}, calls
    while left or pending:
        worker = WORKERS[int(draw() * 8)]
        if worker not in pending:
            if left:
                left = left - 1 if size > 0 else 0
                text, act = objects.new_call(draw, worker, kinds[int(draw() * len(kinds))])
                pending[worker] = act, act() if draw() < 0.5 else None
                size -= len(worker) + len(text) + 8
                yield f"{worker} calls {text}\n"
            continue
        act, reply = pending[worker]
        reply = reply or act()
        if reply is None:
            # (a P waits for a V that is pending or may still be called, and otherwise times out)
            if (left and len(pending) < len(WORKERS)) or any(it[0] != objects.p for it in pending.values()):
                continue
            reply = "timeout"
        del pending[worker]
        size -= len(worker) + len(reply) + 10
        yield f"{worker} returns {reply}\n"


def write_history(path, kind, calls=10**9, size=10**9):
    """Writes a history of so many calls, or of about `size` bytes and no more."""
    draw = random.Random(1).random
    with open(path, "w", encoding="ascii", newline="\n") as file:
        room = size - file.write(header(KINDS[kind])) - ROOM
        file.writelines(events(KINDS[kind], draw, calls, room))
        file.write("end\n")


def write_tiny(path, histories):
    """Writes so many histories of a few calls each, on all kinds of objects."""
    draw = random.Random(1).random
    with open(path, "w", encoding="ascii", newline="\n") as file:
        for _ in range(histories):
            file.write(header(KINDS["mixed"]))
            file.writelines(events(KINDS["mixed"], draw, TINY, 10**9))
            file.write("end\n")
