"""What a history of calls declares, its calls, and the calls on each of its objects."""

import copy
from typing import NamedTuple, Optional


class Call(NamedTuple):
    """A call. Its positions are those of its events. `last` and `reply` are None while it is
    pending. `op` is its operation: ("advance",), ("read",), ("await", v), ("ticket",),
    ("put", value), ("get",), ("take", names), ("give", name), ("produce", v) or ("consume",).
    `text` is how it is written."""

    worker: str
    text: str
    object: str
    op: tuple
    first: int
    last: Optional[int] = None
    reply: object = None

    def precedes(self, other):
        return self.last is not None and self.last < other.first


class History:
    """What one history declares, and its calls."""

    def __init__(self):
        self.limit = 0
        self.workers = []
        self.taken = set()
        self.declared = []  # (sort, name, number)
        self.eventcounts = {}  # name: (signal, observe, whether it is a group's)
        self.sequencers = {}  # name: (take, whether it is a group's)
        self.cells = {}  # name with its index: (write, read, whether it is a group's)
        self.databases = {}  # name: (cells, write, read)
        self.buffers = {}  # name: (cells, produce, consume)
        self.semaphores = {}  # name: (units at first, use)
        self.both = None  # who uses it
        self.starts = {}  # eventcount: its count at the beginning
        self.calls = []
        self.events = 0
        self.first_line = 0  # the line of the event at position 0

    def line_of(self, position):
        return self.first_line + position

    def end_line(self):
        return self.first_line + self.events

    def parts(self):
        """Returns the calls on each object, and what the object is. Semaphores from which one call
        takes together are one object."""
        joined = {name: name for name in self.semaphores}

        def root(name):
            while joined[name] != name:
                name = joined[name]
            return name

        for call in self.calls:
            if call.op[0] == "take":
                joined[root(call.op[1][0])] = root(call.op[1][-1])
        found = {}
        for call in self.calls:
            key = root(call.object) if call.op[0] in ("take", "give") else call.object
            found.setdefault(key, Part(self, key, call.op[0])).calls.append(call)
        return list(found.values())


class Part:
    """The calls on one object, and its first state."""

    def __init__(self, history, key, op):
        self.key, self.calls = key, []
        if op in ("take", "give"):
            self.kind = "semaphores"
            self.start = {name: units for name, (units, _) in history.semaphores.items()}
        elif key in history.databases:
            self.kind, self.start = "cell", (0,) * history.databases[key][0]
        elif key in history.buffers:
            self.kind, self.start = "buffer", (history.buffers[key][0], ())
        else:
            kinds = {"ticket": "sequencer", "put": "cell", "get": "cell"}
            self.kind = kinds.get(op, "eventcount")
            self.start = history.starts.get(key, 0)

    def before(self, position):
        """Returns the calls as they are known before the event at this position."""
        known = lambda call: call.last is None or call.last < position
        return [
            call if known(call) else call._replace(last=None, reply=None)
            for call in self.calls
            if call.first < position
        ]

    def cut(self, position):
        """Returns the part as it is known before the event at this position."""
        part = copy.copy(self)
        part.calls = self.before(position)
        return part

    def responses(self):
        return sorted(call.last for call in self.calls if call.last is not None)
