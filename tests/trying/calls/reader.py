"""Reads a text of histories of calls up to its first fault."""

from trying.calls.format import (
    MOST_BYTES,
    MOST_LIMIT,
    MOST_NUMBER,
    MOST_OF_A_LINE,
    MOST_WORKERS,
    is_digits,
    is_name,
    note_of,
    number_of,
)
from trying.calls.history import Call, History
from trying.calls.lines import asked_of, declaration_of, declared


def scan(text):
    """Returns the histories of a text that end before its first fault, that fault's note or None, and the line that it
    names."""
    lines = text.split(b"\n")
    rest = lines.pop()
    reader = Reader()
    for number, line in enumerate(lines, start=1):
        kind = reader.take(line, number)
        if kind:
            return reader.histories, note_of(number, kind, line), number
    whole, number = list(reader.histories), len(lines) + 1
    if not rest and whole and reader.place == "header":
        return whole, None, number
    kind = reader.take(rest, number) if rest else None
    return whole, note_of(number, kind or 12, rest), number


def read(text):
    """Returns the histories of a text that end before its first fault, and that fault's note or None."""
    return ([], "too large") if len(text) > MOST_BYTES else scan(text)[:2]


class Reader:
    """Reads lines one by one. `place` says what is expected: `header`, `limit`, `workers`,
    `declarations`, `from` (no more declarations) or `events`."""

    def __init__(self):
        self.histories = []
        self.place = "header"
        self.history = None
        self.pending = {}  # the index of the pending call of each worker
        self.advances = {}  # how many advances of an eventcount a worker called

    def take(self, line, number):
        """Reads a line, and returns the least kind of its faults, or None."""
        if self.place == "header":
            if line != b"evc-calls 1":
                return 1
            self.history, self.pending, self.advances = History(), {}, {}
            self.place = "limit"
            return None
        if len(line) > MOST_OF_A_LINE:
            return 2
        words = line.decode("latin-1").split(" ")
        if "" in words:
            return 2
        kinds = getattr(self, f"take_{self.place}")(words, number)
        return min(kinds) if kinds else None

    def take_limit(self, words, _):
        if len(words) != 2 or words[0] != "limit" or not is_digits(words[1]):
            return {2}
        self.history.limit = number_of(words[1])
        self.place = "workers"
        return set() if 1 <= self.history.limit <= MOST_LIMIT else {6}

    def take_workers(self, words, _):
        names = words[1:]
        if words[0] != "workers" or not names:
            return {2}
        kinds = {3} if not all(map(is_name, names)) else set()
        if len(set(names)) < len(names):
            kinds.add(4)
        if len(names) > MOST_WORKERS:
            kinds.add(7)
        self.history.workers = names
        self.history.taken = set(names)
        self.place = "declarations"
        return kinds

    def take_declarations(self, words, number):
        if words == ["run"] or words[0] == "from":
            return self.take_from(words, number)
        declaration = declaration_of(words)
        return declared(self.history, *declaration) if declaration else {2}

    def take_from(self, words, number):
        history = self.history
        if words == ["run"]:
            self.place, history.first_line = "events", number + 1
            return set()
        if len(words) != 3 or words[0] != "from" or not is_digits(words[2]):
            return {2}
        self.place = "from"
        name, count = words[1], number_of(words[2])
        kinds = set() if 1 <= count <= history.limit else {6}
        if name not in history.eventcounts:
            return kinds | {5}
        if history.eventcounts[name][2]:
            kinds.add(8)
        order = list(history.eventcounts)
        if history.starts and order.index(name) <= order.index(list(history.starts)[-1]):
            kinds.add(11)
        history.starts[name] = count
        return kinds

    def take_events(self, words, _):
        if words == ["end"]:
            self.histories.append(self.history)
            self.place = "header"
            return set()
        if len(words) < 3 or words[1] not in ("calls", "returns"):
            return {2}
        kinds = (self.take_call if words[1] == "calls" else self.take_reply)(words[0], words[2:])
        self.history.events += 1
        return kinds

    def take_call(self, worker, words):
        history = self.history
        asked = asked_of(history, words)
        if asked is None:
            return {2}
        name, op, rights, kinds = asked
        if worker not in history.workers:
            kinds.add(5)
        elif any(worker not in users for users in rights):
            kinds.add(10)
        if worker in self.pending:
            kinds.add(13)
        if op == ("advance",):
            key = worker, name
            self.advances[key] = self.advances.get(key, 0) + 1
            if self.advances[key] > history.limit:
                kinds.add(16)
        self.pending[worker] = len(history.calls)
        history.calls.append(Call(worker, " ".join(words), name, op, history.events))
        return kinds

    def take_reply(self, worker, words):
        history = self.history
        if words in (["done"], ["timeout"]):
            reply, kinds = words[0], set()
        elif all(map(is_digits, words)):
            reply = tuple(map(number_of, words))
            kinds = {6} if max(reply) > MOST_NUMBER else set()
        else:
            return {2}
        if worker not in history.workers:
            kinds.add(5)
        if worker not in self.pending:
            return kinds | {14}
        at = self.pending.pop(worker)
        call = history.calls[at]
        is_database = call.object in history.databases
        if not suits(call, reply, history):
            kinds.add(15)
        elif call.op[0] == "ticket" and reply[0] >= history.limit:
            kinds.add(16)
        if isinstance(reply, tuple) and not is_database:
            reply = reply[0]
        history.calls[at] = call._replace(last=history.events, reply=reply)
        return kinds


def suits(call, reply, history):
    """Returns whether a call may have this reply: `done`, `timeout` or a tuple of numbers."""
    name = call.op[0]
    if reply == "done":
        return name in ("advance", "await", "put", "take", "give", "produce")
    if reply == "timeout":
        return name in ("await", "take", "produce", "consume")
    if name == "get" and call.object in history.databases:
        return len(reply) == history.databases[call.object][0]
    return name in ("read", "await", "ticket", "get", "consume") and len(reply) == 1
