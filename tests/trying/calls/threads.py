"""Random histories of calls: threads on right objects."""

from trying.calls.search import after_on_buffer

SORTS = (
    "eventcount eventcount eventcount sequencer sequencer cells cells database "
    "semaphores semaphores buffer"
).split()


class Threads:
    """Workers that call right objects: each call takes effect at a moment between its two events.
    `lines` are the events, as text. The objects are of these sorts."""

    NAMES = "a b c d w5 w6 w7 w8 w9 w10 w11 w12 w13 w14 w15 w16".split()

    def __init__(self, draw, most=30, sorts=SORTS):
        self.draw = draw
        self.workers = self.NAMES[: draw.choice((2, 3, 3, 4, 4, 5, 16))]
        self.limit = draw.choice((3, 30, 4294967296, 4294967296, 281474976710655))
        self.declarations, self.starts, self.calls = [], [], []
        self.states, self.fresh, self.busy, self.lines = {}, 0, {}, []
        self.values = draw.choice(("few", "few", "distinct"))
        self.is_serial = draw.random() < 0.4
        for at in range(draw.choice((1, 1, 1, 2, 3, 4))):
            getattr(self, draw.choice(sorts))(f"{draw.choice('EXTDS')}{at}")
        self.left = draw.randint(1, most)
        self.pace = {worker: draw.choice((0.05, 0.3, 1, 1)) for worker in self.workers}
        for _ in range(10 * self.left):
            self.move(draw.choice(self.workers))
            if not self.left and draw.random() < 0.05:
                break

    def some(self, of=None):
        of = self.workers if of is None else of
        return self.draw.sample(of, self.draw.randint(1, len(of)))

    # Declarations

    def eventcount(self, name):
        signal, observe = self.some(), self.some()
        names = f"{' '.join(signal)} observe {' '.join(observe)}"
        self.declarations.append(f"eventcount {name} signal {names}")
        self.states[name] = start = self.draw.choice((0, 0, 1, min(self.limit, 20)))
        if start:
            self.starts.append(f"from {name} {start}")
        self.calls += [(worker, "advance", name) for worker in signal] * 2
        self.calls += [(worker, word, name) for worker in observe for word in ("read", "await")]

    def sequencer(self, name):
        take = self.some()
        self.declarations.append(f"sequencer {name} take {' '.join(take)}")
        self.states[name] = 0
        self.calls += [(worker, "ticket", name) for worker in take]

    def cells(self, name):
        write, read, count = self.some(), self.some(), self.draw.randint(1, 2)
        names = f"{' '.join(write)} read {' '.join(read)}"
        self.declarations.append(f"cells {name} {count} write {names}")
        for at in range(count):
            self.states[f"{name}[{at}]"] = 0
            self.calls += [(worker, "put", f"{name}[{at}]") for worker in write]
            self.calls += [(worker, "get", f"{name}[{at}]") for worker in read]

    def database(self, name):
        write = self.draw.sample(self.workers, self.draw.randint(1, len(self.workers) - 1))
        read, count = [it for it in self.workers if it not in write], self.draw.randint(1, 3)
        names = f"{' '.join(write)} read {' '.join(read)}"
        self.declarations.append(f"database {name} {count} write {names}")
        self.states[name] = (0,) * count
        self.calls += [(worker, "write", name) for worker in write]
        self.calls += [(worker, "snapshot", name) for worker in read]

    def buffer(self, name):
        produce = self.draw.sample(self.workers, self.draw.randint(1, len(self.workers) - 1))
        self.buffer_of(name, produce, [it for it in self.workers if it not in produce])

    def pair(self, name):
        producer, consumer = self.draw.sample(self.workers, 2)
        self.buffer_of(name, [producer], [consumer])

    def buffer_of(self, name, produce, consume):
        room = self.draw.randint(1, 3)
        names = f"{' '.join(produce)} consume {' '.join(consume)}"
        self.declarations.append(f"buffer {name} {room} produce {names}")
        self.states[name] = room, ()
        self.calls += [(worker, "produce", name) for worker in produce]
        self.calls += [(worker, "consume", name) for worker in consume]

    def semaphores(self, name):
        count = self.draw.choice((1, 2, 2, 3))
        users = self.some()
        names = [f"{name}_{at}" for at in range(count)]
        for one in names:
            self.states[one] = self.draw.choice((0, 1, 1, 2))
            units = f"{one} {self.states[one]} use {' '.join(users)}"
            self.declarations.append(f"semaphore {units}")
            self.calls += [(worker, word, one) for worker in users for word in ("p", "v")]
        if count > 1 and not any(it.startswith("both") for it in self.declarations):
            self.declarations.append(f"both use {' '.join(users)}")
            for worker in users:
                self.calls.append((worker, "pboth", *self.draw.sample(names, 2)))

    # Steps

    def move(self, worker):
        """Makes a worker invoke a call, or its call take effect, or the call return."""
        if worker not in self.busy:
            own = [call for call in self.calls if call[0] == worker]
            if self.left and own and not self.waits(call := self.draw.choice(own)):
                self.call(*call)
            return
        call, reply = self.busy[worker]
        if reply is None:
            self.busy[worker][1] = self.effect(*call)
        elif self.draw.random() < self.pace[worker]:
            self.lines.append(f"{worker} returns {reply}")
            del self.busy[worker]

    def waits(self, call):
        """Returns whether the call is a put that has to wait for a pending one, as puts must not overlap."""
        if not self.is_serial or call[1] not in ("put", "write"):
            return False
        return any(it[0][1:2] == (call[2],) and it[0][0] == call[1] for it in self.busy.values())

    def call(self, worker, word, *names):
        numbers = []
        if word == "await":
            numbers = [max(0, self.states[names[0]] + self.draw.randint(-1, 3))]
        elif word in ("put", "write"):
            count = len(self.states[names[0]]) if word == "write" else 1
            numbers = [self.value() for _ in range(count)]
        elif word == "produce":
            numbers = [self.value()]
        self.left -= 1
        self.busy[worker] = [(word, *names, *numbers), None]
        self.lines.append(" ".join([f"{worker} calls", word, *names, *map(str, numbers)]))

    def value(self):
        if self.values == "few":
            return self.draw.randint(0, 3)
        self.fresh += 1
        return self.fresh + self.draw.choice((0, 0, 999999999999999000))

    def effect(self, word, name, *more):
        """Lets a call take effect, and returns its reply, or None if it goes on waiting."""
        state = self.states[name]
        if word in ("advance", "ticket", "v"):
            self.states[name] += 1
            return state if word == "ticket" else "done"
        if word in ("put", "write"):
            self.states[name] = more[0] if word == "put" else more
            return "done"
        if word == "snapshot":
            return " ".join(map(str, state))
        if word in ("read", "get"):
            return state
        if word in ("produce", "consume") and (then := after_on_buffer(state, (word, *more), None)):
            self.states[name] = then
            return "done" if word == "produce" else state[1][0]
        if word == "await" and state >= more[0]:
            return self.draw.choice(("done", state))
        if word in ("p", "pboth") and all(self.states[it] > 0 for it in (name, *more)):
            for it in (name, *more):
                self.states[it] -= 1
            return "done"
        return "timeout" if self.draw.random() < 0.2 else None

    def text(self):
        head = ["evc-calls 1", f"limit {self.limit}", f"workers {' '.join(self.workers)}"]
        return [*head, *self.declarations, *self.starts, "run", *self.lines, "end"]
