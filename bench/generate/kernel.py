"""A small simulator of the kernel: it declares objects and groups, and makes the reply to each act of a worker."""

from dataclasses import dataclass


@dataclass
class Eventcount:
    """An eventcount: the component of each signaller, and the counts."""

    components: dict
    observers: list
    is_transferable: bool
    counts: list


@dataclass
class Sequencer:
    takers: list
    issued: int = 0


@dataclass
class Cell:
    writers: list
    readers: list
    value: int = 0


@dataclass
class PendingCall:
    """A pending read or await: what its round has read so far. A read is an await of 0: any total completes it."""

    eventcount: str
    threshold: int
    component: int = 0
    total: int = 0


@dataclass
class Group:
    """A group. Producers and users are its writers, and consumers its readers. The size of a semaphore is its initial
    value, and `downs` is how many P on it are completed."""

    kind: str
    name: str
    size: int
    writers: list
    readers: list = ()
    downs: int = 0


def entry_of(worker, act, reply):
    """Returns the line of an entry. (A format takes half as long as a join.)"""
    return ("%s " * len(act) + "%s = %s\n") % (worker, *act, reply)


class Kernel:
    """Declared objects, and the state of a run on them."""

    def __init__(self, version, limit, workers):
        self.version, self.limit, self.workers = version, limit, workers
        self.declared, self.groups = [], []
        self.eventcounts, self.sequencers, self.cells, self.pending = {}, {}, {}, {}

    def header(self):
        """Returns the text before the first entry."""
        lines = [f"evc-trace {self.version}", f"limit {self.limit}", f"workers {' '.join(self.workers)}"]
        return "".join(line + "\n" for line in [*lines, *self.declared, "run"])

    def total(self, eventcount):
        return sum(self.eventcounts[eventcount].counts)

    # Declarations

    def declare(self, line, **rights):
        """Adds a line to the header. It leaves out a right that no worker has."""
        named = (f"{right} {' '.join(workers)}" for right, workers in rights.items() if workers)
        self.declared.append(" ".join([line, *named]))

    def add_eventcount(self, name, signal, observe, is_transferable=False):
        components = {worker: place for place, worker in enumerate(signal)}
        self.eventcounts[name] = Eventcount(components, observe, is_transferable, [0] * len(signal))

    def add_cells(self, name, size, write, read):
        self.cells.update({f"{name}[{place}]": Cell(write, read) for place in range(size)})

    def add_semaphore(self, kind, name, initial, use):
        self.add_eventcount(f"{name}.v", use, use)
        self.sequencers[f"{name}.p"] = Sequencer(use)
        self.groups.append(Group(kind, name, initial, use))

    def declare_eventcount(self, name, signal, observe):
        self.declare(f"eventcount {name}", signal=signal, observe=observe)
        self.add_eventcount(name, signal, observe, self.version > 1)

    def declare_sequencer(self, name, take):
        self.declare(f"sequencer {name}", take=take)
        self.sequencers[name] = Sequencer(take)

    def declare_cells(self, name, size, write, read):
        self.declare(f"cells {name} {size}", write=write, read=read)
        self.add_cells(name, size, write, read)

    def declare_buffer(self, name, size, produce, consume):
        self.declare(f"buffer {name} {size}", produce=produce, consume=consume)
        self.add_eventcount(f"{name}.in", produce, produce + consume)
        self.add_eventcount(f"{name}.out", consume, produce + consume)
        self.sequencers.update({f"{name}.put": Sequencer(produce), f"{name}.take": Sequencer(consume)})
        self.add_cells(name, size, produce, consume)
        self.groups.append(Group("buffer", name, size, produce, consume))

    def declare_database(self, name, size, write, read):
        self.declare(f"database {name} {size}", write=write, read=read)
        self.add_eventcount(f"{name}.start", write, read)
        self.add_eventcount(f"{name}.done", write, write + read)
        self.sequencers[f"{name}.turn"] = Sequencer(write)
        self.add_cells(name, size, write, read)
        self.groups.append(Group("database", name, size, write, read))

    def declare_semaphore(self, name, initial, use):
        self.declare(f"semaphore {name} {initial}", use=use)
        self.add_semaphore("semaphore", name, initial, use)

    def declare_both(self, use):
        self.declare("both", use=use)
        self.add_semaphore("both", "both", 1, use)

    # Steps. Each returns the reply, or None if the act is refused.

    def step(self, worker, act):
        verb = act[0]
        if (verb == "go") != (worker in self.pending):
            return None
        return getattr(self, "wait" if verb == "await" else verb)(worker, *act[1:])

    def advance(self, worker, eventcount):
        it = self.eventcounts[eventcount]
        component = it.components.get(worker)
        if component is None or it.counts[component] == self.limit:
            return None
        it.counts[component] += 1
        return "done"

    def hand(self, worker, eventcount, receiver):
        it = self.eventcounts[eventcount]
        if not it.is_transferable or worker not in it.components or receiver in it.components:
            return None
        it.components[receiver] = it.components.pop(worker)
        return "done"

    def ticket(self, worker, sequencer):
        it = self.sequencers[sequencer]
        if worker not in it.takers or it.issued == self.limit:
            return None
        it.issued += 1
        return it.issued - 1

    def put(self, worker, cell, value):
        it = self.cells[cell]
        if worker not in it.writers:
            return None
        it.value = value
        return "done"

    def get(self, worker, cell):
        it = self.cells[cell]
        return it.value if worker in it.readers else None

    def read(self, worker, eventcount):
        return self.wait(worker, eventcount, 0)

    def wait(self, worker, eventcount, threshold):
        if worker not in self.eventcounts[eventcount].observers:
            return None
        self.pending[worker] = PendingCall(eventcount, threshold)
        return self.go(worker)

    def go(self, worker):
        """Reads one component. If the last one makes too small a total, a new round begins."""
        call = self.pending[worker]
        counts = self.eventcounts[call.eventcount].counts
        call.total += counts[call.component]
        call.component += 1
        if call.component == len(counts):
            if call.total >= call.threshold:
                del self.pending[worker]
                return call.total
            call.component = call.total = 0
        return "pending"
