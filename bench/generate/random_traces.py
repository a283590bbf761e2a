"""Random traces of both versions, with all acts and declarations. Workers usually follow their groups."""

import re

from generate.groups import calls_on, down_and_up, down_and_up_both, up
from generate.kernel import Kernel, entry_of

LIMITS = {1: (1, 3, 7, 40, 1000, 4294967295), 2: (2, 5, 50, 4294967295, 4294967296, 281474976710655)}
NAMES = "a b c d E F x1 B_2 w0 w15 alice Zed both_ends readers Eventcount sixteen_letters7 seventh sevenths T S R D q".split()
# What is declared: some of these kinds, or one of these sets of groups.
KINDS = "eventcount eventcount sequencer cells buffer database semaphore semaphore both".split()
SETS = "buffer,buffer database,database,semaphore both semaphore,semaphore semaphore semaphore both".split(",")
VALUES = (0, 7, 10, 1234567, 12345678, 123456789, 999999999999999999)


class World(Kernel):
    """A kernel with random declarations."""

    def __init__(self, draw):
        version = draw.choice((1, 2))
        limit = draw.choice(LIMITS[version])
        self.draw, self.names = draw, draw.sample(NAMES, len(NAMES))
        # (every other text has few workers and only groups, so that they get far in their calls)
        few = draw.random() < 0.5
        workers = draw.choice((2, 3, 4) if few else (1, 2, 3, 4, 4, 8, 16))
        super().__init__(version, limit, [self.names.pop() for _ in range(workers)])
        for kind in draw.choice(SETS).split() if few else [None] * draw.choice((0, 1, 1, 2, 3, 5, 8)):
            self.declare_some(kind or draw.choice(KINDS))

    def some(self, least=1, of=None):
        of = self.workers if of is None else of
        return self.draw.sample(of, self.draw.randint(min(least, len(of)), len(of)))

    def name(self):
        if self.names:
            return self.names.pop()
        return f"N{len(self.declared)}_{self.draw.randint(0, 99999)}"

    def declare_some(self, kind):
        """Declares an object or a group of this kind, if there is room for it."""
        if len(self.eventcounts) > 29 or len(self.sequencers) > 29:
            return
        if kind == "eventcount":
            self.declare_eventcount(self.name(), self.some(), self.some(0))
        elif kind == "sequencer":
            self.declare_sequencer(self.name(), self.some())
        elif kind == "semaphore":
            name, users = self.name(), self.some(2)
            self.declare_semaphore(name, self.draw.choice((0, 1, 1, 1, 2, 3, 1000000)), users)
        elif kind != "both":
            self.declare_some_cells(kind)
        elif "both.v" not in self.eventcounts:
            self.declare_both(self.some(2))

    def declare_some_cells(self, kind):
        size = self.draw.choice((1, 1, 2, 3, 8, 60) if kind == "cells" else (1, 1, 1, 2, 2, 3, 12))
        if len(self.cells) + size > 256 or (kind != "cells" and len(self.workers) < 2):
            return
        name = self.name()
        if kind == "cells":
            self.declare_cells(name, size, self.some(), self.some(0))
            return
        writers = self.draw.sample(self.workers, self.draw.randint(1, max(1, len(self.workers) // 2)))
        readers = self.some(1, [it for it in self.workers if it not in writers])
        (self.declare_buffer if kind == "buffer" else self.declare_database)(name, size, writers, readers)

    def is_of_group(self, name):
        return re.split(r"[.[]", name)[0] in [it.name for it in self.groups]


# Workers. Each is a generator of acts that is sent the reply of each call.


def some_act(world):
    draw = world.draw
    acts = []
    if world.eventcounts:
        event = draw.choice(list(world.eventcounts))
        threshold = max(0, world.total(event) + draw.randint(-1, 2))
        acts += [("advance", event), ("advance", event), ("read", event), ("read", event)]
        acts += [("await", event, threshold), ("hand", event, draw.choice(world.workers))]
    if world.sequencers:
        acts.append(("ticket", draw.choice(list(world.sequencers))))
    if world.cells:
        cell = draw.choice(list(world.cells))
        acts += [("put", cell, draw.choice(VALUES)), ("get", cell)]
    return draw.choice(acts or [("go",)])


def any_acts(world, _):
    while True:
        yield some_act(world)


def refused():
    """Yields an act that is refused as long as the worker has no pending call."""
    yield ("go",)


def in_group(world, worker, group):
    """Returns the calls of a worker on a group, once."""
    draw = world.draw
    if group.kind == "both":
        pair = [it for it in world.groups if it.kind == "semaphore" and worker in it.writers]
        return down_and_up_both(group, draw.sample(pair, 2)) if len(pair) > 1 else refused()
    if group.kind == "semaphore":
        return down_and_up(group) if draw.random() < 0.6 else up(group)
    values = iter(lambda: draw.randint(0, 99 if group.kind == "buffer" else 10 ** draw.randint(0, 17)), None)
    return calls_on(group, worker, values)


def follower(world, worker, strays):
    """Yields calls on the worker's groups, and acts on what belongs to no group."""
    groups = [it for it in world.groups if worker in (*it.writers, *it.readers)]
    while True:
        act = some_act(world)
        if world.draw.random() < strays or (len(act) > 1 and not world.is_of_group(act[1])):
            yield act
        elif groups:
            yield from in_group(world, worker, world.draw.choice(groups))
        else:
            yield from refused()


def entries(world, steps, strays):
    """Returns lines of right entries."""
    draw = world.draw
    begin = any_acts if draw.random() < 0.2 else lambda world, worker: follower(world, worker, strays)
    acting = {it: begin(world, it) for it in world.workers}
    due, lines = {}, []
    for _ in range(steps):
        worker = draw.choice(world.workers)
        if worker not in due:
            due[worker] = next(acting[worker])
        act = ("go",) if worker in world.pending else due[worker]
        reply = world.step(worker, act)
        if reply is not None:
            lines.append(entry_of(worker, act, reply))
            if reply != "pending":
                due[worker] = acting[worker].send(reply)
        elif draw.random() < 0.5:
            # (after a refused act the worker sometimes begins again: it may be unable to go on)
            acting[worker] = begin(world, worker)
            due[worker] = next(acting[worker])
    return lines


def random_trace(draw):
    world = World(draw)
    strays = draw.choice((0, 0, 0, 0.01, 0.1))
    lines = entries(world, draw.choice((0, 5, 20, 60, 150, 400, 400)), strays)
    return "".join([world.header(), *lines, "end\n"]).encode()
