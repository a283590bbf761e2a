"""Traces for bench/run. A small simulator (generate/) makes each reply, so that every trace is right.

A kind of traces has a function that declares its objects, and one that yields the entries of its workers. Its `choose`
returns one of several things by chance.
"""

import itertools
import random

from generate.recording import Recording

# Room for the longest entry that is written here, and for the last line.
LONGEST = 64

# The cells of a buffer and of a database, the initial value of a semaphore, and what is put into other cells.
CELLS = 8
INITIAL = 3
VALUES = (0, 7, 10, 365, 1979, 65536, 1000000, 123456789)


def by_chance(kernel, choose, act_of):
    """Yields entries of workers whose turns come by chance."""
    return kernel.entries(lambda: choose(kernel.workers), act_of)


def ordinary_kernel(version=1):
    kernel = Recording(4, version)
    alice, bob, carol, dave = kernel.workers
    kernel.declare_eventcount("Events", [alice, bob], [carol, dave])
    kernel.declare_eventcount("Ready", [carol], [alice, dave])
    kernel.declare_sequencer("Turns", [alice, bob, dave])
    return kernel


def ordinary(kernel, choose):
    """Yields entries of a few workers: usually advances and tickets, some reads, and some awaits of the next advance."""
    alice, bob, carol, dave = kernel.workers
    acts = {
        alice: [("advance", "Events")] * 6 + [("ticket", "Turns")],
        bob: [("advance", "Events")] * 5 + [("ticket", "Turns")] * 2,
        carol: [("read", "Events"), ("advance", "Ready")],
        dave: [("read", "Events"), ("await", "Events"), ("ticket", "Turns"), ("read", "Ready")],
    }
    turns = [alice] * 4 + [bob] * 3 + [carol] * 2 + [dave]

    def act_of(worker):
        act = choose(acts[worker])
        return (*act, kernel.total("Events") + 1) if act[0] == "await" else act

    return kernel.entries(lambda: choose(turns), act_of)


def many_components_kernel():
    kernel = Recording(16)
    kernel.declare_eventcount("Events", kernel.workers, kernel.workers)
    return kernel


def interleaved(kernel, choose):
    """Yields entries of reads that overlap: some 13 of the 16 workers have one pending, and advances overtake them."""
    acts = ["advance", "advance", "advance", "read"]
    return by_chance(kernel, choose, lambda _: (choose(acts), "Events"))


def reads(kernel, choose):
    """Yields entries of reads of 16 components, one after another: one call in sixteen is an advance."""
    acts = ["advance"] + ["read"] * 15

    def turn():
        return next(iter(kernel.pending), None) or choose(kernel.workers)

    return kernel.entries(turn, lambda _: (choose(acts), "Events"))


def two_components_kernel(version=1):
    kernel = Recording(4, version)
    kernel.declare_eventcount("Events", kernel.workers[:2], kernel.workers)
    return kernel


def transfers(kernel, choose):
    """Yields entries of advances and reads of two components that are transferred: one advance in eight is a `hand`."""
    signallers = kernel.eventcounts["Events"].components

    def act_of(worker):
        if worker not in signallers:
            return "read", "Events"
        if choose(range(8)):
            return "advance", "Events"
        return "hand", "Events", choose([it for it in kernel.workers if it not in signallers])

    return by_chance(kernel, choose, act_of)


def awaits(kernel, choose):
    """Yields entries of four workers on two components: two advance them, and all await, often one more advance."""
    signallers = kernel.eventcounts["Events"].components

    def act_of(worker):
        if worker in signallers and choose(range(2)):
            return "advance", "Events"
        # (a worker that advances awaits no more than the total, so that some worker can go on)
        more = 0 if worker in signallers else choose(range(2))
        return "await", "Events", kernel.total("Events") + more

    return by_chance(kernel, choose, act_of)


def eventcounts_kernel():
    kernel = Recording(16)
    for number in range(32):
        kernel.declare_eventcount(f"E{number:02}", kernel.workers, kernel.workers)
    return kernel


def advances(kernel, choose):
    names = list(kernel.eventcounts)
    return by_chance(kernel, choose, lambda _: ("advance", choose(names)))


def cells_kernel():
    kernel = Recording(16)
    kernel.declare_cells("X", 256, kernel.workers, kernel.workers)
    return kernel


def puts_and_gets(kernel, choose):
    names = list(kernel.cells)

    def act_of(_):
        cell = choose(names)
        return ("get", cell) if choose((True, False)) else ("put", cell, choose(VALUES))

    return by_chance(kernel, choose, act_of)


# Groups


def buffer_kernel():
    kernel = Recording(4)
    kernel.declare_buffer("B", CELLS, kernel.workers[:2], kernel.workers[2:])
    return kernel.begin()


def snapshots_kernel():
    kernel = Recording(4)
    kernel.declare_database("D", CELLS, kernel.workers[:1], kernel.workers[1:])
    return kernel.begin()


def semaphores_kernel(many):
    kernel = Recording(4)
    for number in range(many):
        kernel.declare_semaphore(f"S{number:02}", INITIAL, kernel.workers)
    return kernel.begin()


def all_groups_kernel():
    kernel = Recording(6)
    put, take, write, read, *users = kernel.workers
    kernel.declare_buffer("B", CELLS, [put], [take])
    kernel.declare_database("D", CELLS, [write], [read])
    for name in ("S00", "S01"):
        kernel.declare_semaphore(name, INITIAL, users)
    kernel.declare_both(users)
    return kernel.begin()


def mixed_kernel():
    kernel = Recording(16)
    makers, takers, writers, readers, users, others = (
        kernel.workers[begin:end] for begin, end in ((0, 2), (2, 4), (4, 5), (5, 7), (7, 11), (11, 16))
    )
    kernel.declare_buffer("B", CELLS, makers, takers)
    kernel.declare_database("D", CELLS, writers, readers)
    kernel.declare_semaphore("S", INITIAL, users)
    kernel.declare_eventcount("Events", others, others)
    kernel.declare_sequencer("Turns", others)
    kernel.declare_cells("X", 4, others, others)
    return kernel.begin()


def in_groups(kernel, choose):
    """Yields entries of workers on groups."""
    return by_chance(kernel, choose, kernel.next_act)


def snapshots(kernel, choose):
    """Yields entries of a writer that seldom begins, and is fast then, so that many tries are accepted."""
    alice, *readers = kernel.workers
    seldom, often = [alice] + readers * 20, [alice] * 3 + readers

    def turn():
        return choose(often if kernel.total("D.start") > kernel.total("D.done") else seldom)

    return kernel.entries(turn, kernel.next_act)


def mixed(kernel, choose):
    """Yields entries of workers on groups, and of others that do everything on objects of no group."""
    acts = (
        lambda: ("advance", "Events"),
        lambda: ("read", "Events"),
        lambda: ("await", "Events", kernel.total("Events")),
        lambda: ("ticket", "Turns"),
        lambda: ("put", "X[3]", choose(VALUES)),
        lambda: ("get", "X[3]"),
    )
    return by_chance(kernel, choose, lambda it: kernel.next_act(it) if it in kernel.acts else choose(acts)())


# The kinds of traces.
KINDS = {
    "ordinary": (ordinary_kernel, ordinary),
    "interleaved reads": (many_components_kernel, interleaved),
    "version 2": (lambda: ordinary_kernel(2), ordinary),
    "transfers": (lambda: two_components_kernel(2), transfers),
}

# Those for `audit`, and those of so many semaphores.
AUDITED = {
    "buffer": (buffer_kernel, in_groups),
    "snapshots": (snapshots_kernel, snapshots),
    "all groups": (all_groups_kernel, in_groups),
}
SEMAPHORES = {f"{many} semaphores": (lambda many=many: semaphores_kernel(many), in_groups) for many in (1, 8, 32)}

# Those for the baseline in plain Rust (texts.rs): each has many lines of one sort, and one has all sorts.
SORTS = {
    "32 eventcounts": (eventcounts_kernel, advances),
    "256 cells": (cells_kernel, puts_and_gets),
    "reads of 16 components": (many_components_kernel, reads),
    "awaits": (two_components_kernel, awaits),
    "mixed lines": (mixed_kernel, mixed),
}


def write_trace(path, kind, size, most=None):
    """Writes a trace of at most `size` bytes, with as many entries as fit or `most`, and returns the kernel at its end."""
    make_kernel, entries = {**KINDS, **AUDITED, **SEMAPHORES, **SORTS}[kind]
    kernel = make_kernel()
    with open(path, "w", encoding="ascii", newline="\n") as file:
        written = file.write(kernel.header())
        for line in itertools.islice(entries(kernel, random.Random(1).choice), most):
            written += file.write(line)
            if written + LONGEST > size:
                break
        file.write("end\n")
    # (each worker processes the reply of its last call)
    for worker in kernel.acts:
        if worker not in kernel.pending:
            kernel.next_act(worker)
    return kernel
