"""The calls that workers make on groups. Each function yields acts, and is sent the reply to each completed call.

`values` are what is put. `found` is called with the turn or the version that a worker has found, and the values there.
"""


def ignored(*_):
    """Takes no note of what a worker has found."""


def calls_on(group, worker, values, found=ignored):
    """Returns the calls that a worker makes on a buffer or a database, once."""
    if group.kind == "buffer":
        return produce(group, values, found) if worker in group.writers else consume(group, found)
    return write(group, values) if worker in group.writers else snapshot(group, found)


def turn_at(buffer, ticket, mine, theirs, ahead):
    """Draws a ticket, awaits its turn, and the other side so far ahead of that. Returns the turn and its cell."""
    turn = yield "ticket", f"{buffer.name}.{ticket}"
    yield "await", f"{buffer.name}.{mine}", turn
    yield "await", f"{buffer.name}.{theirs}", max(0, turn + ahead)
    return turn, f"{buffer.name}[{turn % buffer.size}]"


def produce(buffer, values, found):
    turn, cell = yield from turn_at(buffer, "put", "in", "out", 1 - buffer.size)
    found(turn, [])
    yield "put", cell, next(values)
    yield "advance", f"{buffer.name}.in"


def consume(buffer, found):
    turn, cell = yield from turn_at(buffer, "take", "out", "in", 1)
    found(turn, [(yield "get", cell)])
    yield "advance", f"{buffer.name}.out"


def write(database, values):
    yield "advance", f"{database.name}.start"
    turn = yield "ticket", f"{database.name}.turn"
    yield "await", f"{database.name}.done", turn
    for place in range(database.size):
        yield "put", f"{database.name}[{place}]", next(values)
    yield "advance", f"{database.name}.done"


def snapshot(database, found):
    """Makes one try of a snapshot. It has found a version if no write has begun in the meantime."""
    version = yield "read", f"{database.name}.start"
    yield "await", f"{database.name}.done", version
    values = []
    for place in range(database.size):
        values.append((yield "get", f"{database.name}[{place}]"))
    if (yield "read", f"{database.name}.start") == version:
        found(version, values)


def enter(semaphore, ticket):
    yield "await", f"{semaphore.name}.v", max(0, ticket + 1 - semaphore.size)
    semaphore.downs += 1


def down(semaphore):
    ticket = yield "ticket", f"{semaphore.name}.p"
    yield from enter(semaphore, ticket)


def up(semaphore):
    yield "advance", f"{semaphore.name}.v"


def down_and_up(semaphore):
    yield from down(semaphore)
    yield from up(semaphore)


def down_and_up_both(both, pair, found=ignored):
    """Makes P on two semaphores at once, with tickets drawn in the critical section of `both`, and then V on each."""
    yield from down(both)
    tickets = []
    for it in pair:
        tickets.append((yield "ticket", f"{it.name}.p"))
    found(tickets)
    yield from up(both)
    for it, ticket in zip(pair, tickets):
        yield from enter(it, ticket)
    for it in pair:
        yield from up(it)
