"""Decides by the theorems whether the calls on an object have a linearization: counts what shows that there is none."""

import bisect

from trying.calls.search import fault_by_search, first_with


def least_of(call):
    """Returns the least count that a completed read or await leaves possible."""
    if call.reply == "done":
        return call.op[1]
    return 0 if call.reply == "timeout" else call.reply


def most_of(call):
    """Returns the greatest count that it leaves possible, or None if there is none."""
    if call.reply == "timeout":
        return call.op[1] - 1
    return None if call.reply == "done" else call.reply


def readers(calls):
    return [call for call in calls if call.op[0] in ("read", "await") and call.last is not None]


def called_before(calls, position):
    """Returns how many advances were called before the event at this position."""
    return sum(1 for call in calls if call.op == ("advance",) and call.first < position)


def made_between(calls, low, high):
    """Returns how many advances were called and returned between these positions."""
    return sum(
        1
        for call in calls
        if call.op == ("advance",) and call.first > low and (call.last or high) < high
    )


def is_below(call):
    """Returns whether an await returned less than it awaited, or timed out on 0."""
    if call.op[0] != "await" or call.reply == "done":
        return False
    return call.op[1] == 0 if call.reply == "timeout" else call.reply < call.op[1]


def counts_wrong(part, call, others):
    """Returns whether this read or await shows a fault of the eventcount."""
    most = most_of(call)
    if is_below(call) or part.start + called_before(part.calls, call.last) < least_of(call):
        return True
    if most is None:
        return False
    made = sorted(one.first for one in part.calls if one.op == ("advance",) and one.precedes(call))
    since = lambda position: len(made) - bisect.bisect(made, position)
    return most < part.start + len(made) or any(
        one.precedes(call) and most < least_of(one) + since(one.last) for one in others
    )


def fault_of_eventcount(part):
    others = readers(part.calls)
    return min((one.last for one in others if counts_wrong(part, one, others)), default=None)


def may_have_drawn(calls, call):
    """Returns how many tickets can have drawn the numbers up to that of this completed call."""
    return sum(
        1
        for one in calls
        if (one.first < call.last if one.last is None else one.reply <= call.reply)
    )


def tickets_fail(calls):
    """Returns whether tickets show a fault: a number returned twice, two in the wrong order, or too few."""
    known = [call for call in calls if call.last is not None]
    if len({call.reply for call in known}) < len(known):
        return True
    if any(one.precedes(other) and one.reply > other.reply for one in known for other in known):
        return True
    return any(may_have_drawn(calls, call) <= call.reply for call in known)


def fault_of_sequencer(part):
    return first_with(lambda at: tickets_fail(part.before(at + 1)), part.responses())


def takers(calls, name, position):
    """Returns how many calls had taken a unit of this semaphore, up to the event at this position."""
    return sum(
        1
        for call in calls
        if call.op[0] == "take" and name in call.op[1] and call.reply == "done"
        if call.last <= position
    )


def givers(calls, name, position):
    return sum(1 for call in calls if call.op == ("give", name) and call.first < position)


def fault_of_semaphores(part):
    def is_wrong(call):
        return call.op[0] == "take" and call.reply == "done" and any(
            takers(part.calls, name, call.last)
            > part.start[name] + givers(part.calls, name, call.last)
            for name in call.op[1]
        )

    return min((call.last for call in part.calls if is_wrong(call)), default=None)


def value_of(call):
    """Returns the value of a put, or of a get that returned, or None."""
    return call.op[1] if call.op[0] == "put" else call.reply


def puts_of(calls):
    return [call for call in calls if call.op[0] == "put"]


def gets_of(calls):
    return [call for call in calls if call.op[0] == "get" and call.last is not None]


def times_put(calls, start, value):
    """Returns how often a value was put. The cell's first value was put at the start."""
    return sum(1 for call in puts_of(calls) if call.op[1] == value) + (value == start)


def overlap(one, other):
    return not one.precedes(other) and not other.precedes(one)


def puts_overlap(calls):
    puts = sorted(puts_of(calls), key=lambda call: call.first)
    return any(not one.precedes(other) for one, other in zip(puts, puts[1:]))


def doubled(calls, start):
    """Returns the values that were returned by gets, and put more than once."""
    return {call.reply for call in gets_of(calls) if times_put(calls, start, call.reply) > 1}


def is_open(part):
    """Returns whether the part is a cell that is not decided, unless a value was got that was never put."""
    if part.kind != "cell" or not puts_overlap(part.calls):
        return False
    return bool(doubled(part.calls, part.start))


def is_nowhere(get, calls, start):
    """Returns whether a get returned a value that was never put until then."""
    return get.reply != start and not any(put.op[1] == get.reply and put.first < get.last for put in puts_of(calls))


def first_nowhere(part):
    """Returns the position of the first response of a get of a value that was never put until then, or None."""
    gets = (get for get in gets_of(part.calls) if is_nowhere(get, part.calls, part.start))
    return min((get.last for get in gets), default=None)


def blocks_of(calls, start):
    """Yields the blocks of calls of a cell whose returned values were each put once: the calls of one
    value are a block, and so is a put whose value was not returned. Each block is given by its least
    response, its greatest invocation, and whether it is that of the first value."""
    got, blocks = {call.reply for call in gets_of(calls)}, {}
    for at, call in enumerate(puts_of(calls) + gets_of(calls)):
        value = value_of(call)
        blocks.setdefault(value if value in got else (at, "by itself"), []).append(call)
    far = max((call.first for call in calls), default=0) + len(calls) + 2
    for block in blocks.values():
        ends = [far if call.last is None else call.last for call in block]
        is_first = start in got and value_of(block[0]) == start
        yield min(ends), max(call.first for call in block), is_first


def distinct_fails(calls, start):
    """Returns whether a cell has a fault, if no value that a get returned was put more than once."""
    if any(is_nowhere(get, calls, start) for get in gets_of(calls)):
        return True
    blocks = list(blocks_of(calls, start))
    for at, (end, begin, is_first) in enumerate(blocks):
        for other_end, other_begin, other_is_first in blocks[at + 1 :]:
            # (what was put at the start comes before all else)
            if (is_first or end < other_begin) and other_end < begin:
                return True
            if other_is_first and end < other_begin:
                return True
    return False


def serial_fails(calls, start):
    """Returns whether a cell whose puts do not overlap has a fault: each get takes the earliest put
    that it may have seen, and for one get none is left."""
    puts = sorted(puts_of(calls), key=lambda call: call.first)
    values, placed = [start] + [call.op[1] for call in puts], []
    for get in sorted(gets_of(calls), key=lambda call: call.first):
        low = sum(1 for put in puts if put.precedes(get))
        high = sum(1 for put in puts if put.first < get.last)
        low = max([low] + [at for at, one in placed if one.precedes(get)])
        at = next((at for at in range(low, high + 1) if values[at] == get.reply), None)
        if at is None:
            return True
        placed.append((at, get))
    return False


def fault_of_cell(part):
    if is_open(part):
        raise ValueError(f"{part.key} is not decided")
    fails = serial_fails if doubled(part.calls, part.start) else distinct_fails
    return first_with(lambda at: fails(part.before(at + 1), part.start), part.responses())


def fault_of_buffer(part):
    """(There is no theorem that decides each buffer, so orders are tried.)"""
    return fault_by_search(part)


def fault_by_theorem(part):
    """Returns the same as `fault_by_search`, for a part that is decided."""
    return globals()[f"fault_of_{part.kind}"](part)
