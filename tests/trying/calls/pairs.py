"""Decides a buffer with one producer and one consumer, event by event."""


def is_pair(history, name):
    """Returns whether just one worker may produce into this buffer, and just one may consume."""
    _, produce, consume = history.buffers[name]
    return len(produce) == len(consume) == 1


def items_of_pair(calls):
    """Returns the items that were put in, or may have been, and those that were returned, in the order of the calls. A
    call that gave up has no effect."""
    calls = sorted((call for call in calls if call.reply != "timeout"), key=lambda call: call.first)
    put = [call.op[1] for call in calls if call.op[0] == "produce"]
    return put, [call.reply for call in calls if call.op[0] == "consume" and call.last is not None]


def flows(room, put, taken, is_producing, is_consuming):
    """Returns whether what was returned is a beginning of what was put in, and what is left has room. The last item may
    not have been put in if its produce is pending, and a pending consume may have taken one."""
    fits = lambda put, more: put[: len(taken)] == taken and 0 <= len(put) - len(taken) - more <= room
    puts = [put, put[:-1]] if is_producing else [put]
    return any(fits(it, more) for it in puts for more in range(1 + is_consuming))


def flows_at(part, position):
    """Returns whether the items flow after the event at this position."""
    calls = part.before(position + 1)
    pending = [call.op[0] for call in calls if call.last is None]
    return flows(part.start[0], *items_of_pair(calls), "produce" in pending, "consume" in pending)


def fault_of_pair(part):
    """Returns the position of the first event with which the part has no linearization, or None: a history has one
    exactly if its items flow at each moment. (An invocation only adds what may be.)"""
    return next((it for it in part.responses() if not flows_at(part, it)), None)
