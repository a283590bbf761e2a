"""What the objects of calls may return, and whether their calls have a linearization, by trying orders."""

import sys


def after(kind, state, op, reply):
    """Returns the state after a call with this reply, or None if the object cannot return it. A pending
    call has the reply None: it returns what the state gives, and does not time out."""
    name = op[0]
    if kind == "semaphores":
        return after_on_semaphores(state, op, reply)
    if kind == "buffer":
        return after_on_buffer(state, op, reply)
    if name == "put":
        return op[1]
    if name == "get":
        return state if reply in (None, state) else None
    if name == "advance":
        return state + 1
    if name == "ticket":
        return state + 1 if reply in (None, state) else None
    if name == "read":
        return state if reply in (None, state) else None
    if reply == "timeout":
        return state if state < op[1] else None
    return state if state >= op[1] and reply in (None, "done", state) else None


def after_on_semaphores(state, op, reply):
    """Returns the same for semaphores. The state is a sorted tuple of names and units."""
    if reply == "timeout":
        return state
    units = dict(state)
    if op[0] == "give":
        units[op[1]] += 1
        return tuple(sorted(units.items()))
    for name in op[1]:
        units[name] -= 1
    return tuple(sorted(units.items())) if min(units.values()) >= 0 else None


def after_on_buffer(state, op, reply):
    """Returns the same for a buffer. The state is the room and the items inside, the oldest first."""
    room, items = state
    if reply == "timeout":
        return state
    if op[0] == "produce":
        return (room, (*items, op[1])) if len(items) < room else None
    return (room, items[1:]) if items and reply in (None, items[0]) else None


def first_state(part):
    return tuple(sorted(part.start.items())) if part.kind == "semaphores" else part.start


def is_read_only(op, reply):
    """Returns whether the call changes no object."""
    return op[0] in ("read", "await", "get") or reply == "timeout"


class Search:
    """Looks for a linearization of the calls on one object. States from which there is none are kept."""

    def __init__(self, kind, calls):
        self.kind, self.calls = kind, calls
        self.need = sum(1 << i for i, call in enumerate(calls) if call.last is not None)
        self.before = [
            sum(1 << j for j, one in enumerate(calls) if one.precedes(other)) for other in calls
        ]
        self.vain = set()
        self.order = []

    def finds(self, taken, state):
        """Returns whether the calls that are not taken yet can follow. If a completed call may come
        next and is read-only, only that is tried next: it excludes no order of the others."""
        if taken & self.need == self.need:
            return True
        if (taken, state) in self.vain:
            return False
        self.vain.add((taken, state))
        choices = []
        for i, call in enumerate(self.calls):
            if taken >> i & 1 or self.before[i] & ~taken:
                continue
            if call.last is None and is_read_only(call.op, call.reply):
                continue
            then = after(self.kind, state, call.op, call.reply)
            if then is not None:
                choices.append((i, then))
                if is_read_only(call.op, call.reply):
                    choices = choices[-1:]
                    break
        return any(self.takes(taken, i, then) for i, then in choices)

    def takes(self, taken, i, then):
        self.order.append(i)
        if self.finds(taken | 1 << i, then):
            return True
        self.order.pop()
        return False


def search(kind, state, calls):
    """Returns the calls in an order that is a linearization, or None."""
    sys.setrecursionlimit(max(sys.getrecursionlimit(), 20 * len(calls) + 1000))
    tried = Search(kind, calls)
    return [calls[i] for i in tried.order] if tried.finds(0, state) else None


def first_with(holds, positions):
    """Returns the first of these ascending positions for which this holds, or None. If it holds for
    a position, it holds for all later ones."""
    low, high = 0, len(positions)
    while low < high:
        middle = (low + high) // 2
        if holds(positions[middle]):
            high = middle
        else:
            low = middle + 1
    return positions[low] if low < len(positions) else None


def fault_by_search(part):
    """Returns the position of the first event with which the part has no linearization, or None."""
    state = first_state(part)
    fails = lambda position: search(part.kind, state, part.before(position + 1)) is None
    return first_with(fails, part.responses())
