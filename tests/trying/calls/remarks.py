"""The remarks on a linearizable history: pending awaits whose threshold was surely reached."""

import itertools

from trying.calls.search import first_state, search
from trying.calls.theorems import least_of, made_between, readers


def surely(part, end):
    """Returns the count that each linearization has reached at the end."""
    reached = [part.start + made_between(part.calls, -1, end)]
    for call in readers(part.calls):
        reached.append(least_of(call) + made_between(part.calls, call.last, end))
    return max(reached)


def surely_by_search(part):
    """Returns the same by trying orders: as few pending advances as possible take effect."""
    done = [call for call in part.calls if call.last is not None]
    pending = [call for call in part.calls if call.last is None and call.op == ("advance",)]
    for number in range(len(pending) + 1):
        for some in itertools.combinations(pending, number):
            if search(part.kind, first_state(part), [*done, *some]) is not None:
                made = sum(call.op == ("advance",) for call in done)
                return part.start + made + number
    return None


def remarks(history):
    """Returns the remarks on a linearizable history, by lines: on pending awaits whose threshold was
    surely reached."""
    found = []
    for part in history.parts():
        for call in part.calls if part.kind == "eventcount" else ():
            if call.last is None and call.op[0] == "await":
                count = surely(part, history.events)
                if call.op[1] <= count:
                    line, asked = history.line_of(call.first), f"{part.key} {call.op[1]}"
                    what = f"{call.worker} awaits {asked}, and the count was surely {count}"
                    found.append((line, f"remark: line {line}: {what}"))
    return [text for _, text in sorted(found)]
