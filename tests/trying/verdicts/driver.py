"""What crates/calls_tests writes of histories of calls, compared with what trying every order finds."""

import itertools
import sys

from trying.counting import Count
from trying.running import run
from trying.verdicts.brute import Calls, first_fault, first_state, is_got_from_nowhere, is_open, monitor_stop, step
from trying.verdicts.buffers import undecided_faults
from trying.verdicts.certificates import certificate_faults


def order_faults(kinds, events, placed):
    """Returns what is wrong with an order: a list of (point, worker, object, op, reply)."""
    calls = Calls(kinds, events).calls
    end = len(events)
    left = list(range(len(calls)))
    states = [first_state(kind) for kind in kinds]
    latest = 0
    for point, worker, k, op, reply in placed:
        own = [
            i
            for i in left
            if calls[i][0] == worker and calls[i][1:3] == [k, op] and calls[i][4] < point
        ]
        own = [
            i for i in own if calls[i][5] is None or (point <= calls[i][5] and calls[i][3] == reply)
        ]
        if not own:
            return f"no such call at point {point}"
        left.remove(own[0])
        if point < latest or point > end:
            return f"points do not ascend at {point}"
        latest = point
        states[k] = step(states[k], op, reply)
        if states[k] is None:
            return f"the object can't give {reply} to {op} at point {point}"
    if any(calls[i][5] is not None for i in left):
        return "a completed call is missing"
    return None


def read_reply(word):
    return int(word) if word.isdigit() else word


def read_verdicts(text):
    """Yields the verdicts of the driver, one for each history."""
    lines = iter(text.split("\n"))
    for line in lines:
        if not line:
            continue
        name, *rest = line.split()
        if name == "linearizable":
            placed = []
            for line in lines:
                if line == "end":
                    break
                words, reply = line.split(" = ")
                point, worker, k, op, *args = words.split()
                placed.append(
                    (int(point), worker, int(k), [op, *map(int, args)], read_reply(reply))
                )
            yield name, placed
        else:
            yield name, rest


def text_of(kinds, events):
    lines = [" ".join(map(str, kind)) for kind in kinds] + ["run"]
    for worker, what, *rest in events:
        words = [rest[0], *rest[1]] if what == "calls" else rest
        lines.append(" ".join(map(str, [worker, what, *words])))
    return "\n".join(lines) + "\nend\n"


def compare(kinds, events, verdict, stopped):
    """Returns what is wrong with a verdict on a history, or with where the monitor stopped."""
    name, rest = verdict
    parts = range(len(kinds))
    fault = first_fault(kinds, events)
    right = monitor_stop(kinds, events)
    if stopped != right:
        return f"the monitor stopped at {stopped}, and should at {right}"
    if name == "linearizable":
        if fault is not None:
            return f"linearizable, but it has none with event {fault}"
        return order_faults(kinds, events, rest)
    if name == "undecided":
        k = int(rest[0])
        if kinds[k][0] == "buffer":
            return undecided_faults(kinds[k], events, k, int(rest[2]))
        if is_got_from_nowhere(events, k):
            return "undecided, and a value was got that was never put"
        return None if is_open(kinds[k], events, k) else "undecided, and the cell is of a decided class"
    if name != "refused":
        return f"the verdict {name}"
    at, k = int(rest[0]), int(rest[1])
    late = any(is_open(kinds[j], events, j) for j in parts)
    if fault != at and not (late and fault is not None and fault < at):
        return f"refused at {at}, but the first fault is {fault}"
    return certificate_faults(kinds, events, at, k, rest[2], rest[3:])


def answer(driver, mode, text):
    status, output, notes = run([driver, mode], text.encode(), None)
    if status != 0:
        sys.exit(f"run-calls: {driver} {mode} ended with status {status}: {notes[:300]}")
    return output.decode()


def stops_of(driver, text, mode="monitor"):
    """Returns for each history where the monitor stops, or None."""
    return [None if word == "-" else int(word) for word in answer(driver, mode, text).split()]


def try_histories(driver, name, histories, most=None):
    """Compares the verdicts on histories with a search. If `most` is given, at most so many may stay undecided."""
    part, unclear = Count(name), 0
    while batch := list(itertools.islice(histories, 20000)):
        text = "".join(text_of(kinds, events) for kinds, events in batch)
        verdicts, stops = list(read_verdicts(answer(driver, "decide", text))), stops_of(driver, text)
        if not len(batch) == len(verdicts) == len(stops):
            sys.exit("run-calls: another number of verdicts or stops than of histories")
        for (kinds, events), verdict, stopped in zip(batch, verdicts, stops):
            what = compare(kinds, events, verdict, stopped)
            unclear += verdict[0] == "undecided"
            part.add("a history", what and f"{what}\n{text_of(kinds, events)}")
    if most is not None:
        part.add("undecided", None if unclear <= most else f"{unclear} are, instead of {most}")
    return part.end(f", {unclear} undecided" if unclear else "")


def try_spsc(driver, name, histories):
    """Compares where the monitor of a buffer with one producer and one consumer stops with a search."""
    part, batch = Count(name), list(histories)
    stops = stops_of(driver, "".join(text_of(kinds, events) for kinds, events in batch), "spsc")
    if len(stops) != len(batch):
        sys.exit("run-calls: another number of stops than of histories")
    for (kinds, events), stopped in zip(batch, stops):
        fault = first_fault(kinds, events)
        what = None if stopped == fault else f"the monitor stopped at {stopped}, and the first fault is {fault}"
        part.add("a history", what and f"{what}\n{text_of(kinds, events)}")
    return part.end()
