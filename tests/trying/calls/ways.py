"""Compares the two ways of the second reading, orders and theorems, on random calls of one object."""

import random

from trying.calls.reader import read
from trying.calls.remarks import surely, surely_by_search
from trying.calls.search import fault_by_search
from trying.calls.verdict import judge
from trying.counting import Count

ALPHABETS = {
    "eventcount E signal a b c d observe a b c d": [
        ("advance E", ["done"]),
        ("read E", ["0", "1", "2", "3"]),
        ("await E 1", ["done", "timeout", "1", "2"]),
        ("await E 2", ["done", "timeout", "1", "2"]),
    ],
    "sequencer T take a b c d": [("ticket T", ["0", "1", "2", "3"])],
    "cells X 1 write a b c d read a b c d": [
        ("put X[0] 1", ["done"]),
        ("put X[0] 2", ["done"]),
        ("put X[0] 3", ["done"]),
        ("put X[0] 0", ["done"]),
        ("get X[0]", ["0", "1", "2", "3"]),
        ("get X[0]", ["1", "2"]),
    ],
    "database D 1 write a b read c d": [
        ("write D 1", ["done"]),
        ("write D 2", ["done"]),
        ("snapshot D", ["0", "1", "2"]),
    ],
    "semaphore R 1 use a b c d\nsemaphore S 0 use a b c d\nboth use a b c d": [
        ("p R", ["done", "timeout"]),
        ("p S", ["done"]),
        ("v R", ["done"]),
        ("v S", ["done"]),
        ("pboth R S", ["done"]),
    ],
}


def random_part(draw, declaration, letters):
    """Returns a text of random calls on one object, with random replies."""
    busy, lines = {}, []
    for _ in range(draw.randint(2, 20)):
        worker = draw.choice("abcd")
        if worker in busy:
            lines.append(f"{worker} returns {draw.choice(busy.pop(worker))}")
            continue
        call, replies = draw.choice(letters)
        if call.startswith(("write", "snapshot")):
            worker = draw.choice("ab" if call.startswith("write") else "cd")
        if worker not in busy:
            busy[worker] = replies
            lines.append(f"{worker} calls {call}")
    starts = ["from E 1"] if declaration.startswith("eventcount") and draw.random() < 0.3 else []
    head = ["evc-calls 1", "limit 99", "workers a b c d", declaration, *starts, "run"]
    return "\n".join([*head, *lines, "end", ""])


def counts_agree(history, verdict):
    """Returns whether both ways find the same counts that were surely reached, if the history is linearizable."""
    if verdict.name != "linearizable":
        return True
    counted = [part for part in history.parts() if part.kind == "eventcount"]
    return all(surely(part, history.events) == surely_by_search(part) for part in counted)


def try_ways(count, seed):
    part, draw = Count("the two ways on one object"), random.Random(seed)
    for _ in range(count):
        declaration, letters = draw.choice(list(ALPHABETS.items()))
        text = random_part(draw, declaration, letters)
        (history,), fault = read(text.encode())
        one, other = judge(history, fault_by_search), judge(history)
        is_right = one == other and fault is None and counts_agree(history, one)
        part.add("a history", [] if is_right else f"{one} and {other}\n{text}")
    return part.end()
