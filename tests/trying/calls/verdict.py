"""The verdict on a history of calls: whether it is linearizable, and which event is the first faulty one."""

from typing import NamedTuple, Optional

from trying.calls.search import first_with
from trying.calls.theorems import fault_by_theorem, first_nowhere, is_open


class Verdict(NamedTuple):
    """The verdict on a history: `linearizable`; `refused` with the position of the first faulty
    event; `undecided` with the cells that are not decided; or `unfound`, if it depends on a buffer
    for which the program found nothing."""

    name: str
    position: Optional[int] = None
    cells: tuple = ()


def opened_at(part):
    """Returns the position of the first event with which a part is not decided, unless a value was got that was never
    put, or None."""
    if not is_open(part):
        return None
    ends = sorted(at for call in part.calls for at in (call.first, call.last) if at is not None)
    return first_with(lambda at: is_open(part.cut(at + 1)), ends)


def judge(history, way=fault_by_theorem, but_buffers=False):
    """Returns the verdict on a history, or on its objects but the buffers. An object with a fault
    counts more than one that is not decided. A cell with a fault before the event with which it is
    not decided has that fault; else the first get of a value that was never put is one."""
    unclear, faults = [], []
    for part in history.parts():
        if but_buffers and part.kind == "buffer":
            continue
        opened = opened_at(part)
        fault = way(part if opened is None else part.cut(opened))
        if fault is None and opened is not None:
            fault = first_nowhere(part)
        if fault is not None:
            faults.append(fault)
        elif opened is not None:
            unclear.append(part.key)
    if faults:
        return Verdict("refused", min(faults))
    if unclear:
        return Verdict("undecided", None, tuple(unclear))
    return Verdict("linearizable")
