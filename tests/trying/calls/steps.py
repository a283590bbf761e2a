"""A second reading of what `evc-calls of` and `evc-calls trace` write: the calls of a trace, and the trace of calls."""

from trying.running import differing

GROUPS = {b"buffer": (b"in", b"out", b"put", b"take"), b"database": (b"start", b"done", b"turn")}
GROUPS |= {b"semaphore": (b"v", b"p"), b"both": (b"v", b"p")}


def group_objects(lines):
    """Returns the names of the objects of groups, and of the blocks of cells that belong to them."""
    names, blocks = set(), set()
    for line in lines:
        sort, *words = line.split(b" ")
        if sort in GROUPS:
            name = b"both" if sort == b"both" else words[0]
            names |= {name + b"." + part for part in GROUPS[sort]}
            blocks.add(name)
    return names, blocks


def calls_of(trace):
    """Returns the history of the calls of a trace, or None and the note that says why there is none."""
    lines = trace.splitlines()
    run = lines.index(b"run")
    names, blocks = group_objects(lines[3:run])
    calls = [b"evc-calls 1", *lines[1:run], b"run"]
    for place, line in enumerate(lines[run + 1 : -1]):
        call, reply = line.split(b" = ")
        worker, act, *words = call.split(b" ")
        why = None
        if act == b"hand":
            why = b"a component is handed over"
        elif words and (words[0] in names or words[0].split(b"[")[0] in blocks):
            why = b"the object belongs to a group"
        if why:
            return None, b"no history of calls: worker %s entry %d: %s\n" % (worker, place, why)
        if act != b"go":
            calls.append(b" ".join([worker, b"calls", act, *words]))
        if reply != b"pending":
            calls.append(worker + b" returns " + reply)
    return b"".join(line + b"\n" for line in [*calls, b"end"]), b""


def totals_of(order):
    return order[order.index(b"\ntotals\n") :]


def faults_of_calls(calls, evc, trace):
    """Returns what is wrong with what `of` does with a text."""
    status, order, notes = evc.ends(["check"], trace)
    ran = calls.ends(["of"], trace)
    if status != 0:
        right = status, b"", notes
        return differing(ran, right)
    history, note = calls_of(trace)
    right = (0, history, b"") if history else (2, b"", note)
    if ran != right:
        return [f"{ran}, and right is {right}"]
    if not history:
        return []
    status, other, notes = calls.ends(["check"], history)
    # (there is a remark on a pending await whose threshold was reached, as for every history)
    noted = [it for it in notes.splitlines() if not it.startswith(b"remark: ")]
    faults = [f"check ends with {status}, {notes}"] if status or noted else []
    if not faults and totals_of(other) != totals_of(order):
        faults.append("the totals are others")
    return faults + faults_of_trace(calls, evc, history)


def left_note(history, made):
    """Returns the note on the calls that leave no step, if so many are made."""
    events = history.splitlines()
    events = events[events.index(b"run") :]
    count = sum(line.split(b" ")[1:2] == [b"calls"] for line in events) - made
    if count == 0:
        return b""
    if count == 1:
        return b"1 call leaves no step: it timed out, or is pending\n"
    return b"%d calls leave no step: they timed out, or are pending\n" % count


def made_of(history, order):
    """Returns the lines of an order whose calls are made, and the totals then. A pending ticket beyond
    the limit is left out, and so is a call that timed out."""
    limit = int(history.splitlines()[1].split(b" ")[1])
    made, drawn = [], {}
    for line in without_points(order):
        words = line.split(b" ")
        if line.endswith(b" = timeout"):
            continue
        if words[1] == b"ticket":
            drawn[words[2]] = drawn.get(words[2], 0) + 1
            if drawn[words[2]] > limit:
                continue
        made.append(line)
    totals = totals_of(order)
    for name, count in drawn.items():
        old, new = (b"sequencer %s %d\n" % (name, it) for it in (count, min(count, limit)))
        totals = totals.replace(old, new)
    return made, totals


def without_points(order):
    """Returns the lines of an order without their points."""
    lines = order.splitlines()
    return [line.split(b" ", 1)[1] for line in lines[1 : lines.index(b"totals")]]


def is_made_as(call, step):
    """Returns whether a line of the order of steps corresponds to one of the order of calls."""
    one, reply = call.split(b" = ")
    other, given = step.split(b" = ")
    if one != other:
        return False
    is_hidden = reply == b"pending" or (reply == b"done" and b" await " in one)
    return reply == given or is_hidden


def entries_are_together(trace):
    """Returns whether the entries of each call are next to each other."""
    lines = trace.splitlines()
    pending = None
    for line in lines[lines.index(b"run") + 1 : -1]:
        worker, act = line.split(b" ")[:2]
        if (act == b"go") != (pending is not None) or pending not in (None, worker):
            return False
        pending = worker if line.endswith(b" = pending") else None
    return pending is None


def obstacle_of(history):
    """Returns the note on why an accepted history has no trace, or None."""
    lines = history.splitlines()
    end = lines.index(b"end")
    if len(lines) > end + 1:
        return b"line %d: no trace: another history follows\n" % (end + 2)
    run = lines.index(b"run")
    begun = [line.split(b" ")[1] for line in lines[:run] if line.startswith(b"from ")]
    if begun:
        return b"no trace: the count of %s is not 0 at the beginning\n" % begun[0]
    for at, line in enumerate(lines[run:end], start=run + 1):
        words = line.split(b" ")
        if words[1:2] == [b"calls"] and words[2] in b"p v pboth write snapshot produce consume".split():
            return b"line %d: no trace: the call is of a semaphore, a database or a buffer\n" % at
    return None


def faults_of_trace(calls, evc, history):
    """Returns what is wrong with what `trace` does with a text."""
    status, order, notes = calls.ends(["check"], history)
    ran = calls.ends(["trace"], history)
    try:
        first = obstacle_of(history)
    except (ValueError, IndexError):
        first = None
    if first and (status == 0 or ran[0] == 2):
        right = 2, b"", first
        return differing(ran, right)
    if status != 0:
        right = status, b"", notes.splitlines(keepends=True)[-1:]
        same = (ran[0], ran[1], ran[2].splitlines(keepends=True)[-1:]) == right
        return [] if same else [f"{ran}, and right is {right}"]
    made, totals = made_of(history, order)
    if (ran[0], ran[2]) != (0, left_note(history, len(made))):
        return [f"status {ran[0]}, {ran[2]}"]
    status, other, notes = evc.ends(["check"], ran[1])
    if status != 0:
        return [f"evc check of the trace ends with {status}, {notes}"]
    steps = without_points(other)
    faults = []
    if len(steps) != len(made) or not all(map(is_made_as, made, steps)):
        faults.append(f"the calls are {steps}, and right are {made}")
    if totals_of(other) != totals:
        faults.append("the totals are others")
    if not entries_are_together(ran[1]):
        faults.append("the steps of a call do not stand together")
    head = history.splitlines()[1 : history.splitlines().index(b"run") + 1]
    if ran[1].splitlines()[: len(head) + 1] != [b"evc-trace 2", *head]:
        faults.append("the header is another")
    return faults
