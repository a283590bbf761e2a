"""The lines of a history of calls: what they declare, and which calls they invoke."""

from trying.calls.format import BOUNDS, MOST_NUMBER, is_digits, is_name, number_of

DECLARATIONS = {
    "eventcount": (False, "signal", "observe", True),
    "sequencer": (False, "take", None, None),
    "cells": (True, "write", "read", True),
    "buffer": (True, "produce", "consume", False),
    "database": (True, "write", "read", False),
    "semaphore": (True, "use", None, None),
}


def declaration_of(words):
    """Returns the sort, the name, the number and the two lists of a line that has the form of a
    declaration, or None."""
    if words[0] == "both":
        is_one = len(words) > 2 and words[1] == "use"
        return ("both", None, None, words[2:], []) if is_one else None
    if words[0] not in DECLARATIONS:
        return None
    has_number, first, second, may_miss = DECLARATIONS[words[0]]
    at = 3 if has_number else 2
    if len(words) < at + 2 or words[at] != first or (has_number and not is_digits(words[2])):
        return None
    one, other = words[at + 1 :], []
    if second in one:
        place = one.index(second)
        one, other = one[:place], one[place + 1 :]
        if not one or not other:
            return None
    elif second is not None and not may_miss:
        return None
    number = number_of(words[2]) if has_number else None
    return words[0], words[1], number, one, other


def declared(history, sort, name, number, one, other):
    """Adds what is declared, and returns the kinds of its faults."""
    kinds = set()
    if sort == "both":
        if history.both is not None:
            kinds.add(4)
    else:
        if not is_name(name):
            kinds.add(3)
        if name in history.taken:
            kinds.add(4)
        history.taken.add(name)
    for group in (one, other):
        known = [word for word in group if word in history.workers]
        if len(set(known)) < len(known):
            kinds.add(4)
        if len(known) < len(group):
            kinds.add(5)
    least, most = (0, 1000000) if sort == "semaphore" else (1, 256)
    if number is not None and not least <= number <= most:
        kinds.add(6)
    if sort in ("buffer", "database") and set(one) & set(other):
        kinds.add(9)
    if not kinds - {9}:
        add_objects(history, sort, name, number, set(one), set(other))
        if any(len(getattr(history, table)) > bound for table, bound in BOUNDS.items()):
            kinds.add(7)
    return kinds


def add_objects(history, sort, name, number, one, other):
    """Adds the objects of a declaration to the tables."""
    history.declared.append((sort, name, number))
    if sort == "eventcount":
        history.eventcounts[name] = one, other, False
    elif sort == "sequencer":
        history.sequencers[name] = one, False
    elif sort == "semaphore" or sort == "both":
        if sort == "semaphore":
            history.semaphores[name] = number, one
        else:
            history.both = one
        history.eventcounts[f"{name or 'both'}.v"] = one, one, True
        history.sequencers[f"{name or 'both'}.p"] = one, True
    elif sort == "buffer":
        history.buffers[name] = number, one, other
        history.eventcounts[f"{name}.in"] = one, one | other, True
        history.eventcounts[f"{name}.out"] = other, one | other, True
        history.sequencers[f"{name}.put"] = one, True
        history.sequencers[f"{name}.take"] = other, True
    elif sort == "database":
        history.databases[name] = number, one, other
        history.eventcounts[f"{name}.start"] = one, other, True
        history.eventcounts[f"{name}.done"] = one, one | other, True
        history.sequencers[f"{name}.turn"] = one, True
    if sort in ("cells", "buffer", "database"):
        for at in range(number):
            history.cells[f"{name}[{at}]"] = one, other, sort != "cells"


# For each call: how many words for objects it has, and whether it has no number, one or more.
CALLS = {
    "advance": (1, "none"),
    "read": (1, "none"),
    "await": (1, "one"),
    "ticket": (1, "none"),
    "put": (1, "one"),
    "get": (1, "none"),
    "p": (1, "none"),
    "v": (1, "none"),
    "pboth": (2, "none"),
    "write": (1, "more"),
    "snapshot": (1, "none"),
    "produce": (1, "one"),
    "consume": (1, "none"),
}

# The table of a call's object, and the index in an entry of those who may make the call.
TABLES = {
    "advance": ("eventcounts", 0),
    "read": ("eventcounts", 1),
    "await": ("eventcounts", 1),
    "ticket": ("sequencers", 0),
    "put": ("cells", 0),
    "get": ("cells", 1),
    "p": ("semaphores", 1),
    "v": ("semaphores", 1),
    "pboth": ("semaphores", 1),
    "write": ("databases", 1),
    "snapshot": ("databases", 2),
    "produce": ("buffers", 1),
    "consume": ("buffers", 2),
}


def asked_of(history, words):
    """Returns the object, the operation, the lists of those who may make the call, and the kinds of
    its faults that do not depend on the worker. None if the words do not have the form of a call."""
    name = words[0]
    objects, numbers = CALLS.get(name, (0, "none"))
    counts = {"none": (0, 0), "one": (1, 1), "more": (1, len(words))}
    least, most = counts[numbers]
    given = words[1 + objects :]
    if not objects or not least <= len(given) <= most or len(words) < 1 + objects:
        return None
    if not all(map(is_digits, given)):
        return None
    values = tuple(map(number_of, given))
    named, kinds = words[1 : 1 + objects], set()
    if values and max(values) > MOST_NUMBER:
        kinds.add(6)
    table, place = TABLES[name]
    known = getattr(history, table)
    rights = [known[word][place] for word in named if word in known]
    if len(rights) < objects or (name == "pboth" and history.both is None):
        return named[0], op_of(name, named, values), [], kinds | {5}
    if table not in ("semaphores", "databases", "buffers") and known[named[0]][-1]:
        kinds.add(8)
    if name == "pboth":
        rights.append(history.both)
        if named[0] == named[1]:
            kinds.add(9)
    if name == "write" and len(values) != known[named[0]][0]:
        kinds.add(6)
    return named[0], op_of(name, named, values), rights, kinds


def op_of(name, named, values):
    if name in ("p", "pboth"):
        return "take", tuple(named)
    if name == "v":
        return "give", named[0]
    if name == "write":
        return "put", values
    if name == "snapshot":
        return ("get",)
    return (name, *values)
