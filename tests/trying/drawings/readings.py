"""A second reading of a trace: its objects and entries, its calls, and what the audits of its groups find."""

import functools
import re

from trying.counting import Fault


def signallers(line):
    """Returns the eventcounts that a declaration declares, each with its signallers."""
    word = re.split(r" (?:signal|observe|take|write|read|produce|consume|use) ", " " + line)
    kind, name = (word[0].split() + [""])[:2]
    if kind == "eventcount":
        return {name: word[1].split()}
    if kind == "buffer":
        return {f"{name}.in": word[1].split(), f"{name}.out": word[2].split()}
    if kind == "database":
        return {f"{name}.start": word[1].split(), f"{name}.done": word[1].split()}
    return {f"{name or 'both'}.v": word[1].split()} if kind in ("semaphore", "both") else {}


@functools.lru_cache(64)
def entries_of(text):
    """Returns, for each entry, its worker, the object of its call, the label of its dot (the component that it read or
    incremented, and the number that it read of it), and whether its reply is `pending`."""
    header, body = text.decode().split("\nrun\n")
    events = {name: list(who) for line in header.split("\n") for name, who in signallers(line).items()}
    counts, pending, found = {name: [0] * len(who) for name, who in events.items()}, {}, []
    for line in body.split("\n")[:-2]:
        worker, act, *rest = line.split()
        name, at = pending[worker] if act == "go" else (rest[0], 0)
        label = None
        if act == "advance":
            at = events[name].index(worker)
            counts[name][at] += 1
            label = str(at)
        elif act in ("read", "await", "go"):
            label = f"{at}={counts[name][at]}"
            pending[worker] = name, (at + 1) % len(events[name])
        elif act == "hand":
            events[name][events[name].index(worker)] = rest[1]
        found.append((worker, name, label, line.endswith("= pending")))
    return found


def groups_of(text):
    """Returns the groups that a trace declares, in order: the kind, the name, and the number of cells or the initial
    value of each."""
    found = []
    for line in text.decode().split("\nrun\n")[0].split("\n")[3:]:
        words = line.split()
        if words[0] in ("buffer", "database", "semaphore"):
            found.append((words[0], words[1], int(words[2])))
        elif words[0] == "both":
            found.append(("both", "both", 1))
    return found


@functools.lru_cache(64)
def calls_of(text):
    """Returns the completed calls of a trace, in the order of their responses: the worker, the words, the reply, and
    the first and the last entry of each."""
    begun, found = {}, []
    for at, line in enumerate(text.decode().split("\nrun\n")[1].split("\n")[:-2]):
        call, reply = line.split(" = ")
        worker, *words = call.split()
        if words != ["go"]:
            begun[worker] = (words, at)
        if reply != "pending":
            found.append((worker, begun[worker][0], reply, begun[worker][1], at))
    return found


def pending_calls(text):
    """Returns the first entries of the calls of a trace that are pending at its end."""
    begun = {}
    for at, line in enumerate(text.decode().split("\nrun\n")[1].split("\n")[:-2]):
        call, reply = line.split(" = ")
        worker, *words = call.split()
        begun[worker] = None if reply != "pending" else begun[worker] if words == ["go"] else at
    return [it for it in begun.values() if it is not None]


def moves_of(calls, name, act):
    """Returns the entries that put into a buffer, or that get from it."""
    return [last for _, words, _, _, last in calls if words[0] == act and words[1].split("[")[0] == name]


def tries_of(calls, name, cells):
    """Returns the accepting tries of a database, in the order of their last entries: the lines of `audit`, with the
    first and the last entry of each."""
    lists, found = {}, []
    for worker, words, reply, first, last in calls:
        object_ = words[1].split("[")[0]
        if object_ not in (name, f"{name}.start", f"{name}.done", f"{name}.turn"):
            continue
        own = lists.setdefault(worker, [])
        own.append((words, reply, first, last))
        if own[0][0] == ["read", f"{name}.start"] and len(own) == cells + 3:
            lists[worker] = []
            if own[0][1] == own[-1][1]:
                values = " ".join(it[1] for it in own[2:-1])
                found.append((f"version {name} {own[0][1]} {worker} {values}", own[0][2], last))
        elif own[0][0][0] == "advance" and len(own) == cells + 4:
            lists[worker] = []
    return found


def balances_of(calls, name, initial, entries):
    """Returns the balance of a semaphore at each moment."""
    ups = [last for _, words, _, _, last in calls if words == ["advance", f"{name}.v"]]
    downs = [last for _, words, _, _, last in calls if words[:2] == ["await", f"{name}.v"]]
    return [initial + sum(at < k for at in ups) - sum(at < k for at in downs) for k in range(entries + 1)]


class Findings:
    """The findings that are expected of a trace, given the lines of `audit`, or the name of the group that it says is
    not followed."""

    def __init__(self, text, audit, broken):
        calls, entries = calls_of(text), len(entries_of(text))
        self.arrows, self.shades, self.balances, self.broken = [], [], {}, broken
        for line in audit:
            kind, name, *words = line.split()
            if kind == "delivery":
                put, got = (moves_of(calls, name, act)[int(words[0])] for act in ("put", "get"))
                title = f"{line}, put at entry {put}, got at entry {got}"
                self.arrows.append((title, words[1:3], f"{name}.in", put, got))
            elif kind == "balance":
                self.balances[name] = balances_of(calls, name, int(words[0]), entries)
                if self.balances[name][-1] != int(words[3]):
                    raise Fault(f"own balance of {name}")
        for kind, name, cells in groups_of(text) if audit else []:
            if kind == "database":
                own = [(line, first, last) for line, first, last in tries_of(calls, name, cells)]
                if [it[0] for it in own] != [line for line in audit if line.startswith(f"version {name} ")]:
                    raise Fault(f"own tries of {name}: {own}")
                for line, first, last in own:
                    title = f"{line}, entries {first} to {last}"
                    self.shades.append((title, line.split()[3], f"{name}.start", first, last))


def findings_of(check, text):
    status, answer, notes = check.says("audit", text=text)
    broken = re.match(r"(\w+) not followed: ", notes)
    return Findings(text, answer.split("\n")[1:-2], broken and broken[1])


def objects_of(text):
    """Returns the names by which objects of a trace can be asked for: of its declarations, and of parts of groups."""
    found = []
    for line in text.decode().split("\nrun\n")[0].split("\n")[3:]:
        found += [*signallers(line), line.split()[0] if line.split()[0] == "both" else line.split()[1]]
    return sorted(set(found))


def is_asked(name, names):
    """Returns whether an object was asked for by its name, or by that of its block or its group. No names stand for
    all objects."""
    return not names or any(name == it or name.startswith(f"{it}.") or name.split("[")[0] == it for it in names)
