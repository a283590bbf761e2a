#!/usr/bin/env python3
"""recorder/evc_convert.py: histories of calls from and to the forms of other tools.

    evc_convert.py from-edn [FILE]     Jepsen's EDN: a map for each event, with :process, :type, :f
                                       and :value
    evc_convert.py from-json [FILE]    the same as JSON: a list of objects, or an object a line
    evc_convert.py edn [FILE]          and back
    evc_convert.py json [FILE]

It reads FILE or standard input, and writes on standard output. Nothing of it is proved; what it
wrote is judged by `evc-calls check`. An event has a list as its value, first the object:

    f           value at :invoke       value at :ok
    advance     [:E]
    read        [:E]                   [:E count]
    await       [:E threshold]         [:E count], or [:E] if it returned nothing
    ticket      [:T]                   [:T number]
    put         [:X index value]
    get         [:X index]             [:X index value]
    p, v        [:S]
    pboth       [:R :S]
    write       [:D v1 .. vn]
    snapshot    [:D]                   [:D v1 .. vn]
    produce     [:B item]
    consume     [:B]                   [:B item]

With --register X or --queue B an event has only its value, as in Jepsen's tests: `write` is then a
put into X[0] and `read` a get; `enqueue` is a produce and `dequeue` a consume, also on the way back.
Values are whole numbers from 0, nil in a register is 0. Let each item be another number.

:fail removes the call, as it had no effect; for an await, p, pboth, produce or consume it is a
timeout. :info leaves the call pending, and its process goes on as another worker: p0, then p0_1.
Processes that are no numbers, as :nemesis, are left out. All workers may use all objects; those
that write a database write it, and the others read it, and so with a buffer. A process that
produces and consumes becomes two workers: p0, and p0c, which consumes. --initial S=2 says how many
units a semaphore has at first (1 without it), --from E=3 at which count an eventcount starts (0),
--room B=4 how many items a buffer has room for (all of them).

On the way back the process of a worker is its position in the header, and a timeout is :fail.

The status is 0; 1 and a note if this is no such history; 2 if the words are wrong.
"""

import argparse
import json
import re
import sys

KINDS = {
    "advance": "eventcount",
    "read": "eventcount",
    "await": "eventcount",
    "ticket": "sequencer",
    "put": "cells",
    "get": "cells",
    "p": "semaphore",
    "v": "semaphore",
    "pboth": "semaphore",
    "write": "database",
    "snapshot": "database",
    "produce": "buffer",
    "consume": "buffer",
}
REGISTER = {"read": "get", "write": "put"}
QUEUE = {"enqueue": "produce", "dequeue": "consume"}
TIMED = ("await", "p", "pboth", "produce", "consume")
ANSWERED = ("read", "await", "ticket", "get", "snapshot", "consume")
RESERVED = set(
    """advance await both buffer cells consume database done end eventcount get go hand last limit
    observe p pboth pending produce put read repeat run schedule semaphore sequencer signal snapshot
    take ticket use v worker workers write""".split()
)
LIMIT = 281474976710655


class Fault(Exception):
    """Why the input is no history."""


def need(is_right, what):
    if not is_right:
        raise Fault(what)


# Reading events: a dictionary each.

SPACE = r"(?:[\s,]+|;[^\n]*|#[\w.*/-]*)*"  # (with the tags of records)
TOKEN = re.compile(SPACE + r'("(?:\\.|[^"\\])*"|[{}\[\]()]|[^\s,{}\[\]();"]+)')
CLOSE = {"{": "}", "[": "]", "(": ")"}


def tokens(text):
    at = 0
    while found := TOKEN.match(text, at):
        at = found.end()
        yield found[1]
    rest = re.sub(r"[\s,]+|;[^\n]*", "", text[at:])
    need(not rest, f"this is no EDN: {rest[:40]}")


def edn_item(token, rest):
    """Returns the item that begins with a token."""
    if token in CLOSE:
        items = []
        for it in rest:
            if it == CLOSE[token]:
                is_map = token == "{"
                return dict(zip(map(hashable, items[::2]), items[1::2])) if is_map else items
            items.append(edn_item(it, rest))
        raise Fault(f"the EDN ends within {token}")
    need(token not in CLOSE.values(), f"a {token} too many")
    if token[0] == '"':
        return token[1:-1]
    if re.fullmatch(r"[+-]?\d+N?", token):
        return int(token.rstrip("N"))
    return {"nil": None, "true": True, "false": False}.get(token, token.lstrip(":"))


def hashable(item):
    return tuple(hashable(it) for it in item) if isinstance(item, list) else item


def events_of_edn(text):
    rest = tokens(text)
    found = [edn_item(it, rest) for it in rest]
    if len(found) == 1 and isinstance(found[0], list):
        found = found[0]
    return found


def events_of_json(text):
    try:
        found = json.loads(text)
    except json.JSONDecodeError:
        try:
            found = [json.loads(it) for it in text.splitlines() if it.strip()]
        except json.JSONDecodeError as fault:
            raise Fault(f"this is no JSON: {fault}") from None
    return found if isinstance(found, list) else [found]


# From events to calls.


class Call:
    """A call of a worker: the operation, and the object with the numbers of the call."""

    def __init__(self, worker, f, value):
        self.worker, self.f, self.value = worker, f, value
        self.is_struck, self.reply = False, None

    @property
    def name(self):
        return self.value[0]


def word(item):
    return str(item).lstrip(":")


def numbers(items, what):
    for it in items:
        is_number = isinstance(it, int) and not isinstance(it, bool) and 0 <= it < 10**18
        need(is_number, f"{what}: {it} is no whole number from 0 to 999999999999999999")
    return list(items)


def with_object(event, register, queue):
    """Returns the operation, and the value with its object first."""
    f, value = word(event.get("f")), event.get("value")
    if register:
        need(f in ("read", "write", "get", "put"), f"a register has no {f}")
        return REGISTER.get(f, f), [register, 0, 0 if value is None else value]
    if queue:
        need(f in QUEUE, f"a queue has no {f}")
        return QUEUE[f], [queue] if value is None else [queue, value]
    need(f in KINDS, f"there is no call {f}")
    value = value if isinstance(value, list) else [value]
    need(value and isinstance(value[0], str), f"{f}: the value has no object: {value}")
    return f, [word(value[0]), *value[1:]]


def called(f, value):
    """Returns the object and the numbers of an invocation, and how many it has to have."""
    counts = {"await": 1, "put": 2, "get": 1, "produce": 1}
    if f == "pboth":
        are_two = len(value) == 2 and isinstance(value[1], str)
        need(are_two, f"pboth: {value} are not two semaphores")
        return [value[0], word(value[1])]
    if f == "write":
        need(len(value) > 1, "write: there are no values")
        return [value[0], *numbers(value[1:], f)]
    given = value[1 : 1 + counts.get(f, 0)]
    need(len(given) == counts.get(f, 0), f"{f}: {value} has too few numbers")
    return [value[0], *numbers(given, f)]


def answer(call, value):
    """Returns the reply of a call that ended well."""
    if call.f not in ANSWERED:
        return "done"
    skipped = 2 if call.f == "get" else 1
    found = [it for it in value[skipped:] if it is not None]
    if call.f == "await" and not found:
        return "done"
    need(found and (call.f == "snapshot" or len(found) == 1), f"{call.f}: {value} is no reply")
    return " ".join(map(str, numbers(found, call.f)))


def history_of(events, register, queue):
    """Returns the calls, and the lines of the run as pairs of a call and whether it returns."""
    calls, pending, changes, run = [], {}, {}, []
    for number, event in enumerate(events):
        need(isinstance(event, dict), f"event {number} is no map")
        process, kind = event.get("process"), word(event.get("type"))
        if not isinstance(process, int):
            continue
        if kind == "invoke":
            need(process not in pending, f"event {number}: a call of process {process} is pending")
            f, value = with_object(event, register, queue)
            changed = changes.get(process, 0)
            worker = f"p{process}_{changed}" if changed else f"p{process}"
            call = pending[process] = Call(worker, f, called(f, value))
            calls.append(call)
            run.append((call, False))
            continue
        need(kind in ("ok", "fail", "info"), f"event {number}: there is no type {kind}")
        call = pending.pop(process, None)
        need(call, f"event {number}: no call of process {process} is pending")
        if kind == "info":
            changes[process] = changes.get(process, 0) + 1
        elif kind == "fail" and call.f not in TIMED:
            call.is_struck = True
        else:
            is_right = kind == "ok"
            value = with_object(event, register, queue)[1]
            call.reply = answer(call, value) if is_right else "timeout"
            run.append((call, True))
    calls = [it for it in calls if not it.is_struck]
    split_roles(calls)
    return calls, [it for it in run if not it[0].is_struck]


def split_roles(calls):
    """Lets another worker consume, if one produces and consumes: it may not."""
    produce = {(it.worker, it.name) for it in calls if it.f == "produce"}
    for call in [it for it in calls if it.f == "consume" and (it.worker, it.name) in produce]:
        call.worker += "c"


# Writing a history.


def objects_of(calls):
    """Returns the kind of each object, by name."""
    found = {}
    for call in calls:
        for name in [call.name, *(call.value[1:] if call.f == "pboth" else [])]:
            need(re.fullmatch(r"[A-Za-z]\w{0,15}", name, re.A), f"{name} is no name")
            need(name not in RESERVED, f"{name} is a reserved word")
            kind = found.setdefault(name, KINDS[call.f])
            need(kind == KINDS[call.f], f"{name}: no object has {call.f} beside its other calls")
    return found


def declaration(name, kind, calls, workers, initial, room):
    """Returns the line that declares an object."""
    mine, all_of = [it for it in calls if it.name == name], " ".join(workers)
    if kind == "eventcount":
        return f"eventcount {name} signal {all_of} observe {all_of}"
    if kind == "sequencer":
        return f"sequencer {name} take {all_of}"
    if kind == "semaphore":
        return f"semaphore {name} {initial.get(name, 1)} use {all_of}"
    if kind == "cells":
        count = max(it.value[1] for it in mine) + 1
        return f"cells {name} {count} write {all_of} read {all_of}"
    is_first = {c.worker for c in mine if c.f in ("write", "produce")}
    writers = [it for it in workers if it in is_first]
    readers = [it for it in workers if it not in is_first]
    if kind == "buffer":
        need(writers and readers, f"{name}: nobody produces, or nobody is left to consume")
        items = room.get(name) or sum(c.f == "produce" for c in mine)
        need(items <= 256, f"{name}: {items} items are too many: give --room {name}=N, at most 256")
        return f"buffer {name} {items} produce {' '.join(writers)} consume {' '.join(readers)}"
    both = [c.worker for c in mine if c.f == "snapshot" and c.worker in writers]
    need(writers and readers and not both, f"{name}: who writes a database may not read it")
    widths = {len(c.value) - 1 for c in mine if c.f == "write"}
    widths |= {len(c.reply.split()) for c in mine if c.f == "snapshot" and c.reply}
    need(len(widths) == 1, f"{name}: its calls have different numbers of values")
    return f"database {name} {widths.pop()} write {' '.join(writers)} read {' '.join(readers)}"


def invocation(call):
    first = f"{call.name}[{call.value[1]}]" if call.f in ("put", "get") else call.name
    rest = call.value[2:] if call.f in ("put", "get") else call.value[1:]
    return " ".join([call.worker, "calls", call.f, first, *map(str, rest)])


def text_of(calls, run, initial, start, room):
    workers = list(dict.fromkeys(it.worker for it in calls)) or ["p0"]
    need(len(workers) <= 16, f"{len(workers)} workers: a history has at most 16")
    objects = objects_of(calls)
    for name in [*initial, *start, *room]:
        need(name in objects, f"there is no {name}")
    lines = ["evc-calls 1", f"limit {LIMIT}", f"workers {' '.join(workers)}"]
    lines += [declaration(*it, calls, workers, initial, room) for it in objects.items()]
    if any(it.f == "pboth" for it in calls):
        lines.append(f"both use {' '.join(workers)}")
    lines += [f"from {name} {number}" for name, number in start.items() if number > 0]
    lines.append("run")
    for call, returns in run:
        lines.append(f"{call.worker} returns {call.reply}" if returns else invocation(call))
    return "\n".join([*lines, "end"]) + "\n"


# Back.


def events_of_text(text):
    """Returns the events of a history: process, type, f and the value as a list."""
    lines = text.split("\n")
    need(lines[0] == "evc-calls 1" and lines[-2:] == ["end", ""], "this is no evc-calls 1")
    need("run" in lines and lines[2].startswith("workers "), "the header is not whole")
    workers, pending = lines[2].split(" ")[1:], {}
    for line in lines[lines.index("run") + 1 : -2]:
        worker, verb, *rest = [*line.split(" "), ""][:-1]
        need(worker in workers and verb in ("calls", "returns") and rest, f"no event: {line}")
        process = workers.index(worker)
        if verb == "calls":
            need(rest[0] in KINDS and len(rest) > 1, f"no call: {line}")
            pending[process] = (rest[0], value_of(rest[0], rest[1:]))
            yield process, "invoke", *pending[process]
        else:
            need(process in pending, f"no call is pending: {line}")
            f, value = pending.pop(process)
            yield process, *returned(f, value, rest)


def value_of(f, words):
    if f in ("put", "get"):
        name, index = re.fullmatch(r"(\w+)\[(\d+)\]", words[0]).groups()
        return [name, int(index), *map(int, words[1:])]
    return words if f == "pboth" else [words[0], *map(int, words[1:])]


def returned(f, value, reply):
    if reply == ["timeout"]:
        return "fail", f, value
    if f not in ANSWERED:
        return "ok", f, value
    kept = value[:2] if f == "get" else value[:1]
    return "ok", f, kept + ([] if reply == ["done"] else [int(it) for it in reply])


def of_queue(queue, process, kind, f, value):
    """Returns an event of a queue as in Jepsen's tests: its value is the item."""
    names = {it: name for name, it in QUEUE.items()}
    need(f in names and value[0] == queue, f"{f} {value[0]} is no call of {queue}")
    return process, kind, names[f], value[1] if len(value) > 1 else None


def edn_line(process, kind, f, value):
    if isinstance(value, list):
        value = f"[{' '.join(f':{it}' if isinstance(it, str) else str(it) for it in value)}]"
    shown = "nil" if value is None else value
    return f"{{:process {process}, :type :{kind}, :f :{f}, :value {shown}}}"


def json_line(process, kind, f, value):
    return json.dumps({"process": process, "type": kind, "f": f, "value": value})


# Words.


def pair(given):
    name, _, number = given.partition("=")
    if not number.isdigit():
        raise argparse.ArgumentTypeError(f"{given} is not NAME=NUMBER")
    return name, int(number)


def converted(words, text):
    if words.form in ("edn", "json"):
        line = edn_line if words.form == "edn" else json_line
        found = events_of_text(text)
        if words.queue:
            found = (of_queue(words.queue, *it) for it in found)
        return "".join(line(*it) + "\n" for it in found)
    events = events_of_edn(text) if words.form == "from-edn" else events_of_json(text)
    calls, run = history_of(events, words.register, words.queue)
    return text_of(calls, run, dict(words.initial), dict(words.start), dict(words.room))


def main():
    form = argparse.RawDescriptionHelpFormatter
    usage = "evc_convert.py from-edn|from-json|edn|json [FILE]"
    parser = argparse.ArgumentParser(description=__doc__, formatter_class=form, usage=usage)
    parser.add_argument("form", choices=["from-edn", "from-json", "edn", "json"])
    parser.add_argument("file", nargs="?", default="-")
    parser.add_argument("--register", metavar="X")
    parser.add_argument("--queue", metavar="B")
    parser.add_argument("--room", metavar="B=N", type=pair, action="append", default=[])
    parser.add_argument("--initial", metavar="S=N", type=pair, action="append", default=[])
    parser.add_argument(
        "--from", metavar="E=N", type=pair, action="append", default=[], dest="start"
    )
    words = parser.parse_args()
    try:
        with open(0 if words.file == "-" else words.file, encoding="utf-8", newline="\n") as file:
            text = file.read()
        sys.stdout.write(converted(words, text))
    except (OSError, UnicodeDecodeError, Fault) as fault:
        sys.exit(f"evc_convert.py: {fault}")


if __name__ == "__main__":
    main()
