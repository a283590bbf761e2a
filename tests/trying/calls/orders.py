"""Checks the orders that a program wrote of histories of calls."""

import re

from trying.calls.search import after, first_state
from trying.counting import Fault

ORDER_LINE = re.compile(r"(0|[1-9][0-9]{0,17}) ([^ ]+) (.+) = (.+)")


def text_of_reply(reply):
    return " ".join(map(str, reply)) if isinstance(reply, tuple) else str(reply)


class Order:
    """The lines of an order, one after another."""

    def __init__(self, history):
        self.history, self.point = history, 0
        self.left = list(history.calls)
        self.parts = {}
        for part in history.parts():
            for call in part.calls:
                self.parts[call] = part
        self.states = {part.key: first_state(part) for part in self.parts.values()}
        self.effects = {}  # how many calls took effect, by object and operation
        self.produced = {}  # the items that were put into each buffer

    def add(self, line):
        form = ORDER_LINE.fullmatch(line)
        if not form:
            raise Fault(f"`{line}` is no line of an order")
        point, worker, text, reply = int(form[1]), *form.groups()[1:]
        call = self.call_at(point, worker)
        if call is None or call.text != text:
            raise Fault(f"`{line}`: no such call may stand there")
        if reply != ("pending" if call.last is None else text_of_reply(call.reply)):
            raise Fault(f"`{line}`: the reply is another")
        if point < self.point:
            raise Fault(f"`{line}`: the points do not ascend")
        self.point = point
        self.left.remove(call)
        self.take_effect(call, line)

    def call_at(self, point, worker):
        """Returns the call of a worker that is left and may take effect at this point, or None."""
        for call in self.left:
            end = self.history.events if call.last is None else call.last
            if call.worker == worker and call.first < point <= end:
                return call
        return None

    def take_effect(self, call, line):
        part = self.parts[call]
        then = after(part.kind, self.states[part.key], call.op, call.reply)
        if then is None:
            raise Fault(f"`{line}`: the object cannot give that")
        self.states[part.key] = then
        if call.reply == "timeout":
            return
        word = call.text.split(" ")[0]
        if word == "produce":
            self.produced.setdefault(call.object, []).append(call.op[1])
        names = (*call.op[1], "both") if word == "pboth" else (call.object,)
        for name in names:
            key = name, "p" if word == "pboth" else word
            self.effects[key] = self.effects.get(key, 0) + 1

    def end(self):
        missing = [call for call in self.left if call.last is not None]
        if missing:
            raise Fault(f"the completed call `{missing[0].worker} {missing[0].text}` is missing")

    def totals(self):
        """Yields the lines of the totals."""
        for sort, name, number in self.history.declared:
            made = lambda word: self.effects.get((name or "both", word), 0)
            if sort == "eventcount":
                start = self.history.starts.get(name, 0)
                yield f"eventcount {name} {self.states.get(name, start)}"
            elif sort == "sequencer":
                yield f"sequencer {name} {self.states.get(name, 0)}"
            elif sort == "semaphore":
                yield from (f"eventcount {name}.v {made('v')}", f"sequencer {name}.p {made('p')}")
            elif sort == "both":
                yield from (f"eventcount both.v {made('p')}", f"sequencer both.p {made('p')}")
            elif sort == "buffer":
                moved = made("produce"), made("consume")
                yield from (f"eventcount {name}.{it} {n}" for it, n in zip(("in", "out"), moved))
                yield from (f"sequencer {name}.{it} {n}" for it, n in zip(("put", "take"), moved))
            elif sort == "database":
                yield from (f"eventcount {name}.{it} {made('write')}" for it in ("start", "done"))
                yield f"sequencer {name}.turn {made('write')}"
            if sort in ("cells", "buffer", "database"):
                for at in range(number):
                    yield f"cell {name}[{at}] {self.value_of(sort, name, number, at)}"

    def value_of(self, sort, name, number, at):
        """Returns what the cell at this place of a block has at the end."""
        if sort == "cells":
            return self.states.get(f"{name}[{at}]", 0)
        if sort == "database":
            return self.states.get(name, (0,) * number)[at]
        return [0, *self.produced.get(name, [])[at::number]][-1]


def check_order(history, lines):
    """Takes the lines of one order text from an iterator, and raises a Fault if one is wrong."""
    line = lambda: next(lines, "the end of the output")
    head = line()
    if head != "evc-order 1":
        raise Fault(f"`{head}` in place of `evc-order 1`")
    order = Order(history)
    while (it := line()) != "totals":
        order.add(it)
    order.end()
    for right in [*order.totals(), "end"]:
        it = line()
        if it != right:
            raise Fault(f"`{it}` in place of `{right}`")


def order_faults(histories, output):
    """Returns what is wrong with the order texts of these histories, or None."""
    if not output:
        return "there is no output" if histories else None
    if not output.endswith("\n"):
        return "the output does not end in a line feed"
    lines = iter(output[:-1].split("\n"))
    for at, history in enumerate(histories):
        try:
            check_order(history, lines)
        except Fault as wrong:
            return f"history {at} of {len(histories)}: {wrong}"
    more = next(lines, None)
    return None if more is None else f"`{more}` after the last order"
