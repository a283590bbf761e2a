"""What `evc-calls watch` has to do with a text of histories, line by line, by the second reading."""

import re

from trying.calls.claims import Claim
from trying.calls.notes import ADVANCES, FROM, NOTE, NOTES, NUMBER, RETURNED
from trying.calls.reader import Reader, scan
from trying.calls.pairs import fault_of_pair, is_pair, items_of_pair
from trying.calls.theorems import fault_by_theorem, givers, least_of, made_between, most_of, readers, takers
from trying.counting import Fault, need

SURE = re.compile(
    f"{RETURNED}, but when it was called \\(line (?P<L>{NUMBER})\\)"
    f" {ADVANCES} had surely taken effect{FROM}"
)
UNORDERED = re.compile(
    f"returned (?P<value>{NUMBER}), which no order of the tickets of (?P<T>[^ ]+) gives"
)
NO_UNIT = re.compile("no unit of (?P<S>[^ ]+) was left")
# Of a buffer with one producer and one consumer.
OF_PAIRS = {
    "not_next": f"returned (?P<item>{NUMBER}), but the next item in (?P<B>[^ ]+) was (?P<next>{NUMBER})",
    "no_item": f"returned (?P<item>{NUMBER}), but no item was left in (?P<B>[^ ]+)",
    "no_room": f"put (?P<item>{NUMBER}) in, but no room was left in (?P<B>[^ ]+)",
    "needed_put": f"gave up on (?P<item>{NUMBER}), but a consume had returned it",
    "needed_take": "gave up, but there was room in (?P<B>[^ ]+) only if it took an item",
}


class WatchClaim(Claim):
    """What a note of `watch` claims of a history."""

    def sure(self, words):
        """Checks the most advances that earlier calls show: those that had returned, or those that an earlier
        reply implies, plus the ones that were called after it and returned."""
        self.own("eventcount")
        self.reads(words, self.call)
        self.line(words["L"], self.call.first, "its invocation")
        made = made_between
        seen = [made(self.calls, -1, self.call.first)]
        for one in readers(self.calls):
            if one.precedes(self.call):
                after = made(self.calls, one.last, self.call.first)
                seen.append(least_of(one) + after - self.part.start)
        self.advances(words, max(seen))
        self.starts(words)
        most = most_of(self.call)
        need(most is not None and most < self.part.start + max(seen), "not too many")

    def unordered(self, words):
        self.own("sequencer", words["T"])
        need(words["value"] == str(self.call.reply), "it returned another number")

    def no_unit(self, words):
        self.own("semaphores")
        name, at = words["S"], self.at
        need(name in self.call.op[1], "it takes of another")
        taken = takers(self.calls, name, at)
        units = self.part.start[name] + givers(self.calls, name, at)
        need(taken > units, "a unit was left")

    # Buffers with one producer and one consumer

    def of_pair(self, words, name, *replies):
        """Checks that the line is of a response of this call with such a reply, and returns the items that were put in, or
        may have been, and those that were returned."""
        self.own("buffer", words.groupdict().get("B"))
        need(is_pair(self.history, self.part.key), "there is another producer or consumer")
        op, reply = self.call.op, self.call.reply
        need(op[0] == name, f"the line is of no {name}")
        need(reply in replies if replies else isinstance(reply, int), f"it returned {reply}")
        item = words.groupdict().get("item")
        right = op[1] if name == "produce" else reply
        need(item in (None, str(right)), f"its item is {right}")
        return items_of_pair(self.calls)

    def not_next(self, words):
        put, taken = self.of_pair(words, "consume")
        place = len(taken) - 1
        need(place < len(put), "no item was left")
        need(int(words["next"]) == put[place], f"the next item was {put[place]}")
        need(put[place] != taken[place], "it returned the next item")

    def no_item(self, words):
        put, taken = self.of_pair(words, "consume")
        need(len(put) < len(taken), "an item was left")

    def is_overfull(self, taken):
        """Returns whether more items were put in than there is room for and consumes may have taken."""
        put = self.puts(lambda item: True, lambda one: one.reply == "done")
        return put > self.room() + len(taken) + self.pending_takes(self.at)

    def no_room(self, words):
        _, taken = self.of_pair(words, "produce", "done")
        need(self.is_overfull(taken), "there was room")

    def needed_put(self, words):
        # (a call that gave up is not among those that put an item in)
        put, taken = self.of_pair(words, "produce", "timeout")
        need(len(put) < len(taken), "no consume had returned it")
        need(taken[len(put)] == self.call.op[1], "that consume had returned another item")

    def needed_take(self, words):
        _, taken = self.of_pair(words, "consume", "timeout")
        need(self.is_overfull(taken), "there was room")


FORMS = {"sure": SURE, "unordered": UNORDERED, "no_unit": NO_UNIT}
FORMS |= {name: re.compile(NOTES[name]) for name in ("few", "below")}
FORMS |= {name: re.compile(text) for name, text in OF_PAIRS.items()}


def claim_faults(history, position, note):
    """Returns what is wrong with the note (without its line feed) on the event at this position, or None."""
    form = NOTE.fullmatch(note)
    if not form or form["N"] is None:
        return f"no form: {note}"
    if int(form["N"]) != history.line_of(position):
        return f"the first faulty event is at line {history.line_of(position)}"
    said = [(name, text.fullmatch(form["rest"])) for name, text in FORMS.items()]
    said = [it for it in said if it[1]]
    if len(said) != 1:
        return f"{len(said)} forms: {note}"
    try:
        getattr(WatchClaim(history, int(form["N"])), said[0][0])(said[0][1])
    except Fault as wrong:
        return str(wrong)
    return None


def is_judged_at_once(history, call):
    """Returns whether the events of this call are judged when their lines come: it is of no cell, no database, and no
    buffer with several producers or consumers."""
    if call.op[0] in ("produce", "consume"):
        return is_pair(history, call.object)
    return call.op[0] not in ("put", "get")


def calls_cells(history):
    """Returns whether the history has calls that are judged at its end."""
    return first_of_cells(history) < history.events


def first_of_cells(history):
    """Returns the position of the first call that is judged at the end, or that after the last event."""
    found = (call.first for call in history.calls if not is_judged_at_once(history, call))
    return min(found, default=history.events)


def refused_at(history):
    """Returns the position of the first event that is refused when its line comes, or None."""
    end, faults = first_of_cells(history), []
    for part in history.parts():
        if is_judged_at_once(history, part.calls[0]):
            fault_of = fault_of_pair if part.kind == "buffer" else fault_by_theorem
            faults.append(fault_of(part.cut(end)))
    return min((it for it in faults if it is not None), default=None)


def overlaps(history):
    """Returns how many other calls are pending when a call is invoked, added up over all calls."""
    pending = total = 0
    ends = {call.last for call in history.calls if call.last is not None}
    firsts = {call.first for call in history.calls}
    for position in range(history.events):
        if position in firsts:
            total += pending
            pending += 1
        elif position in ends:
            pending -= 1
    return total


class Watched:
    """What `watch` has to do with a text. `checked` is the result of `check`: a history that is judged at its end has to
    end both in the same way."""

    def __init__(self, text, checked):
        self.whole, self.fault, number = scan(text)
        histories, begun = list(self.whole), Reader()
        for at, line in enumerate(text.split(b"\n")[: number - 1], start=1):
            begun.take(line, at)
        if begun.place == "events":
            histories.append(begun.history)
        self.refused = self.at_the_end = None
        accepted = checked[1].count(b"evc-order 1\n")
        for at, history in enumerate(histories):
            position = refused_at(history)
            if position is not None:
                self.refused = history, position
            elif at == accepted < len(self.whole) and calls_cells(history):
                self.at_the_end = checked[0], checked[2].decode("latin-1").splitlines(keepends=True)[-1]
            else:
                continue
            break

    @property
    def status(self):
        if self.at_the_end:
            return self.at_the_end[0]
        return 1 if self.refused or self.fault else 0

    def output(self):
        if self.status:
            return b""
        calls = sum(len(history.calls) for history in self.whole)
        others = sum(map(overlaps, self.whole))
        hundredths = 100 * others // calls if calls else 0
        overlap = f"{hundredths // 100}.{hundredths % 100:02}"
        return f"{len(self.whole)} histories, {calls} calls, overlap {overlap}\n".encode()

    def note_fault(self, notes):
        """Returns what is wrong with the notes, or None."""
        if not self.refused:
            right = self.at_the_end[1] if self.at_the_end else f"{self.fault}\n" if self.fault else ""
            return None if notes == right else f"right is {right!r}"
        if notes.count("\n") != 1 or not notes.endswith("\n"):
            return "it is not one line"
        return claim_faults(*self.refused, notes[:-1])

    def faults(self, ran):
        """Returns what is wrong with the result of a command."""
        status, output, notes = ran
        found = []
        if status != self.status:
            found.append(f"status {status}, and right is {self.status}")
        if output != self.output():
            found.append(f"output {output[:200]}, and right is {self.output()}")
        wrong = self.note_fault(notes.decode("latin-1"))
        return [*found, f"notes {notes[:300]}: {wrong}"] if wrong else found


def agreement_faults(watched, checked):
    """Returns what differs between `watch` and `check` of one text."""
    if watched[0] != checked[0]:
        return [f"watch ends with {watched[0]}, check with {checked[0]}: {checked[2][-200:]}"]
    if watched[0] == 0 or watched[2] == checked[2].splitlines(keepends=True)[-1]:
        return []
    lines = [re.match(rb"line (\d+): (\d+ [A-Z])?", notes.splitlines()[-1]) for _, _, notes in (watched, checked)]
    if not all(lines):
        return [f"notes {watched[2]} and {checked[2]}"]
    (one, is_text), (other, is_other_text) = ((int(it[1]), bool(it[2])) for it in lines)
    if is_text == is_other_text:
        return [] if one == other else [f"watch names line {one}, check line {other}"]
    # (`watch` stops at a faulty event at once, and `check` reads the whole history first)
    return [] if one < other and is_other_text else [f"watch: {watched[2]}, check: {checked[2]}"]
