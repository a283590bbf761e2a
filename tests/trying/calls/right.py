"""What the second reading says of a text of histories of calls, and what is wrong with what `check` says."""

import copy

from trying.calls.claims import note_faults
from trying.calls.notes import OPEN, form_of
from trying.calls.orders import order_faults
from trying.calls.reader import read
from trying.calls.remarks import remarks
from trying.calls.search import fault_by_search
from trying.calls.verdict import Verdict, judge


class Right:
    """What the second reading says of a text: the histories whose orders are written, then either
    a history without an order and its verdict, or the note of a fault, or neither."""

    def __init__(self, text):
        histories, self.fault = read(text)
        self.good, self.bad, self.verdict = [], None, None
        for history in histories:
            verdict = judge(history)
            if verdict.name != "linearizable":
                self.bad, self.verdict = history, verdict
                break
            self.good.append(history)

    @property
    def status(self):
        if self.verdict:
            return 1 if self.verdict.name == "refused" else 5
        return 1 if self.fault else 0

    def left_open(self, count, form):
        """Returns what is right if, after so many histories, one is not decided since nothing was found of a buffer."""
        histories = [*self.good, *([self.bad] if self.bad else [])]
        if count >= len(histories) or not histories[count].buffers:
            return self
        right = copy.copy(self)
        right.good, right.bad, right.fault = self.good[:count], histories[count], None
        others = judge(right.bad, but_buffers=True)
        right.verdict = others if form == "undecided" and others.name == form else Verdict("unfound")
        return right

    def faults(self, ran):
        """Returns what is wrong with the result of a command."""
        form = form_of(ran[2].decode("latin-1").rstrip("\n").split("\n")[-1])
        is_open = ran[0] == 5 and form in OPEN
        return (self.left_open(ran[1].count(b"evc-order 1\n"), form) if is_open else self).faults_of(ran)

    def faults_of(self, ran):
        status, output, notes = ran
        found = []
        if status != self.status:
            found.append(f"status {status}, and right is {self.status}")
        wrong = order_faults(self.good, output.decode("latin-1"))
        if wrong:
            found.append(f"output: {wrong}")
        wrong = self.note_faults(notes.decode("latin-1"))
        return [*found, f"notes {notes[:300]}: {wrong}"] if wrong else found

    def note_faults(self, notes):
        lines = notes.splitlines(keepends=True)
        said = [line for line in lines if line.startswith("remark: ")]
        known = [f"{it}\n" for history in self.good for it in remarks(history)]
        if lines[: len(said)] != said:
            return "a remark comes after the note"
        if said != known:
            return f"the remarks are not {known}"
        notes = "".join(lines[len(said) :])
        if not self.verdict:
            right = f"{self.fault}\n" if self.fault else ""
            return None if notes == right else f"right is {right!r}"
        if notes.count("\n") != 1 or not notes.endswith("\n"):
            return f"the verdict is {self.verdict}, and this is not one line"
        return note_faults(self.bad, self.verdict, notes[:-1])


def way_faults(right):
    """Returns what differs between the two ways of the second reading."""
    for history in [*right.good, *([right.bad] if right.bad else [])]:
        other = judge(history, fault_by_search)
        if other != (right.verdict or Verdict("linearizable")):
            return [f"by trying orders {other}, by counting {right.verdict}"]
    return []
