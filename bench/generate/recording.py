"""Runs that are recorded: their entries, and what `check` and `audit` have to write of them."""

import functools
import itertools

from generate.groups import calls_on, down_and_up, down_and_up_both
from generate.kernel import Kernel, entry_of

# The greatest limit of a component or a sequencer that a trace of version 1 may declare.
LIMIT = 4294967295

NAMES = "alice bob carol dave erin frank grace heidi ivan judy kevin laura mike nina oscar peggy".split()


class Recording(Kernel):
    """A kernel of so many workers, which take no step that is refused, and what its audits find."""

    def __init__(self, workers, version=1):
        super().__init__(version, LIMIT, NAMES[:workers])
        self.completed = 0
        # For each worker: its last reply, how many calls were completed then, and what it does on groups.
        self.returned, self.ended, self.acts = {}, {}, {}
        # The lines of audits, each with a key to sort by, those of `both`, and who has put what, by the turn.
        self.audited, self.pairs, self.makers = [], [], {}

    def entries(self, turn, act_of):
        """Yields entries. `turn` says whose turn it is, and `act_of` what a worker does that has no pending call."""
        while True:
            worker = turn()
            act = ("go",) if worker in self.pending else act_of(worker)
            reply = self.step(worker, act)
            if reply != "pending":
                self.completed += 1
                self.returned[worker], self.ended[worker] = reply, self.completed
            yield entry_of(worker, act, reply)

    def totals(self):
        """Returns the lines at the end of what `check` writes."""
        lines = [f"eventcount {name} {self.total(name)}" for name in self.eventcounts]
        lines += [f"sequencer {name} {it.issued}" for name, it in self.sequencers.items()]
        return "".join(line + "\n" for line in ["totals", *lines, "end"])

    def audits(self):
        """Returns the lines of the groups in what `audit` writes: first those of a buffer, then those of a database."""
        lines = [line for _, line in sorted(self.audited)]
        for it in self.groups:
            if it.kind in ("semaphore", "both"):
                ups = self.total(f"{it.name}.v")
                lines.append(f"balance {it.name} {it.size} {it.downs} {ups} {it.size + ups - it.downs}")
        return lines + self.pairs

    # Workers on groups

    def begin(self):
        """Lets the workers of all groups begin. Those who use `both` do nothing else."""
        for group in self.groups:
            self.acts.update({it: self.acts_of(group, it) for it in (*group.writers, *group.readers)})
        return self

    def next_act(self, worker):
        """Returns the next act of a worker, which processes its last reply first."""
        return self.acts[worker].send(self.returned.get(worker))

    def acts_of(self, group, worker):
        """Yields the acts of a worker on a group, which makes its calls again and again."""
        semaphores = [it for it in self.groups if it.kind == "semaphore"]
        for number in itertools.count():
            if group.kind == "both":
                note = functools.partial(self.note_pair, worker, semaphores)
                yield from down_and_up_both(group, semaphores, note)
            elif group.kind == "semaphore":
                for it in semaphores:
                    yield from down_and_up(it)
            else:
                note = functools.partial(self.note, group, worker)
                yield from calls_on(group, worker, itertools.repeat(number), note)

    def note(self, group, worker, number, values):
        """Notes who puts what, what is delivered, and which version was read."""
        found = f"{worker} {' '.join(map(str, values))}"
        if not values:
            self.makers[number] = worker
        elif group.kind == "buffer":
            self.audited.append(((0, number), f"delivery {group.name} {number} {self.makers.pop(number)} {found}"))
        else:
            self.audited.append(((1, self.ended[worker]), f"version {group.name} {number} {found}"))

    def note_pair(self, worker, semaphores, tickets):
        pair = (f"{it.name} {ticket}" for it, ticket in zip(semaphores, tickets))
        self.pairs.append(f"pair {worker} {' '.join(pair)}")
