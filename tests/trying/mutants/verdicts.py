"""What the log of a check says of mutants."""

import re
from dataclasses import dataclass, field

from trying.mutants.files import Mutant
from trying.mutants.groups import targets

GOAL, ANSWER, OTHER, PROVED, UNREAD = "goal", "answer", "other", "proved", "unread"
WORSE = (GOAL, ANSWER, OTHER, UNREAD, PROVED)


def is_named(printed, end):
    """Returns whether the printed name is that of this function, or of a closure in it."""
    return re.search(rf"(^|::){re.escape(end)}(::[^:]*)*$", printed) is not None


def verdict_on(ends, log):
    """Returns what the log of a check says of functions: GOAL if a goal of one was not proved, ANSWER if only a
    written answer no longer fits, OTHER if it only calls what is not proved, PROVED, or UNREAD."""
    said = [it for it in re.findall(r"(?m)^fn (\S+): (.*)$", log) if any(is_named(it[0], end) for end in ends)]
    if not said or not ends:
        return UNREAD
    if all(rest == "proved" for _, rest in said):
        return PROVED
    if any("`search` did not prove" in rest or "`grind` did not prove" in rest for _, rest in said):
        return GOAL
    if any(rest == "not proved" or rejects_an_answer(name, log) for name, rest in said if rest != "proved"):
        return ANSWER
    return OTHER


def rejects_an_answer(name, log):
    """Returns whether the check found a mistake in a proof file of the function. If it calls itself, its folder's name
    begins with a plus sign."""
    *above, last = name.split("::")[1:]
    place = "/".join([*map(re.escape, above), rf"\+?{re.escape(last)}"])
    return re.search(rf"(?m)^(?:\./)?proofs/{place}/\w+\.antt:\d+:\d+: error", log) is not None


@dataclass
class Judged:
    """A mutant, and what the checks that were made said of it."""

    mutant: Mutant
    verdict: str
    # The functions that were not proved, if its own function was: what it changes shows there.
    elsewhere: list = field(default_factory=list)

    def is_killed(self):
        return self.verdict in (GOAL, ANSWER)


def judged_by(folder, mutant, log):
    """Judges a mutant by the log of a check of the crate with it."""
    ends = targets(folder, mutant)
    each = [[it] for it in ends] if mutant.refused_in else [ends]
    verdict = max((verdict_on(it, log) for it in each), key=WORSE.index)
    others = [] if verdict in (GOAL, ANSWER) else sorted(set(re.findall(r"(?m)^fn (\S+): no(?:t proved| proof)", log)))
    return Judged(mutant, verdict, others)
