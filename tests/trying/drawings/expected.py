"""What the pictures of a trace have to show, with all or with some workers and objects."""

from trying.drawings.pictures import drawn, read_text
from trying.drawings.readings import entries_of, groups_of, is_asked


class Expected:
    """What is expected of the drawings of a trace with these workers and objects. An empty list stands for all."""

    def __init__(self, text, lines, workers, objects, findings):
        entries = entries_of(text)
        at = lines.index("totals")
        declared = text.decode().split("\n")[2].split()[1:]
        last = {worker: (name, pending) for worker, name, _, pending in entries}
        counts = [line.split() for line in lines[at + 1 : -2]]
        self.rows = [it for it in declared if not workers or it in workers]
        counts = [it for it in counts if it[0] in ("eventcount", "sequencer")]
        self.totals = {it[1]: it[2] for it in counts if is_asked(it[1], objects)}
        self.calls = [it for it in lines[1:at] if it.split()[1] in self.rows and is_asked(it.split()[3], objects)]
        shows = lambda worker, name: worker in self.rows and is_asked(name, objects)
        self.begun = sum(pending for worker, (name, pending) in last.items() if shows(worker, name))
        self.owners = [worker if shows(worker, name) else None for worker, name, _, _ in entries]
        self.dots = [it[2] for owner, it in zip(self.owners, entries) if owner and it[2]]
        arrows = [it for it in findings.arrows if not workers or set(it[1]) <= set(workers)]
        self.arrows = [it for it in arrows if is_asked(it[2], objects)]
        self.shades = [it for it in findings.shades if not workers or it[1] in workers if is_asked(it[2], objects)]
        self.balances = {name: it for name, it in findings.balances.items() if is_asked(f"{name}.v", objects)}
        self.broken = findings.broken
        self.groups = [name for kind, name, _ in groups_of(text) if kind in ("semaphore", "both")]
        self.options = [word for it in workers for word in ("--worker", it)]
        self.options += [word for it in objects for word in ("--object", it)]


def fault_of_picture(draw, text, expected):
    status, answer, notes = draw.says(*expected.options, text=text)
    if status != 0 or notes:
        return f"{status} {notes}"
    calls, totals, entries, begun, dots, rows, (arrows, shades, balances) = drawn(answer)
    if dots != expected.dots:
        return f"components {dots} and not {expected.dots}"
    if calls != expected.calls:
        return f"calls {calls} and not {expected.calls}"
    if totals != expected.totals:
        return f"totals {totals} and not {expected.totals}"
    if rows != expected.rows:
        return f"rows {rows} and not {expected.rows}"
    if entries != len(expected.owners) or begun != expected.begun:
        return f"{entries} entries and {begun} calls under way"
    if expected.broken:
        return fault_of_broken([it[0] for it in arrows + shades], balances, expected.broken)
    if arrows != [(it[0], 178 + 84 * it[3], 178 + 84 * it[4]) for it in expected.arrows]:
        return f"arrows {arrows} and not {expected.arrows}"
    if shades != [(it[0], 136 + 84 * it[3], 84 * (it[4] + 1 - it[3])) for it in expected.shades]:
        return f"shades {shades} and not {expected.shades}"
    if balances != expected.balances:
        return f"balances {balances} and not {expected.balances}"
    return None


def fault_of_broken(found, balances, name):
    """Returns a fault if something is drawn of a group that `audit` says is not followed."""
    is_drawn = name in balances or any(it.split()[1] == name for it in found)
    return f"a finding of {name}: {found} {balances}" if is_drawn else None


def fault_of_text(draw, text, expected):
    status, answer, notes = draw.says("--text", *expected.options, text=text)
    if status != 0 or notes:
        return f"--text: {status} {notes}"
    calls, totals, marks, begun, (found, balances) = read_text(answer, expected.groups)
    if calls != expected.calls:
        return f"--text: calls {calls} and not {expected.calls}"
    if totals != expected.totals:
        return f"--text: totals {totals} and not {expected.totals}"
    if begun != expected.begun:
        return f"--text: {begun} calls under way"
    if marks != expected.owners:
        return f"--text: marks {marks} and not {expected.owners}"
    if expected.broken:
        return fault_of_broken(found, balances, expected.broken)
    if found != [it[0] for it in expected.arrows + expected.shades]:
        return f"--text: {found} and not {expected.arrows + expected.shades}"
    if balances != expected.balances:
        return f"--text: balances {balances} and not {expected.balances}"
    return None
