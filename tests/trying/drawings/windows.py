"""Pictures of some entries of a trace."""

import random

from trying.drawings.pictures import TITLE, bars_of, read_text
from trying.drawings.readings import calls_of, entries_of, findings_of, groups_of, pending_calls, signallers
from trying.drawings.traces import long_groups


def later_rounds(text, first, last):
    """Returns the entry with which the last round of a call began, in a list, which is empty if it had one round."""
    own = entries_of(text)[: (last or 0) + 1]
    begun = [at for at in range(first, len(own)) if own[at][0] == own[first][0] and (own[at][2] or "").startswith("0=")]
    return begun[-1:] if len(begun) > 1 else []


def bars_expected(text, start, end):
    """Yields what `bars_of` has to give of a picture of the entries from `start` to `end`."""
    calls = [(first, last, reply) for _, _, reply, first, last in calls_of(text)]
    calls += [(first, None, "pending") for first in pending_calls(text)]
    for first, last, reply in calls:
        if first > end or last is not None and last < start:
            continue
        is_cut = last is None or last > end
        left = 136 if first < start else 139 + 84 * (first - start)
        right = 200 + 84 * (end + 1 - start) if is_cut else 133 + 84 * (last + 1 - start)
        below = [f"= {reply}"] if reply.isdigit() and not is_cut else []
        rounds = [it for it in later_rounds(text, first, last) if start <= it <= end + 1]
        yield first, last, left, right, below, [136 + 84 * (it - start) for it in rounds]


def fault_of_window(draw, text, start, end):
    """Returns what is wrong with the bars of a picture of the entries from `start` to `end`, or None."""
    words = ["--from", str(start), "--to", str(end)]
    status, answer, notes = draw.says(*words, text=text)
    if status != 0 or notes:
        return f"{words}: {status} {notes}"
    found, expected = (sorted(it, key=str) for it in (bars_of(answer), bars_expected(text, start, end)))
    return None if found == expected else f"{words}: bars {found} and not {expected}"


def expected_in_window(text, findings, start, end):
    """Returns what `--text` has to show of the entries from `start` to `end`: each completed call with its first and
    its last entry, the last number of each count, the findings, and the balances."""
    calls = [it for it in calls_of(text) if it[3] <= end and it[4] >= start]
    counts = {name: 0 for line in text.decode().split("\nrun\n")[0].split("\n") for name in signallers(line)}
    for _, words, _, _, last in calls_of(text):
        if words[0] in ("advance", "ticket") and last <= end:
            counts[words[1]] = counts.get(words[1], 0) + 1
    found = [it[0] for it in findings.arrows if any(start <= at <= end for at in it[3:])]
    found += [it[0] for it in findings.shades if it[3] <= end and it[4] >= start]
    balances = {name: it[start : end + 2] for name, it in findings.balances.items()}
    shown = sorted((f"{it[0]} {' '.join(it[1])} = {it[2]}", it[3], it[4]) for it in calls)
    return shown, counts, found, balances


def fault_of_part(draw, check, text, start, end):
    """Returns what is wrong with bars and text of the entries `start` to `end` of a long trace of groups, or None."""
    words = ["--text", "--from", str(start), "--to", str(end)]
    status, answer, notes = draw.says(*words, text=text)
    if status != 0 or notes:
        return f"{words}: {status} {notes}"
    groups = [name for kind, name, _ in groups_of(text) if kind == "semaphore"]
    calls, totals, _, _, (found, balances) = read_text(answer, groups)
    titles = [TITLE.fullmatch(line) for line in answer.split("\n\n")[1].split("\n")]
    drawn_calls = sorted((it[1], int(it[2]), int(it[3])) for it in titles if it and it[1].split()[0] in "ab")
    if not set(calls) <= set(check.says("check", text=text)[1].split("\n")):
        return f"{words}: {calls} are not calls at their points"
    expected = expected_in_window(text, findings_of(check, text), start, end)
    counts = {name: n for name, n in expected[1].items() if name in totals}
    if (drawn_calls, {name: int(it) for name, it in totals.items()}) != (expected[0], counts):
        return f"{words}: {drawn_calls} {totals} and not {expected[:2]}"
    if (found, balances) != expected[2:]:
        return f"{words}: {found} {balances} and not {expected[2:]}"
    return fault_of_window(draw, text, start, end)


def wrong_parts(draw, check):
    """Yields the names of some windows of long traces, also after entry 5000, and what is wrong with each."""
    text = long_groups(random.Random(2), check, 6000)
    tries = [it[3] for it in findings_of(check, text).shades]
    if len(entries_of(text)) != 6000 or not any(5600 < it < 5999 for it in tries):
        yield "6000 entries of groups", f"has fewer entries, or no accepted try near its end: {tries}"
    for start, end in (0, 399), (4900, 5100), (5600, 5999):
        yield f"entries {start} to {end} of groups", fault_of_part(draw, check, text, start, end)
    puts = b"evc-trace 1\nlimit 1\nworkers a\ncells X 1 write a read a\nrun\n"
    puts += b"".join(b"a put X[0] %d = done\n" % it for it in range(1001)) + b"a get X[0] = 1000\nend\n"
    for start, end in (0, 399), (602, 1001):
        yield f"entries {start} to {end} of 1001 puts", fault_of_window(draw, puts, start, end)
