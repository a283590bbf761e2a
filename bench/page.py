"""What bench/run writes into docs/PERFORMANCE.md between its two marks: tables and lines, with figures that miss their
targets in bold.

`written` returns the page with the figures of a run. `faults` says, without measuring, where a page has another form than
a run gives it, or where what is bold doesn't fit the targets; tests/pages calls it.
"""

import re

import of_calls
import of_scripts
import of_traces
from measuring import SIZES

MARK = "<!-- bench/run -->\n"
MACHINE = r"\d+ cores at \d+ MHz\."
# What replaces a figure in the form that a run gives the page, and what a page may have there (`-` is not measured yet).
OPEN = "\0"
FIGURE = r"(-|(?:\*\*)?\d+(?:\.\d+)?(?:\*\*)?)"

# The columns of the tables. Those of the second are in groups, each with its rows: a row has the groups up to its last.
COMMANDS = [of_traces.RATIO["check"], of_traces.RATIO["audit"], of_traces.MEMORY["check"]]
CHECKED = [of_calls.TEXT_RATIO, of_calls.TEXT_SPEED, of_calls.TEXT_MEMORY]
DECIDED = [it["decide"] for it in (of_calls.JUDGED, of_calls.JUDGED_RATIO, of_calls.JUDGED_MEMORY)]
MONITORED = [it["monitor"] for it in (of_calls.JUDGED, of_calls.JUDGED_RATIO)]
WATCHED = [of_calls.WATCH_SPEED, of_calls.WATCH_MEMORY]
GROUPS = {
    tuple(CHECKED): of_calls.TEXTS,
    tuple(DECIDED): list(of_calls.CALLS.values()),
    (*MONITORED, *WATCHED): of_calls.WATCHED_KINDS,
}


def heads(targets):
    """Returns the names of columns, with their bounds. Columns of one command name it once."""
    found, last = [], "``"
    for it in targets:
        found.append(it.named().removeprefix(f"{last}: ").removeprefix(f"{last} "))
        last = re.match(r"`[^`]*`", it.name)[0]
    return found


def tables():
    """Yields the tables: the names of the columns, and for each row its name and the targets of its figures."""
    yield [f"{SIZES[-1]} MiB of a trace", *heads(COMMANDS)], {kind: COMMANDS for kind in of_traces.KINDS}
    rows = {kind: [it for of in GROUPS if kind in GROUPS[of] for it in of] for kind in of_calls.TEXTS}
    yield ["A million calls", *heads(it for of in GROUPS for it in of)], rows


def summary(text_of):
    """Yields the lines under the tables, which have the worst of all rows if they name none. `text_of` is as in `lines`."""

    def worst(target, unit="", row=None):
        return f"{text_of(target, row)}{unit} ({target.bound:g})"

    alone = {f"{it}_trace": target for it, target in of_traces.ALONE.items()}
    speeds = {**of_traces.SPEED, "upgrade": of_traces.UPGRADE_SPEED, **alone, "parse": of_scripts.PARSE_SPEED}
    yield f"MB/s: {', '.join(f'`{it}` {worst(speeds[it])}' for it in speeds)}."
    growths = {**of_traces.GROWTH, "evc-calls check": of_calls.TEXT_GROWTH}
    yield f"{SIZES[-1]} MiB / {SIZES[0]} MiB: {', '.join(f'`{it}` {worst(growths[it])}' for it in growths)}."
    buffers = of_calls.BUFFER_SPEED, of_calls.BUFFER_MEMORY, of_calls.BUFFER_GROWTH, of_calls.BUFFER_REJECTED
    speed, memory, growth, rejected = map(worst, buffers)
    yield (
        f"A million calls of a buffer: `evc-calls check` {speed} MB/s, memory / text {memory}, / a tenth {growth}, "
        f"rejected / accepted {rejected}."
    )
    decide, monitor = map(worst, of_calls.JUDGED_GROWTH.values())
    yield f"A million calls / a tenth: `decide` {decide}, `Monitor` {monitor}."
    audit, upgrade = worst(of_traces.MEMORY["audit"], " MiB"), worst(of_traces.UPGRADE_MEMORY)
    watch, monitor = worst(of_calls.WATCH_MEMORY, " MiB", of_calls.PIPE), text_of(of_calls.JUDGED_MEMORY["monitor"], None)
    yield (
        f"Memory: `audit` {audit}, `upgrade` / `check` {upgrade}, `Monitor` {monitor} MiB, "
        f"`evc-calls watch` of {of_calls.PIPE} {watch}."
    )
    yield f"`audit` with 32 semaphores / with 1: {worst(of_traces.GROUPS)}."
    ratios = "; ".join(f"{it}: {text_of(of_scripts.THREADED, it)}" for it in of_scripts.ROWS)
    yield f"{of_scripts.THREADED.named()}: {ratios}."
    world, run = (
        f"{worst(of_scripts.STEP[it], ' ns')}, {text_of(of_scripts.STEP_RATIO[it], None)}" for it in of_scripts.STEP
    )
    sim = text_of(of_scripts.SIM, None)
    yield f"A step of a `World` takes {world} of the baseline; of a `Run` {run}; of `sim` {sim} µs."


def lines(text_of):
    """Yields the lines between the marks, without the one on the machine. `text_of` returns the text of a figure by its
    target and its row, or that of the worst if the row is None."""
    for head, rows in tables():
        yield from [f"|{'|'.join(head)}|", "|-" * len(head) + "|"]
        yield from (f"|{'|'.join([row, *(text_of(it, row) for it in targets)])}|" for row, targets in rows.items())
        yield ""
    yield from (f"- {it}" for it in summary(text_of))


def written(page, machine, figures):
    """Returns a page with the figures of a run between its marks, or None if it doesn't have two of them."""
    parts = page.split(MARK)
    if len(parts) != 3:
        return None

    def text_of(target, row):
        found = [it for it in figures if it.target == target and row in (None, it.row)]
        worst = (min if target.least else max)(found, key=lambda it: it.number)
        return worst.text() if target.is_met(worst.number) else f"**{worst.text()}**"

    block = [machine, "", *lines(text_of)]
    return MARK.join([parts[0], "".join(f"{it}\n" for it in block), parts[2]])


def is_right(target, text):
    """Returns whether a figure of a page is bold exactly if it misses its target."""
    number = text.strip("*")
    if number == "-":
        return text == number
    # (a figure that misses its bound may be rounded to it)
    return float(number) == target.bound or text == (number if target.is_met(float(number)) else f"**{number}**")


def faults(page):
    """Yields where what a page has between its marks differs from what a run writes."""
    parts = page.split(MARK)
    if len(parts) != 3:
        yield f"it has {len(parts) - 1} marks, and not 2"
        return
    asked = []

    def text_of(target, row):
        asked.append((target, row))
        return OPEN

    right = list(lines(text_of))
    patterns = [MACHINE, "", *(FIGURE.join(map(re.escape, it.split(OPEN))) for it in right)]
    block, texts = parts[1].splitlines(), []
    for pattern, line in zip(patterns, block):
        said = re.fullmatch(pattern, line)
        if not said:
            yield f"bench/run --write doesn't make the line {line}"
            return
        texts += said.groups()
    if len(block) != len(patterns):
        yield "bench/run --write makes another number of lines"
    for (target, row), text in zip(asked, texts):
        if not is_right(target, text):
            yield f"{target.named()}: {row or 'the worst'} is {text}"
