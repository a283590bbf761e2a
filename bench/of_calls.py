"""The tables of bench/run on histories of calls: `decide` and `Monitor`, `evc-calls check` and `evc-calls watch`.

Each function measures a table, prints it, and returns its figures.
"""

import filecmp
import os
import subprocess

import histories
import queues
from measuring import MIB, SIZES, Figure, Target, best_of, fail, figures_of, measure, millis, say, table

# The histories of bench_calls, by its words, with the names that histories.py has for these kinds, and how many calls each has.
CALLS = {
    "counts": "eventcount",
    "tickets": "sequencer",
    "units": "semaphore",
    "values": "cell put once",
    "serial": "cell with one writer",
}
CALL_COUNTS = (100_000, 1_000_000)
PENDING = 8
# The ways to judge them, by the words of bench_calls: the name of each, and what it judges.
MODES = {"decide": ("decide", tuple(CALLS)), "monitor": ("Monitor", ("counts", "tickets", "units"))}

JUDGED = {mode: Target(f"`{name}`: million events/s", digits=1) for mode, (name, _) in MODES.items()}
JUDGED_RATIO = {mode: Target(f"`{name}` / baseline", digits=1) for mode, (name, _) in MODES.items()}
JUDGED_GROWTH = {mode: Target(f"`{name}`: time / that of a tenth", 11, digits=1) for mode, (name, _) in MODES.items()}
JUDGED_MEMORY = {"decide": Target("`decide`: MiB", digits=0), "monitor": Target("`Monitor`: MiB", digits=1)}

# Histories of calls as text: how many calls of each kind, and how many tiny histories.
TEXT_CALLS = 1_000_000
TINY_HISTORIES = 20_000
# The kinds that `evc-calls watch` judges event by event, and how many MB it is given through a pipe.
WATCHED_KINDS = ("eventcount", "sequencer", "semaphore")
PIPED = 1000
PIPE = f"{PIPED} MB by a pipe"

TEXT_RATIO = Target("`evc-calls check` / baseline", 1.5)
TEXT_SPEED = Target("`evc-calls check`: MB/s", 100, least=True, digits=0)
TEXT_MEMORY = Target("`evc-calls check`: memory without text / text", 0.5, digits=1)
TEXT_GROWTH = Target(f"`evc-calls check`: {SIZES[-1]} MiB / {SIZES[0]} MiB", 8.5, digits=1)
# Histories of buffers: how many items they have, each of two calls.
ITEM_COUNTS = (50_000, 500_000)
BUFFER_SPEED = Target("`evc-calls check` of buffers: MB/s", 50, least=True, digits=0)
BUFFER_MEMORY = Target("`evc-calls check` of buffers: memory / text", 2, digits=1)
BUFFER_GROWTH = Target("`evc-calls check` of buffers: time / that of a tenth", 11, digits=1)
BUFFER_REJECTED = Target("`evc-calls check` of buffers: rejected / accepted", 5, digits=1)
WATCH_SPEED = Target("`evc-calls watch`: MB/s", 100, least=True, digits=0)
WATCH_MEMORY = Target("`evc-calls watch`: MiB", 8, digits=1)

# The names of the texts, in the order in which they are made.
TINY = f"{TINY_HISTORIES} tiny ones"
MIXED = {size: f"mixed, {size} MiB" for size in SIZES}
TEXTS = [*histories.KINDS, TINY, *MIXED.values()]


def judging_times(programs, mode, sort, count):
    """Returns the time that each program takes to judge a history of so many calls, without the time for making it, and
    the memory that the first program needs for that."""
    words = [[program, it, sort, str(count)] for program in programs for it in (mode, "make")]
    answers = [int(subprocess.check_output(it)) for it in words]
    judged, made = answers[::2], answers[1::2]
    # (an order may or may not have a pending put, so the orders may differ in these)
    if max(judged) - min(judged) > PENDING or len(set(made)) != 1:
        fail(f"{mode} of {count} {sort} comes to {answers}")
    figures = best_of(words)
    pairs = zip(figures[::2], figures[1::2])
    return [max(judged[0] - made[0], 1e-6) for judged, made in pairs], figures[0][1] - figures[1][1]


def measure_judging(calls, rust):
    """Measures the judging of histories, compared with the same scans in plain Rust."""
    rows, figures = [], []
    programs = [program for program in (calls, rust) if program]
    small, count = CALL_COUNTS
    for mode, sort in [(mode, it) for mode, (_, sorts) in MODES.items() for it in sorts]:
        (tenth, *_), _ = judging_times(programs, mode, sort, small)
        (seconds, *others), held = judging_times(programs, mode, sort, count)
        kind = CALLS[sort]
        found = [Figure(JUDGED[mode], kind, 2 * count / seconds / 1e6)]
        found += [Figure(JUDGED_RATIO[mode], kind, seconds / it) for it in others]
        found += [Figure(JUDGED_GROWTH[mode], kind, seconds / tenth), Figure(JUDGED_MEMORY[mode], kind, held / MIB)]
        speed, *by_rust, growth, memory = (it.text() for it in found)
        rows.append([f"{mode}, {kind}", *millis(seconds), *(millis(*others) or "-"), *(by_rust or "-"), speed, growth, memory])
        figures += found
    head = ["judging", "ms", "Rust ms", "by Rust", "million events/s", "by a tenth", "MiB in addition to the events"]
    table(f"Histories of {count} calls", head, rows)
    return figures


def history_texts(folder):
    """Makes the histories, one after another, and yields the name and the path of each."""
    path = os.path.join(folder, "history.calls")
    for name in TEXTS:
        say(f"making the history '{name}'")
        if name in histories.KINDS:
            histories.write_history(path, name, calls=TEXT_CALLS)
        elif name == TINY:
            histories.write_tiny(path, TINY_HISTORIES)
        else:
            histories.write_history(path, "mixed", size=next(it for it in SIZES if MIXED[it] == name) * MIB)
        yield name, path


def measure_check(check, rust, folder):
    """Measures `evc-calls check`, compared with plain Rust that reads, decides and writes the same."""
    rows, figures, taken = [], [], {}
    for name, path in history_texts(folder):
        programs = [[check, "check"], *([[rust]] if rust else [])]
        outs = [f"{path}.{i}" for i in range(len(programs))]
        for words, out in zip(programs, outs):
            measure(words, path, out)
        if not filecmp.cmp(outs[0], outs[-1], shallow=False):
            fail(f"evc-calls check writes of '{name}' not what plain Rust writes")
        text = os.path.getsize(path)
        (seconds, peak), *baselines = best_of(programs, path)
        taken[name] = seconds
        found = [Figure(TEXT_RATIO, name, seconds / it) for it, _ in baselines]
        found += [Figure(TEXT_SPEED, name, text / 1e6 / seconds), Figure(TEXT_MEMORY, name, peak / text - 1)]
        *by_rust, speed, memory = (it.text() for it in found)
        plain = [*millis(*(it for it, _ in baselines))] or "-"
        held = [f"{it / text - 1:.1f}" for _, it in baselines] or "-"
        rows.append([name, f"{text / 1e6:.1f}", *millis(seconds), *plain, *(by_rust or "-"), speed, memory, *held])
        figures += found
    head = ["history", "MB", "ms", "Rust ms", "by Rust", "MB/s", "memory by text", "Rust's by text"]
    table(f"evc-calls check, {TEXT_CALLS} calls", head, rows)
    small, large = MIXED.values()
    return [*figures, Figure(TEXT_GROWTH, "mixed", taken[large] / taken[small])]


def measure_buffers(check, folder):
    """Measures `evc-calls check` on histories of buffers, which no plain Rust decides."""
    rows, figures, path = [], [], os.path.join(folder, "buffer.calls")
    for kind in queues.KINDS:
        taken = []
        for items in ITEM_COUNTS:
            say(f"making the history of a buffer '{kind}'")
            queues.write_history(path, kind, items)
            taken += best_of([[check, "check"]], path)
            if items == ITEM_COUNTS[0]:
                queues.write_rejected(path, path)
                taken += best_of([[check, "check"]], path, right=1)
        (tenth, _), (rejected, _), (seconds, peak) = taken
        text = os.path.getsize(path)
        found = [Figure(BUFFER_SPEED, kind, text / 1e6 / seconds), Figure(BUFFER_MEMORY, kind, peak / text)]
        found += [Figure(BUFFER_GROWTH, kind, seconds / tenth), Figure(BUFFER_REJECTED, kind, rejected / tenth)]
        rows.append([kind, f"{text / 1e6:.1f}", *millis(seconds), *(it.text() for it in found)])
        figures += found
    head = ["history of a buffer", "MB", "ms", "MB/s", "memory by text", "by a tenth", "rejected by accepted"]
    table(f"evc-calls check, {ITEM_COUNTS[-1]} items of a buffer", head, rows)
    return figures


def measure_watch(calls, folder):
    """Measures `evc-calls watch` on histories of one object, and on many of them through a pipe."""
    rows, figures, path = [], [], os.path.join(folder, "watched.calls")
    for kind in WATCHED_KINDS:
        say(f"making the history '{kind}'")
        histories.write_history(path, kind, calls=TEXT_CALLS)
        text = os.path.getsize(path)
        ((seconds, peak),) = best_of([[calls, "watch"]], path)
        found = [Figure(WATCH_SPEED, kind, text / 1e6 / seconds), Figure(WATCH_MEMORY, kind, peak / MIB)]
        rows.append([kind, f"{text / 1e6:.1f}", *millis(seconds), *(it.text() for it in found)])
        figures += found
    count = PIPED * 1_000_000 // text + 1
    piped = f'for i in $(seq {count}); do cat "$1"; done | "$2" watch'
    _, peak = figures_of(["sh", "-c", piped, "sh", path, calls], os.devnull)
    figures.append(Figure(WATCH_MEMORY, PIPE, peak / MIB))
    rows.append([f"{count} of these, by a pipe", f"{count * text / 1e6:.1f}", "-", "-", figures[-1].text()])
    table(f"evc-calls watch, {TEXT_CALLS} calls", ["history", "MB", "ms", "MB/s", "peak MiB"], rows)
    return figures
