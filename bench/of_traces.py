"""The tables of bench/run on traces: `evc check`, `audit` and `upgrade`, and `read_trace` and `write_trace`.

Each function measures a table, prints it, and returns its figures.
"""

import filecmp
import os

import traces
from measuring import MIB, SIZES, Figure, Target, best_of, fail, measure, millis, say, table

# How many entries each trace of semaphores has.
ENTRIES = 400_000

# For each of the two commands: its time divided by that of plain Rust (texts.rs), its time on the longest trace divided
# by that on the shortest, its speed, and its memory.
RATIO = {it: Target(f"`{it}` / baseline", 1.5) for it in ("check", "audit")}
GROWTH = {it: Target(f"`{it}`: {SIZES[-1]} MiB / {SIZES[0]} MiB", 8.2, digits=1) for it in RATIO}
SPEED = {it: Target(f"`{it}`: MB/s", bound, least=True, digits=0) for it, bound in (("check", 200), ("audit", 150))}
MEMORY = {"check": Target("`check`: memory / input", 10), "audit": Target("`audit`: MiB", 8, digits=1)}

UPGRADE_SPEED = Target("`upgrade`: MB/s", 150, least=True, digits=0)
UPGRADE_MEMORY = Target("`upgrade`: memory / that of `check`", 1)
# How much longer `audit` takes with the most semaphores than with one.
GROUPS = Target("`audit`: 32 semaphores / 1", 1.3)
ALONE = {it: Target(f"`{it}_trace`: MB/s", 200, least=True, digits=0) for it in ("read", "write")}

# The kinds of traces on which the commands are measured.
KINDS = [*traces.KINDS, *traces.AUDITED, *traces.SORTS, list(traces.SEMAPHORES)[-1]]
UPGRADED = ("ordinary", "interleaved reads")


def make_trace(folder, kind, size):
    """Makes a trace, and returns its path and the kernel at its end."""
    say(f"making the trace '{kind}' of {size} MiB")
    path = os.path.join(folder, f"{kind.replace(' ', '-')}-{size}.trace")
    return path, traces.write_trace(path, kind, size * MIB)


def compare_checked(evc, path, kernel):
    """Checks that `check` writes a line for each completed call, and the right totals at the end."""
    out = path + ".out"
    measure([evc, "check"], path, out)
    totals = kernel.totals().encode()
    with open(out, "rb") as file:
        calls = sum(1 for _ in file) - 1 - totals.count(b"\n")
        file.seek(-len(totals), os.SEEK_END)
        if calls != kernel.completed or file.read() != totals:
            fail(f"check does not write of {path} what it has to")
    os.remove(out)


def compare_audited(evc, path, kernel):
    """Checks that `audit` writes exactly the lines of the simulator."""
    out = path + ".out"
    measure([evc, "audit"], path, out)
    right = "".join(line + "\n" for line in ["evc-audit 1", *kernel.audits(), "end"])
    with open(out, encoding="ascii") as file:
        if file.read() != right:
            fail(f"audit does not write of {path} what it has to")
    os.remove(out)


def compare_with_baseline(evc, baseline, command, path):
    """Checks that both programs write the same."""
    outs = [path + ".evc", path + ".rust"]
    for program, out in zip((evc, baseline), outs):
        measure([program, command], path, out)
    if not filecmp.cmp(*outs, shallow=False):
        fail(f"{command} writes of {path} not what plain Rust writes")
    for out in outs:
        os.remove(out)


def trace_row(evc, baseline, command, path):
    """Measures a command on a trace, compared with `cat`, `wc -l` and plain Rust. Returns the cells of the row, and the
    seconds, those of plain Rust, the speed and the memory."""
    text = os.path.getsize(path)
    programs = [["cat"], ["wc", "-l"], [evc, command], *([[baseline, command]] if baseline else [])]
    (cat, _), (wc, _), (seconds, peak), *baselines = best_of(programs, path)
    rust, rust_peak = baselines[0] if baselines else (None, None)
    plain = [*millis(rust), f"{seconds / rust:.2f}", f"{rust_peak / MIB:.1f}"] if baselines else ["-"] * 3
    ratios = [f"{seconds / cat:.1f}", f"{seconds / wc:.1f}", plain[1]]
    memory = [f"{peak / MIB:.1f}", plain[2], f"{peak / text:.2f}"]
    cells = [*millis(cat, wc, seconds), plain[0], *ratios, f"{text / 1e6 / seconds:.0f}", *memory]
    return cells, seconds, rust, text / 1e6 / seconds, peak / text if command == "check" else peak / MIB


def trace_figures(command, kind, took):
    """Returns the figures of a kind of traces, from the measures of each size."""
    found = []
    for size, (seconds, rust, speed, memory) in took.items():
        row = kind if size == SIZES[-1] else f"{kind} ({size} MiB)"
        found += [Figure(RATIO[command], row, seconds / rust)] if rust else []
        found.append(Figure(MEMORY[command], row, memory))
    found.append(Figure(SPEED[command], kind, speed))
    return [*found, Figure(GROWTH[command], kind, seconds / took[SIZES[0]][0])]


def make_traces(folder):
    """Makes the traces that are measured in several ways."""
    return {(kind, size): make_trace(folder, kind, size) for kind in traces.KINDS for size in SIZES}


def measure_commands(evc, baseline, folder, inputs):
    """Measures `check` and `audit` on all kinds of traces. Compares their output with the simulator's, if that has it, and
    with plain Rust's."""
    rows, figures = {"check": [], "audit": []}, []
    for kind in KINDS:
        took = {"check": {}, "audit": {}}
        for size in SIZES:
            path, kernel = inputs.get((kind, size)) or make_trace(folder, kind, size)
            if kind in traces.KINDS:
                compare_checked(evc, path, kernel)
            if kind in traces.AUDITED:
                compare_audited(evc, path, kernel)
            for command in rows:
                if baseline:
                    compare_with_baseline(evc, baseline, command, path)
                cells, *took[command][size] = trace_row(evc, baseline, command, path)
                rows[command].append([kind, str(size), *cells])
            if (kind, size) not in inputs:
                os.remove(path)
        for command in rows:
            figures += trace_figures(command, kind, took[command])
    for command in rows:
        head = ["trace", "MiB", "cat ms", "wc -l ms", f"{command} ms", "Rust ms", "by cat", "by wc -l", "by Rust", "MB/s"]
        table(f"evc {command}", [*head, "peak MiB", "Rust MiB", "by text"], rows[command])
    return figures


def compare_upgraded(evc, path):
    """Checks that `upgrade` writes the same lines, except that the first is that of version 2."""
    out = path + ".out"
    measure([evc, "upgrade"], path, out)
    with open(path, "rb") as old, open(out, "rb") as new:
        same = (old.readline(), new.readline()) == (b"evc-trace 1\n", b"evc-trace 2\n")
        while same and (piece := old.read(MIB)):
            same = piece == new.read(MIB)
        if not same or new.read(1):
            fail(f"upgrade does not write of {path} what it has to")
    os.remove(out)


def measure_upgrade(evc, inputs):
    """Measures `upgrade`, compared with `check`, on long traces of version 1."""
    rows, figures = [], []
    for kind in UPGRADED:
        path, _ = inputs[kind, SIZES[-1]]
        compare_upgraded(evc, path)
        text = os.path.getsize(path)
        (cat, _), (checking, most), (seconds, peak) = best_of([["cat"], [evc, "check"], [evc, "upgrade"]], path)
        speed = text / 1e6 / seconds
        ratios = [f"{seconds / cat:.1f}", f"{speed:.0f}", f"{peak / MIB:.1f}", f"{peak / most:.2f}"]
        rows.append([kind, *millis(cat, checking, seconds), *ratios])
        figures += [Figure(UPGRADE_SPEED, kind, speed), Figure(UPGRADE_MEMORY, kind, peak / most)]
    head = ["trace", "cat ms", "check ms", "upgrade ms", "by cat", "MB/s", "peak MiB", "by check's"]
    table(f"evc upgrade, {SIZES[-1]} MiB", head, rows)
    return figures


def measure_groups(evc, folder):
    """Measures `audit`, compared with `check`, on traces with the same number of entries and more and more semaphores."""
    rows, times = [], {}
    for kind in traces.SEMAPHORES:
        path = os.path.join(folder, kind.replace(" ", "-") + ".trace")
        compare_audited(evc, path, traces.write_trace(path, kind, SIZES[-1] * MIB, ENTRIES))
        (cat, _), (checking, _), (auditing, _) = best_of([["cat"], [evc, "check"], [evc, "audit"]], path)
        times[kind] = auditing
        growth = auditing / times[next(iter(times))]
        text = f"{os.path.getsize(path) / 1e6:.2f}"
        rows.append([kind, text, *millis(cat, checking, auditing), f"{auditing / checking:.2f}", f"{growth:.2f}"])
    table(f"evc audit, {ENTRIES} entries", ["trace", "MB", "cat ms", "check ms", "audit ms", "by check", "by one"], rows)
    return [Figure(GROUPS, f"{ENTRIES} entries", growth)]


def measure_texts(texts, inputs):
    """Measures `read_trace` and `write_trace` by themselves on long traces."""
    rows, figures = [], []
    for kind in traces.KINDS:
        path, _ = inputs[kind, SIZES[-1]]
        again = path + ".again"
        measure([texts, "write"], path, again)
        if not filecmp.cmp(path, again, shallow=False):
            fail(f"{path} is not written as it was read")
        os.remove(again)
        text = os.path.getsize(path)
        (cat, _), (wc, _), (reading, _), (both, _) = best_of([["cat"], ["wc", "-l"], [texts, "read"], [texts, "write"]], path)
        for what, seconds in ("read", reading), ("write", both - reading):
            ratios = [f"{seconds / cat:.1f}", f"{seconds / wc:.1f}"]
            rows.append([f"{what}_trace, {kind}", *millis(seconds), *ratios, f"{text / 1e6 / seconds:.0f}"])
            figures.append(Figure(ALONE[what], kind, text / 1e6 / seconds))
    table(f"Reading and writing alone, {SIZES[-1]} MiB", ["call", "ms", "by cat", "by wc -l", "MB/s"], rows)
    return figures
