"""The tables of bench/run on scripts and steps: `evc sim`, `evc run`, `parse`, and the steps of worlds and runs.

Each function measures a table, prints it, and returns its figures.
"""

import os
import subprocess
import time

import scripts
from measuring import MIB, TIMES, Figure, Target, best_of, fail, measure, millis, table

STEPS = 10_000_000

# How often `bench_texts parse` parses its text.
PARSED = 64

# What workers on threads do (scripts.py), how many they are, and how often each does it; and the names of the rows.
THREADS = [
    *(("advances", workers, 100_000 // workers) for workers in (1, 2, 4, 16)),
    ("queue", 16, 3000),
    ("semaphore", 16, 3000),
]
ROWS = ["1 worker", "2 workers", "4 workers", "16 workers", "queue of 16", "semaphore of 16"]

SIM = Target("`sim`: µs for a step")
PARSE_SPEED = Target("`parse`: MB/s", 50, least=True, digits=0)
THREADED = Target("`run` / baseline, wall-clock", 1.3)
# For a step of a world and of a run: its time, and its time divided by that of plain Rust (steps.rs).
STEP = {it: Target(f"step of a {it}: ns", bound, digits=1) for it, bound in (("world", 30), ("run", 60))}
STEP_RATIO = {it: Target(f"step of a {it} / baseline") for it in STEP}


def compare_simulated(evc, path, trace):
    """Checks that `sim` writes exactly the trace of the script."""
    out = path + ".out"
    measure([evc, "sim"], path, out)
    with open(out, encoding="ascii") as file:
        if file.read() != trace:
            fail(f"sim does not write of {path} what it has to")
    os.remove(out)


def measure_scripts(evc, texts, folder):
    """Measures `sim`, and `parse` by itself, on each kind of script."""
    rows, figures = [], []
    for kind in scripts.KINDS:
        path = os.path.join(folder, kind.replace(" ", "-") + ".script")
        compare_simulated(evc, path, scripts.write_script(path, kind))
        text = os.path.getsize(path)
        programs = [["cat"], ["wc", "-l"], [evc, "sim"], *([[texts, "parse"]] if texts else [])]
        (cat, _), (wc, _), (seconds, peak), *parsing = best_of(programs, path)
        turn = seconds / scripts.NAMES
        rows.append([kind, f"{text / 1e6:.2f}", *millis(cat, wc, seconds), f"{1e9 * turn:.0f}", f"{peak / MIB:.1f}"])
        figures.append(Figure(SIM, kind, 1e6 * turn))
        if parsing:
            figures.append(Figure(PARSE_SPEED, kind, PARSED * text / 1e6 / parsing[0][0]))
    table("evc sim", ["script", "MB", "cat ms", "wc -l ms", "sim ms", "ns for a step", "peak MiB"], rows)
    return figures


def elapsed(words, source):
    """Runs a program once. Returns the wall-clock time in seconds, which is what threads save."""
    began = time.perf_counter()
    measure(words, source)
    return time.perf_counter() - began


def compare_threaded(evc, words, script, header, totals):
    """Checks that a program on threads writes a trace with this header and these totals."""
    trace, checked = script + ".trace", script + ".checked"
    measure(words, script, trace)
    measure([evc, "check"], trace, checked)
    with open(trace, encoding="ascii") as text, open(checked, encoding="ascii") as order:
        if not text.read(len(header)) == header or not order.read().endswith("\n" + totals):
            fail(f"{words[0]} does not write of {script} what it has to")
    os.remove(trace)
    os.remove(checked)


def measure_threads(evc, threads, folder):
    """Measures `run`, compared with the same steps in plain Rust under a Mutex, with a Condvar for each worker."""
    rows, figures = [], []
    for row, (kind, workers, times) in zip(ROWS, THREADS):
        path = os.path.join(folder, f"{kind}-{workers}.script")
        right = scripts.write_threaded(path, kind, workers, times)
        programs = [[evc, "run", "--turns", "1000000"], *([[threads, kind, str(workers), str(times)]] if threads else [])]
        for words in programs:
            compare_threaded(evc, words, path, *right)
        rounds = [[elapsed(words, path) for words in programs] for _ in range(TIMES)]
        seconds, *baselines = (min(runs) for runs in zip(*rounds))
        ratio = [f"{seconds / baselines[0]:.2f}"] if baselines else ["-", "-"]
        rows.append([kind, str(workers), str(workers * times), *millis(seconds, *baselines), *ratio])
        figures += [Figure(THREADED, row, seconds / it) for it in baselines]
    table("evc run", ["workers that make", "workers", "of these in all", "ms", "Rust ms", "by Rust"], rows)
    return figures


def measure_steps(steps, rust):
    """Measures steps, compared with the same loop in plain Rust."""
    rows, figures = [], []
    for what in STEP:
        loops = [[program, what, str(STEPS)] for program in (steps, rust) if program]
        if len({subprocess.check_output(words) for words in loops}) != 1:
            fail(f"the two loops of {what} come to different sums")
        ns = [seconds * 1e9 / STEPS for seconds, _ in best_of(loops)]
        rows.append([what, f"{ns[0]:.1f}", *([f"{ns[1]:.1f}", f"{ns[0] / ns[1]:.2f}"] if rust else ["-", "-"])])
        figures.append(Figure(STEP[what], f"{STEPS} in a loop", ns[0]))
        figures += [Figure(STEP_RATIO[what], f"{STEPS} in a loop", ns[0] / it) for it in ns[1:]]
    table(f"Steps, {STEPS} in a loop", ["on", "ns", "Rust ns", "by Rust"], rows)
    return figures
