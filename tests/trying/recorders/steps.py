"""Tests of the recorders of steps: a program that hangs, and names."""

import os

from trying.counting import need
from trying.recorders.tools import lines_of, ran


def try_steps(program, folder, kind):
    """Records steps under a lock, with a gate and pauses. If the program hangs, it leaves the trace so far."""
    said = ran([program, "steps", kind, "x.trace"], folder)
    if kind == "right":
        need(said.stdout == "|no fault\n", said.stdout + said.stderr)
    else:
        note = "hung: no step for 1 s; the trace is in x.trace: no fault\n"
        need((said.returncode, said.stderr) == (5, note), said.stdout + said.stderr)
    lines = lines_of(os.path.join(folder, "x.trace"))
    head = ["evc-trace 2", "limit 100000", "workers a b", "eventcount E signal a b", "run"]
    need(lines[:5] == head and lines[-2:] == ["end", ""], f"the trace is not whole: {lines[:8]}")
    steps = [lines.count(f"{it} advance E = done") for it in "ab"]
    need(sum(steps) == len(lines) - 7, "there are other lines")
    right = {"right": [1000, 1000], "idle": [1000, 500], "locked": [steps[0], 500]}
    need(steps == right[kind], f"there are {steps} steps")


OF_NAMES = """no fault
bad name
reserved word
name taken
name taken
name taken
name taken
bad line
bad name
"""


def try_names_of_steps(program, folder):
    said = ran([program, "steps"], folder).stdout
    need(said == OF_NAMES, said)
