"""Tries golden tests: runs their commands, and finds what is not as the test says."""

import subprocess

from trying.counting import tried
from trying.files import TOP
from trying.rows import rows_in
from trying.running import run

SECONDS = 600
# How many bytes are shown on each side of the first one that differs.
SHOWN = 200


def faults_of(program, row):
    """Runs one golden test, and returns a line for each thing that is not as it has to be."""
    faults = []
    text = row.input
    for command in row.commands:
        name = repr(b" ".join(command.words).decode(errors="backslashreplace"))
        try:
            ended = run([program, *command.words], text, SECONDS, cwd=TOP)
        except subprocess.TimeoutExpired:
            return faults + [f"{name} had not ended after {SECONDS} seconds"]
        except (OSError, ValueError) as error:
            return faults + [f"{name} could not be started: {error}"]
        is_last = command is row.commands[-1]
        faults += [f"{name}: {it}" for it in differences(command, ended, is_last)]
        text = ended[1]
    return faults


def differences(command, ended, is_last):
    """Returns a line for each result of a command that is not what the test says."""
    found, (status, output, notes) = [], ended
    for count, text in command.counts or []:
        lines = sum(text in line for line in output.splitlines())
        if lines != count:
            found.append(f"output: {lines} lines have {text!r}, and right is {count}")
    if command.output is not None or is_last and command.counts is None:
        arranged = in_order if command.in_any_order else bytes
        found += difference("output", arranged(output), arranged(command.output or b""))
    found += difference("notes", notes, command.notes or b"")
    if status != (command.status or 0):
        found.append(f"status {status}, and right is {command.status or 0}")
    return found


def in_order(text):
    """Returns the lines of a text in the order of their bytes."""
    return b"".join(sorted(text.splitlines(keepends=True)))


def difference(part, got, right):
    """Returns a list with a line that says where two texts first differ, or an empty list."""
    if got == right:
        return []
    same = (one == other for one, other in zip(got, right))
    at = next((place for place, is_same in enumerate(same) if not is_same), min(len(got), len(right)))
    line = got[:at].count(b"\n") + 1
    return [f"{part}, byte {at + 1} (in line {line}): {around(got, at)}, and right is {around(right, at)}"]


def around(text, at):
    """Returns the line that has the byte at this position, or as much of it as is shown."""
    if at == len(text):
        return "the end"
    before = text[max(at - SHOWN, 0) : at].rpartition(b"\n")[2]
    rest, line_feed, _ = text[at : at + SHOWN].partition(b"\n")
    return repr(before + rest + line_feed)


def try_each(part, file, faults_of_row):
    """Tries each golden test of a file, of which no two may have one name."""
    names = set()
    for row in rows_in(file):
        faults = tried(faults_of_row, row)
        part.add(f"{row.place}: {row.name}", [*faults, "a second row of this name"] if row.name in names else faults)
        names.add(row.name)
