"""What is written: into files that are full, in texts of many lengths, and if notes are lost."""

import random

from trying.failing import faults_of_folder, faults_of_full_files
from trying.files import example
from trying.rows import input_named


def files_written():
    """Yields commands that write, and their inputs."""
    yield ["check"], input_named("a_read_overtaken_by_an_advance")
    yield ["audit"], example("two-producers.trace")
    yield ["upgrade"], input_named("upgrade_of_a_read_under_way")
    yield ["upgrade"], input_named("upgrade_of_a_trace_of_version_2")
    yield ["sim"], example("tickets.script")
    yield ["sim"], input_named("sim_of_a_ticket_and_an_await")
    yield ["run"], example("tickets.script")
    # (with room for its output the status is 5)
    yield ["run", "--turns", "1"], example("tickets.script")


def faults_of_full_run(program, words, text):
    """Returns what is wrong with a run whose output is a file that takes so many bytes, for each number below half of
    them: traces differ from run to run, and some are shorter by a few steps of an await."""
    faults = []
    for most in range(len(program.ends(words, text)[1]) // 2):
        status, prefix, notes = program.ends_into(words, text, most)
        is_reported = (status, len(prefix), notes) == (3, most, b"write fault\n")
        # (each trace is right, so `check` is asked)
        if not is_reported or program.ends(["check"], prefix) != (1, b"", b"unfinished\n"):
            faults.append(f"into a file of {most} bytes: status {status}, {len(prefix)} bytes, {notes}")
    return faults


def faults_of_files(program):
    """Checks that a failed write is reported, wherever it comes, and that the file has the prefix before it."""
    faults = []
    for words, text in files_written():
        faults_of = faults_of_full_run if words[0] == "run" else faults_of_full_files
        faults += [f"{' '.join(words)} {it}" for it in faults_of(program, words, text)]
    return faults


def trace_of_length(many):
    """Returns a trace of version 2 with so many bytes, at least 454: puts of values of 1 to 18 digits, in lines of 20
    to 37 bytes."""
    head, end = b"evc-trace 2\nlimit 1\nworkers a\ncells X 1 write a\nrun\n", b"end\n"
    left, lines = many - len(head) - len(end), []
    while left > 0:
        width = left // -(-left // 37)
        lines.append(b"a put X[0] %b = done\n" % (b"7" * (width - 19)))
        left -= width
    return b"".join([head, *lines, end])


def faults_of_lengths(program):
    """Checks that texts of many lengths are written completely, however much is left for the last write."""
    draw = random.Random(8192)
    lengths = {454 + it for it in range(200)} | {2**it + more for it in range(9, 17) for more in range(-2, 3)}
    lengths |= {draw.randrange(454, 40_000) for _ in range(400)}
    faults = []
    for many in sorted(lengths):
        text = trace_of_length(many)
        if len(text) != many or program.ends(["upgrade"], text) != (0, text, b""):
            faults.append(f"upgrade of {many} bytes, or {len(text)}")
    return faults


def faults_of_devices(program):
    """Checks that a directory can't be read, and that lost notes change no status and nothing is written instead."""
    faults = []
    for word in ("check", "audit", "upgrade", "sim", "run"):
        faults += faults_of_folder(program, [word])
        status, output, _ = program.ends_at_full([word], b"x\n", "stderr")
        if (status, output) != (1, b""):
            faults.append(f"{word} without room for its note: status {status}")
    return faults
