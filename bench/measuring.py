"""What the parts of bench/run share: it builds programs, measures them in turn, and prints tables.

A `Target` is what is measured, with its name in docs/PERFORMANCE.md and its bound. A `Figure` is one of its measures, in
one row of a table.
"""

import os
import shutil
import subprocess
import sys
import typing

TOP = os.path.dirname(os.path.dirname(os.path.realpath(__file__)))
MIB = 1 << 20
SIZES = (8, 64)
TIMES = 8


class Target(typing.NamedTuple):
    """What is measured, and its bound: a greatest number, a least one (`least`), or none."""

    name: str
    bound: float | None = None
    least: bool = False
    digits: int = 2

    def named(self):
        """Returns the name, with the bound in brackets."""
        return self.name if self.bound is None else f"{self.name} ({self.bound:g})"

    def is_met(self, number):
        return self.bound is None or (number >= self.bound if self.least else number <= self.bound)


class Figure(typing.NamedTuple):
    """A measure of a target, in a row of a table."""

    target: Target
    row: str
    number: float

    def text(self):
        return f"{self.number:.{self.target.digits}f}"

    def line(self):
        """Returns the row of the last table: the figure and its target."""
        target = self.target
        bound = f"at {'least' if target.least else 'most'} {target.bound:g}"
        met = "ok" if target.is_met(self.number) else "over"
        return [f"{target.name}, {self.row}".replace("`", ""), self.text(), bound, met]


# The program that starts those that are measured (started.rs), if there is a rustc.
starter = None


def fail(text):
    sys.exit(f"bench/run: {text}")


def say(text):
    print(f"bench/run: {text}", file=sys.stderr, flush=True)


def machine():
    """Returns what the machine is: the cores, and their clock as the system reports it."""
    with open("/proc/cpuinfo", encoding="utf-8") as text:
        clocks = [float(it.split(":")[1]) for it in text if it.startswith("cpu MHz")]
    return f"{os.cpu_count()} cores at {max(clocks, default=0):.0f} MHz."


# Building


def build_evc():
    """Builds `evc` of these sources, if that is not done yet, and returns its path."""
    words, ours = [os.path.join(TOP, "bin/evc"), "--help"], {**os.environ, "EVC_BUILD": "1"}
    if subprocess.run(words, stdout=subprocess.DEVNULL, env=ours).returncode != 0:
        fail("evc was not built")
    return os.path.join(TOP, "crates/evc/out/evc")


def build_evc_calls():
    """Returns `evc-calls` of these sources: the released one if it is of them, otherwise it is proved and built."""
    if subprocess.run([os.path.join(TOP, "bin/evc-calls"), "--help"], stdout=subprocess.DEVNULL).returncode != 0:
        fail("evc-calls was not built")
    paths = [os.path.join(TOP, it) for it in ("crates/evc_calls/out/evc_calls", "out/evc-calls")]
    return max(filter(os.path.exists, paths), key=os.path.getmtime)


def build(crate):
    """Proves and builds a program crate, as `rt run` does before it runs it. Returns None if there is no such crate."""
    folder = os.path.join(TOP, "crates", crate)
    if not os.path.isdir(os.path.join(folder, "src")):
        return None
    say(f"building {crate}")
    with open(os.path.join(folder, "args"), encoding="ascii") as args:
        words = args.read().split()
    stdin = os.path.join(folder, "stdin")
    with open(stdin if os.path.exists(stdin) else os.devnull, "rb") as source:
        ran = subprocess.run(["rt", "run", "--", *words], cwd=folder, stdin=source, capture_output=True)
    if ran.returncode != 0:
        sys.stderr.buffer.write(ran.stderr[-4000:])
        fail(f"{crate} was not built")
    return os.path.join(folder, "out", crate)


def build_rust(folder, name, *more):
    """Compiles a baseline in plain Rust. Returns None if there is no rustc."""
    if shutil.which("rustc") is None:
        return None
    program = os.path.join(folder, name)
    source = os.path.join(TOP, f"bench/{name}.rs")
    options = ["--edition", "2024", "-O", "-C", "codegen-units=1", *more]
    subprocess.run(["rustc", *options, "-o", program, source], check=True)
    return program


def build_starter(folder):
    """Compiles the program by which the others are started from now on."""
    global starter
    starter = build_rust(folder, "started")


# Measuring


def check_end(words, status, right):
    """Fails if a program did not end with the right status."""
    if os.waitstatus_to_exitcode(status) != right:
        fail(f"{' '.join(words)} ended with status {os.waitstatus_to_exitcode(status)}")


def measure(words, source=os.devnull, target=os.devnull, right=0):
    """Runs a program once. Returns the seconds of CPU time, in user code and in the system, and the peak memory."""
    streams = [
        (os.POSIX_SPAWN_OPEN, 0, source, os.O_RDONLY, 0),
        (os.POSIX_SPAWN_OPEN, 1, target, os.O_WRONLY | os.O_CREAT | os.O_TRUNC, 0o600),
        # (the notes of `sim` and `run`)
        (os.POSIX_SPAWN_OPEN, 2, os.devnull, os.O_WRONLY, 0),
    ]
    child = os.posix_spawnp(words[0], words, os.environ, file_actions=streams)
    _, status, usage = os.wait4(child, 0)
    check_end(words, status, right)
    return usage.ru_utime + usage.ru_stime, usage.ru_maxrss * 1024


def figures_of(words, source, right=0):
    """Does the same as `measure`, but a small program starts the one that is measured: a process counts the memory of
    what it was started from, and the bench takes more memory than what it measures."""
    if not starter:
        return measure(words, source, right=right)
    with open(source, "rb") as text:
        ran = subprocess.run([starter, *words], stdin=text, stdout=subprocess.DEVNULL, stderr=subprocess.PIPE)
    status, micros, peak = map(int, ran.stderr.split())
    check_end(words, status, right)
    return micros / 1e6, peak * 1024


def best_of(programs, source=os.devnull, right=0):
    """Runs each program on a file, all of them in turn, TIMES times. Returns the least of each measure."""
    rounds = [[figures_of(words, source, right) for words in programs] for _ in range(TIMES)]
    return [(min(seconds), min(peaks)) for seconds, peaks in (zip(*runs) for runs in zip(*rounds))]


# Printing


def table(title, head, rows):
    """Prints a table of texts: the first column aligned to the left, the others to the right."""
    lines = [head, *rows]
    widths = [max(map(len, column)) for column in zip(*lines)]
    print(f"\n{title}\n")
    for first, *rest in lines:
        print("  ".join([first.ljust(widths[0]), *map(str.rjust, rest, widths[1:])]))


def print_targets(figures):
    """Prints the figures that have a bound, each with its bound."""
    table("Targets", ["figure", "is", "target", ""], [it.line() for it in figures if it.target.bound is not None])


def millis(*seconds):
    return [f"{1000 * it:.1f}" for it in seconds]
