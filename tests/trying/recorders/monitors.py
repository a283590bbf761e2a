"""Monitors of a program that runs, in C and in Rust (tests/monitor.c, tests/monitor.rs)."""

import os
import re
import shutil

from trying.counting import need
from trying.files import TOP
from trying.recorders.tools import IS_X86, RUSTC, SANITIZERS, WARNINGS, calls_of, compilers, is_built, ran, sanitized

REFUSAL = r"line \d+: returned .*\n"
PENDING = r"line \d+: w1 calls await E 1000000000 has not returned\n"
MISUSED = r"misused: worker w2: a return without a call\n(line \d+: .* has not returned\n)*"
MONITORED = [
    ("right-file", 0, ""),
    ("pending-file", 0, PENDING),
    ("misused-file", 2, MISUSED),
    ("right-stop", 7, r"(line \d+: .* has not returned\n)*"),
]
JUDGED = [("right", 0, ""), ("lost", 1, REFUSAL), ("twice", 1, REFUSAL), ("pending", 0, PENDING)]
# (the library's monitor stops at once, and so with calls that have not returned)
STOPPED = rf"{REFUSAL}(line \d+: .* has not returned\n)*"
BY_LIBRARY = [
    ("right-library", 0, ""),
    ("lost-library", 1, STOPPED),
    ("twice-library", 1, STOPPED),
    ("pending-library", 0, PENDING),
]


def try_monitor(program, folder, judge, asked, status, note):
    """Monitors threads that make 3000 calls each: by the judge, into a file, or by one that stops."""
    kind, clock = asked
    path = os.path.join(folder, "x.calls")
    more = {"env": {**os.environ, "EVC_CALLS": judge.program or "none"}}
    said = ran([program, kind, clock, "3000", "x.calls"], folder, **more)
    need(said.returncode == 0, said.stderr)
    form = rf"{status}\n{note}(constant|grown)\n"
    need(re.fullmatch(form, said.stdout), f"it said {said.stdout}")
    # (a sanitizer's own memory grows)
    need("constant" in said.stdout or "sanitize" in program, "its memory grew")
    if kind.endswith("file") and status == 0:
        calls, pending = calls_of(path)
        events = 2 * calls - len(pending)
        need(said.stderr == f"{events} events\n", f"{events} events")
        need(pending == ({"w1": "await E 1000000000"} if kind[0] == "p" else {}), f"{pending}")
        need(calls == 12000 + len(pending), f"{calls} calls")
        judge.says(path)


def monitors_by_library(library):
    """Yields the programs that are built from tests/monitor.c with the library."""
    source = os.path.join(TOP, "tests", "monitor.c")
    header = os.path.join(TOP, "library", "evc.h")
    linked = ["-include", header, "-pthread", source, "-x", "none", library]
    name, language, words = compilers()[0]
    yield f"{language} by {name} with the library", [name, *words, "-O2", *WARNINGS, *linked]
    for sanitizer in SANITIZERS:
        yield f"the {sanitizer} sanitizer and the library", [name, *words, *sanitized(sanitizer), *linked]


def monitors_in_c():
    """Yields the programs that are built from tests/monitor.c: those of the first compiler and its
    sanitizers run all tests, those of other compilers only some."""
    source, (first, *others) = os.path.join(TOP, "tests", "monitor.c"), compilers()
    for name, language, words in [first, *others]:
        words = [name, *words, "-O2" if name == first[0] else "-O0", *WARNINGS, "-pthread", source]
        yield f"{language} by {name}", words, name == first[0]
    for sanitizer in SANITIZERS:
        words = [first[0], *first[2], *sanitized(sanitizer), "-pthread", source]
        yield f"the {sanitizer} sanitizer", words, True


def place_of(folder, name, number):
    """Returns where a monitor is built. The path says whether it has a sanitizer."""
    return os.path.join(folder, f"{'sanitized' if 'sanitizer' in name else 'monitor'}-{number}")


def try_monitors(folder, count, judge):
    clocks = ["tsc", "counter"] if IS_X86 else ["counter"]
    programs = list(monitors_in_c())
    if shutil.which("rustc"):
        programs.append(("Rust", [*RUSTC, os.path.join(TOP, "tests", "monitor.rs")], True))
    for number, (name, words, is_whole) in enumerate(programs):
        out = place_of(folder, name, number)
        if not is_built(count, f"a monitor, {name}", [*words, "-o", out], folder):
            continue
        for asked, *right in MONITORED + (JUDGED if judge.program else []):
            for clock in clocks if is_whole and asked == "right-file" else clocks[:1]:
                if is_whole or asked == "right-file":
                    what = f"a monitor, {name}: {asked} {clock}"
                    count.tried(what, try_monitor, out, folder, judge, (asked, clock), *right)


def try_monitors_by_library(folder, count, judge):
    """Tries the same threads, judged by the library's monitor."""
    if judge.library is None:
        print("monitors are not judged by the library: there is none of these sources, and no LIBEVC")
        return
    for number, (name, words) in enumerate(monitors_by_library(judge.library)):
        out = place_of(folder, name, f"library-{number}")
        if not is_built(count, f"a monitor, {name}", [*words, "-o", out], folder):
            continue
        for asked, *right in BY_LIBRARY:
            what = f"a monitor, {name}: {asked}"
            count.tried(what, try_monitor, out, folder, judge, (asked, "counter"), *right)
