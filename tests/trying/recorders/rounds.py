"""Rounds of threads, in C and in Rust (tests/stress.c, tests/stress.rs)."""

import os
import re
import shutil
import signal

from trying.counting import need
from trying.files import TOP
from trying.recorders.tools import (
    IS_X86,
    RUSTC,
    SANITIZERS,
    WARNINGS,
    calls_of,
    compilers,
    is_built,
    lines_of,
    ran,
    recovered,
)


def try_stress(program, folder, judge, words, status, said, note=""):
    """Runs rounds, and checks what was said and, if a history was kept, that history."""
    for name in ("refused.calls", "refused.calls.note"):
        if os.path.exists(os.path.join(folder, name)):
            os.remove(os.path.join(folder, name))
    options = "report_thread_leaks=0 exitcode=0"  # (threads that hang are left)
    more = {"env": {**os.environ, "EVC_CALLS": judge.program or "none", "TSAN_OPTIONS": options}}
    ran_so = ran([program, *words], folder, **more)
    need("WARNING" not in ran_so.stderr, ran_so.stderr[:3000])
    # (a panic comes before it)
    _, found, rest = ran_so.stderr.rpartition(f"{said}: round ")
    need(ran_so.returncode == status and found, f"it ended with {ran_so.returncode}: {ran_so.stderr}")
    first, _, rest = (found + rest).partition("\n")
    need(re.search(note, rest), f"the note is {rest}")
    kept = os.path.join(folder, "refused.calls")
    need(os.path.exists(kept) == (status in (1, 3, 5, 6)), "a history is kept, or none is")
    if status in (1, 5, 6):
        calls_of(kept)
        judge.says(kept, status != 1)
        kept_note = "\n".join(lines_of(kept + ".note"))
        said_so = f"{first}\n{kept_note}the history is in refused.calls\n"
        need(ran_so.stderr.endswith(said_so), f"the kept note is {kept_note}")
    if status in (5, 6) and "no call is pending" not in kept_note:
        found = re.search(r"line (\d+): (.*) has not returned", kept_note)
        need(lines_of(kept)[int(found[1]) - 1] == found[2], f"line {found[1]} is another")


NOT_RETURNED = r"^(line \d+: w\d calls await E \d+ has not returned\n)+"
REMARK = r"remark: line \d+: w\d awaits E \d+, and the count was surely \d+\n"
RIGHT = [
    ("right mixed counter 40", 0, "passed", ""),
    ("right ring counter 20", 0, "passed", ""),
    ("right mixed tsc 40", 0, "passed", ""),
    ("right ring monotonic 20", 0, "passed", ""),
    ("right queue counter 20", 0, "passed", ""),
]
STRESSES = [
    ("full mixed counter 10", 2, "no record", "^full: worker w.: no room for another call"),
    ("misused mixed counter 10", 2, "no record", "^misused: worker"),
    ("misnamed mixed counter 10", 2, "no record", "^reserved word: p"),
    ("silent mixed counter 10", 0, "passed", "^weak: the calls hardly overlapped"),
    ("unsure mixed counter 10", 3, "no verdict", r"^\d+ rounds are not decided"),
    ("outside mixed counter 10", 5, "HUNG", "^no call is pending: a thread hangs between its calls"),
]
# (each is found in one of its first rounds; the others are needed on a busy machine)
FOUND = [
    ("wake ring counter 1000", 5, "HUNG", NOT_RETURNED + REMARK),
    ("lost mixed counter 1000", 1, "REFUSED"),
    ("early mixed counter 1000", 1, "REFUSED"),
    ("kept mixed counter 1000", 1, "REFUSED"),
    ("ticket mixed counter 1000", 1, "REFUSED"),
    ("lock mixed counter 1000", 1, "REFUSED"),
    ("hasty queue counter 1000", 1, "REFUSED", r"had returned \d+, but only \d+ produces? called by then can have put"),
    ("shared queue counter 1000", 1, "REFUSED", "had been put in|had returned done|was produced before|had not been taken|had been taken"),
    ("wide queue counter 1000", 1, "REFUSED", "(with|and) room for 2|had not been taken before line|items? had been (put in|taken)"),
]
PANICKED = [("panics mixed counter 10", 6, "PANICKED", r"line \d+: w\d calls advance E has not returned")]
BY_PROGRAM = [RIGHT[0], RIGHT[-1], FOUND[0], FOUND[1]]


def try_asked(what, program, tools, folder, count, judge, asked, is_whole):
    """Runs these rounds of a program, and if `is_whole` also an abort and a history that can't be kept."""
    for words, *right in (it for it in asked if IS_X86 or "tsc" not in it[0]):
        count.tried(f"{what}: {words}", try_stress, program, folder, judge, words.split(), *right)
    if is_whole:
        count.tried(f"{what}: an abort", try_abort, program, tools, folder, judge)
        count.tried(f"{what}: no file", try_unkept, program, folder, judge)


def try_abort(program, tools, folder, judge):
    """Aborts in a round: the file has to have that round, from which its history is recovered."""
    said = ran([program, "abort", "mixed", "counter", "10"], folder)
    need(said.returncode == -signal.SIGABRT, f"it ended with {said.returncode}: {said.stderr}")
    calls, pending = recovered(tools, folder)
    need(calls >= 10 and "advance E" in pending.values(), f"{calls} calls, pending are {pending}")
    judge.says(os.path.join(folder, "r.calls"))


def try_unkept(program, folder, judge):
    """Has a history kept in a folder that doesn't exist: it has to be on standard error."""
    said = ran([program, "unkept", "mixed", "counter", "1000"], folder)
    need(said.returncode == 1 and "the history is in refused" not in said.stderr, said.stderr)
    note, _, text = said.stderr.partition("so here it is\n")
    need(note == "could not write nowhere/refused.calls and its note, ", said.stderr)
    path = os.path.join(folder, "unkept.calls")
    with open(path, "w", encoding="utf-8") as file:
        file.write(text[: text.index("end\n") + 4])
    judge.says(path, False)


def try_rounds(tools, folder, count, judge):
    source = os.path.join(TOP, "tests", "stress.c")
    header = os.path.join(TOP, "library", "evc.h")
    linked = ["-include", header, source, "-x", "none", judge.library]
    # (tests/monitor.c has the header as well, and each other compiler builds that)
    name, language, words = compilers()[0]
    words, asked = [name, *words, *WARNINGS], RIGHT + STRESSES + FOUND
    programs = [(f"{language} by {name}", [*words, "-O2"], asked)]
    for sanitizer in SANITIZERS:
        sanitized = [*words, f"-fsanitize={sanitizer}", "-g", "-O0"]
        programs.append((f"{name} with the {sanitizer} sanitizer", sanitized, asked))
    if judge.library is None:
        print("rounds are not judged by the library: there is none of these sources, and no LIBEVC")
        programs = []
    if judge.program:
        programs.append((f"{name}, judged by the program", [*words, "-O0"], BY_PROGRAM))
    for number, (name, words, asked) in enumerate(programs):
        out, what = os.path.join(folder, f"stress-{number}"), f"rounds, {name}"
        words = [*words, "-pthread", *([source] if "judged" in name else linked), "-o", out]
        if is_built(count, what, words, folder):
            try_asked(what, out, tools, folder, count, judge, asked, number == 0)


def try_rounds_in_rust(tools, folder, count, judge):
    if shutil.which("rustc") is None:
        return
    source = os.path.join(TOP, "tests", "stress.rs")
    programs = []
    if judge.library:
        linked = ["--cfg", "libevc", "-L", os.path.dirname(judge.library), "-l", "static=evc"]
        programs.append(("rounds in Rust", linked, RIGHT + STRESSES + FOUND + PANICKED))
    if judge.program:
        programs.append(("rounds in Rust, judged by the program", [], BY_PROGRAM))
    for number, (name, more, asked) in enumerate(programs):
        out = os.path.join(folder, f"stress-rust-{number}")
        if is_built(count, name, [*RUSTC, source, *more, "-o", out], folder):
            try_asked(name, out, tools, folder, count, judge, asked, bool(more))
