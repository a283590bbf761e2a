"""The examples of recorders, of rounds and of monitors, right and with their bugs, and objects of real libraries."""

import os
import shutil
import subprocess

from trying.counting import Fault, need
from trying.files import TOP
from trying.recorders.rounds import try_stress
from trying.recorders.tools import RUSTC, WARNINGS, built, calls_of, compilers, ran


def try_example(words, folder, judge):
    """Builds an example and runs it with each bug: the judge has to reject exactly the runs with a bug."""
    built(words, folder)
    for bug in ("", "lost", "twice", "early", "lock"):
        ran([os.path.join(folder, "example"), "x.calls", *bug.split()], folder)
        calls, pending = calls_of(os.path.join(folder, "x.calls"))
        need((calls, pending) == (4800, {}), f"{bug}: {calls} calls")
        try:
            judge.says(os.path.join(folder, "x.calls"), bug == "")
        except Fault as fault:
            raise Fault(f"with the bug '{bug}' {fault}") from None


def try_examples(folder, count, judge):
    source = os.path.join(TOP, "recorder", "example_calls")
    out = os.path.join(folder, "example")
    for name in ("gcc", "clang"):
        if shutil.which(name):
            words = [name, "-std=c11", "-O2", *WARNINGS, "-pthread", f"{source}.c", "-o", out]
            count.tried(f"the example by {name}", try_example, words, folder, judge)
    if shutil.which("rustc"):
        words = [*RUSTC, "-O", f"{source}.rs", "-o", out]
        count.tried("the example in Rust", try_example, words, folder, judge)


def try_example_of_rounds(folder, count, judge):
    """Builds a complete test, in C and in Rust, and runs it as it is and with its bug."""
    if judge.library is None:
        return
    libraries, here = os.path.dirname(judge.library), os.path.join(TOP, "recorder")
    header = ["-I", os.path.join(TOP, "library")]
    name, language, words = compilers()[0]
    if language == "C11":
        out = os.path.join(folder, "example")
        words = [name, *words, "-O2", *WARNINGS, "-pthread", *header]
        words += [os.path.join(here, "example_stress.c"), judge.library, "-o", out]
        if count.tried("the example of rounds is built", built, words, folder):
            count.tried("the example of rounds", try_stress, out, folder, judge, [], 0, "passed")
            count.tried("its bug", try_bug, [out, "bug"], folder, (1, 5))
    if shutil.which("rustc"):
        words = [*RUSTC, "--test", "--cfg", "libevc"]
        words += [os.path.join(here, "example_stress.rs"), "-L", libraries, "-l", "static=evc"]
        for more, right in (([], (0,)), (["--cfg", "bug"], (101,))):
            out = os.path.join(folder, "example-rust")
            what = f"the example of rounds in Rust {more}"
            if count.tried(f"{what} is built", built, [*words, *more, "-o", out], folder):
                count.tried(what, try_bug, [out], folder, right)


def try_bug(words, folder, statuses):
    """Runs an example with its bug: it is rejected, or hangs if no read shows what is lost."""
    said = ran(words, folder)
    need(said.returncode in statuses, f"it ended with {said.returncode}: {said.stderr}")


def try_shown(folder, judge, name, words, runs):
    """Builds an example, and checks how the output of each run with some words begins."""
    out = os.path.join(folder, name)
    built = ran([*words, "-o", out], folder)
    need(built.returncode == 0, built.stderr)
    for given, right in runs:
        environment = {**os.environ, "EVC_CALLS": judge.program or os.path.join(TOP, "bin", "evc-calls")}
        said = subprocess.run([out, *given], cwd=folder, capture_output=True, text=True, env=environment, check=False)
        need((said.stdout + said.stderr).startswith(right), f"{given}: {said.stdout}{said.stderr}")


def try_presses(folder, words):
    """Checks the bug of presses.rs: a sheet is lost, as `evc check` says."""
    out, trace = os.path.join(folder, "presses"), os.path.join(folder, "shared.trace")
    built = ran([*words, "-o", out], folder)
    need(built.returncode == 0, built.stderr)
    ran([out, trace, "shared"], folder)
    with open(trace, "rb") as text:
        said = subprocess.run([os.path.join(TOP, "bin", "evc"), "check"], stdin=text, capture_output=True, check=False)
    need((said.returncode, said.stderr) == (1, b"line 12: wrong reply, right is 2\n"), f"{said}")


# What faults.c says.
FAULTS = """a step: no fault
a step of worker 7: unknown worker
17 workers: too many workers
a worker p: reserved word
a sequencer 9: bad name
a second E: name taken
a counter: bad line
a worker after a step: declared too late
a line of two lines: bad line
4194304 steps: too large
10000 steps with little memory: no memory
a file in no folder: not written
"""


def try_other_examples(folder, count, judge):
    """Tries the examples of monitors and of steps, right and with their bugs."""
    source = os.path.join(TOP, "recorder")
    compiler = next((it for it in ("gcc", "clang") if shutil.which(it)), None)
    if compiler:
        words = [compiler, "-std=c11", "-O2", "-pthread", os.path.join(source, "example_monitor.c")]
        runs = [(["1"], "right"), (["1", "lost"], "wrong")]
        count.tried("the example of a monitor", try_shown, folder, judge, "monitored", words, runs)
        words = [compiler, "-std=c11", "-pthread", os.path.join(source, "faults.c")]
        count.tried("each error of steps", try_shown, folder, judge, "faults", words, [([], FAULTS)])
    if shutil.which("rustc"):
        words = ["rustc", "--edition", "2021", "-O", os.path.join(source, "example_monitor.rs")]
        runs = [(["1"], "right"), (["1", "lost"], "REFUSED")]
        count.tried("the example of a monitor in Rust", try_shown, folder, judge, "monitored-rust", words, runs)
        words = ["rustc", "--edition", "2021", "-O", os.path.join(source, "presses.rs")]
        count.tried("the bug of presses.rs", try_presses, folder, words)


def try_real(folder, judge):
    """Runs objects of real libraries, and planted bugs until they are found."""
    words = [os.path.join(TOP, "examples", "real", "run"), "--kinds", "right,bug", "--rounds", "10"]
    words += ["--shapes", "ring,mixed", "--once", "--bug-rounds", "20000"]
    environment = {**os.environ, "EVC_CALLS": judge.program or "", "LIBEVC": judge.library or ""}
    said = subprocess.run(words, cwd=folder, capture_output=True, text=True, env=environment, check=False)
    lines = said.stdout.split("\n")
    for line in lines:
        if "left out" in line:
            print(line)
    wrong = [it for it in lines if not it.startswith("ok  ") and "left out" not in it]
    need(said.returncode == 0, "\n".join(wrong) + said.stderr)
