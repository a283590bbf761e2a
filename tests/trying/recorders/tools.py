"""What all tests of recorders share: tests with their times, programs, histories, the judge, and compilers."""

import os
import platform
import re
import resource
import shutil
import subprocess
import time

from trying.counting import Count, Fault, need
from trying.files import TOP

SANITIZERS = ["thread", "address,undefined"]
IS_X86 = platform.machine() == "x86_64"
WARNINGS = ["-Wall", "-Wextra", "-Wpedantic", "-Werror"]
RUSTC = ["rustc", "--edition", "2021", "-D", "warnings"]
# How a program is run that hangs: its threads are left.
HANGING = {"env": {**os.environ, "TSAN_OPTIONS": "report_thread_leaks=0"}}


class Timed(Count):
    """What passed and failed, and how long each test took."""

    def __init__(self):
        super().__init__()
        self.times = []

    def tried(self, name, test, *given):
        """Runs a test, which raises a Fault if something is wrong. Returns whether nothing is."""
        used, since, faults = resource.getrusage(resource.RUSAGE_CHILDREN), time.monotonic(), []
        try:
            test(*given)
        except Fault as fault:
            faults = [str(fault)]
        self.add(name, faults)
        now = resource.getrusage(resource.RUSAGE_CHILDREN)
        taken = now.ru_utime + now.ru_stime - used.ru_utime - used.ru_stime
        self.times.append((taken, time.monotonic() - since, name))
        return not faults

    def show_times(self):
        """Shows the CPU time and the wall-clock time of the longest tests, in seconds."""
        for taken, passed, name in sorted(self.times, reverse=True)[:40]:
            print(f"{taken:7.2f} {passed:7.2f}  {name}")
        print(f"{sum(it[0] for it in self.times):7.2f} {sum(it[1] for it in self.times):7.2f}  all")


def ran(words, folder, **more):
    """Runs a program in a folder, for at most ten minutes."""
    try:
        more = {"cwd": folder, "text": True, "errors": "replace", "timeout": 600, **more}
        return subprocess.run(words, capture_output=True, check=False, **more)
    except subprocess.TimeoutExpired:
        raise Fault(f"{words} did not end") from None


def lines_of(path):
    with open(path, encoding="utf-8") as text:
        return text.read().split("\n")


CALL = re.compile(
    r"(\w+) calls ((advance|read|ticket|p|v|snapshot|consume) \w+|(await|produce) \w+ \d+|put \w+\[\d+\] \d+"
    r"|get \w+\[\d+\]|pboth \w+ \w+|write \w+( \d+)+)"
)
RETURN = re.compile(r"(\w+) returns (done|timeout|\d+( \d+)*)")


def calls_of(path):
    """Reads a history, and returns how many calls it has, and which are pending, by worker."""
    lines = lines_of(path)
    need(lines[0] == "evc-calls 1" and lines[-2:] == ["end", ""], "the history is not whole")
    calls, pending = 0, {}
    for line in lines[lines.index("run") + 1 : -2]:
        call, returned = CALL.fullmatch(line), RETURN.fullmatch(line)
        if call:
            need(call[1] not in pending, f"{line}: its call is pending")
            pending[call[1]] = call[2]
            calls += 1
        else:
            need(returned and pending.pop(returned[1], None), f"{line}: no call is pending")
    return calls, pending


class Judge:
    """The program that decides whether a history is linearizable, and the library."""

    def __init__(self, folder):
        self.library = library_of(folder)
        own = os.path.join(TOP, "bin", "evc-calls")
        program = os.environ.get("EVC_CALLS") or (own if os.path.exists(own) else None)
        # (the tests of rounds start it in a folder of their own)
        self.program = program and os.path.abspath(program)

    def says(self, path, is_right=True):
        if self.program is None:
            return
        said = subprocess.run(
            [self.program, "check", path], capture_output=True, text=True, check=False
        )
        need(
            said.returncode == (0 if is_right else 1),
            f"the judge ends with {said.returncode}: {said.stderr.strip()[:200]}",
        )


def library_of(folder):
    """Returns libevc.a, or None: the one in LIBEVC, or that of release/ if it is of these sources."""
    given = os.environ.get("LIBEVC")
    if given:
        return os.path.abspath(given)
    out = os.path.join(folder, "libevc.a")
    words = f'top="{TOP}"; . "$top/bin/common.sh"; is_release_of libevc && unpack_release libevc "{out}"'
    said = subprocess.run(["sh", "-c", words], capture_output=True, check=False)
    return out if said.returncode == 0 else None


def recovered(tools, folder, status=0):
    """Recovers x.record, and returns what it has. The notes have to name the pending calls."""
    said = ran([tools["recover"], "x.record", "r.calls"], folder)
    need(said.returncode == status, f"recovering ends with {said.returncode}: {said.stderr}")
    calls, pending = calls_of(os.path.join(folder, "r.calls"))
    noted = re.findall(r"line \d+: (\w+) calls (.*) has not returned\n", said.stderr)
    need(sorted(noted) == sorted(pending.items()), f"it notes {said.stderr}")
    return calls, pending


def built(words, folder):
    said = ran(words, folder)
    need(said.returncode == 0 and not said.stderr, f"{words}\n{said.stderr[:3000]}")


def is_built(count, what, words, folder):
    """Builds a program as a test, and returns whether that worked. If the compiler lacks a sanitizer, nothing is
    tested."""
    if "sanitizer" in what and ran(words, folder).returncode != 0:
        return False
    return count.tried(f"{what}, built", built, words, folder)


def sanitized(sanitizer):
    """Returns the options by which a compiler builds with a sanitizer that stops at what it finds."""
    return [f"-fsanitize={sanitizer}", "-fno-sanitize-recover=all", "-g", "-O0"]


def compilers():
    """Returns the compilers that are installed, each with its options and the language."""
    found = []
    for c, plus in (("gcc", "g++"), ("clang", "clang++")):
        for name, language, words in (
            (c, "C11", ["-std=c11"]),
            (plus, "C++17", ["-std=c++17", "-x", "c++"]),
        ):
            if shutil.which(name):
                found.append((name, language, words))
            else:
                print(f"{name} is left out, as it isn't on this machine")
    if not found and shutil.which("cc"):
        found.append(("cc", "C11", ["-std=c11"]))
    return found
