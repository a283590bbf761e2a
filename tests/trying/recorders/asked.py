"""Tests of programs with a recorder of calls (tests/recorder.c, tests/recorder.rs)."""

import os
import re
import resource
import signal

from trying.counting import need
from trying.recorders.texts import CALLS, NAMES, ONLY_IN_C, WHOLE, WRONG
from trying.recorders.tools import HANGING, calls_of, lines_of, ran, recovered

CLOCKS = ["counter", "tsc", "monotonic"]
BARE = ["tsc_bare", "monotonic_bare"]


def try_all(program, folder, clock):
    said = ran([program, "all", clock, "x.calls"], folder)
    need(said.returncode == 0, said.stdout)
    found, right = lines_of(os.path.join(folder, "x.calls")), WHOLE.split("\n")
    if clock != "counter":
        # (an invocation is dated back: events of different workers may be in another order)
        found, right = ([*it[:13], *sorted_by_worker(it[13:-2]), *it[-2:]] for it in (found, right))
    need(found == right, f"it wrote {found}")


def sorted_by_worker(events):
    return sorted(events, key=lambda it: it.split(" ")[0])


def try_names(program, folder):
    said = ran([program, "names"], folder).stdout
    need(said == NAMES, f"it says\n{said}")


def try_wrong(program, folder, number):
    note, pending = WRONG[number]
    said = ran([program, "wrong", str(number), "x.calls"], folder).stdout
    need(said.strip() == ("|" + (f"misused: worker {note}" if note else "")), said)
    events = ["a calls advance E", "a returns done", *([pending] if pending else [])]
    if note is None:
        events += ["b calls read E", "b returns 1"]
    found = lines_of(os.path.join(folder, "x.calls"))
    need(found[found.index("run") + 1 : -2] == events, f"it wrote {found}")


def same(folder):
    names = [os.path.join(folder, it) for it in ("x.calls", "r.calls")]
    need(lines_of(names[0]) == lines_of(names[1]), "the recovered history is another")


def try_run(program, tools, folder, clock, judge):
    words = [program, "run", clock, "right", "x.calls"]
    for more in ([], ["x.record"]):
        said = ran(words + more, folder)
        need(said.returncode == 0 and said.stdout == "|\n", said.stdout + said.stderr)
        need(calls_of(os.path.join(folder, "x.calls")) == (CALLS, {}), "calls are missing")
        if clock not in BARE:
            judge.says(os.path.join(folder, "x.calls"))
    recovered(tools, folder)
    same(folder)


def try_lossy(program, folder, judge):
    said = ran([program, "run", "counter", "lossy", "x.calls"], folder)
    need(said.returncode == 0, said.stdout)
    judge.says(os.path.join(folder, "x.calls"), False)


def try_full(program, tools, folder, clock, judge):
    said = ran([program, "run", clock, "full", "x.calls", "x.record"], folder)
    note = "full: worker w1: no room for another call"
    need(said.stdout == f"|{note}\n", said.stdout)
    calls, _ = calls_of(os.path.join(folder, "x.calls"))
    need(1000 <= calls <= 1000 + 3 * 4000, f"{calls} calls")
    recovered(tools, folder, 1)
    same(folder)
    judge.says(os.path.join(folder, "x.calls"))


def try_killed(program, tools, folder, clock, kind, judge):
    said = ran([program, "run", clock, kind, "x.calls", "x.record"], folder)
    by = signal.SIGABRT if kind == "abort" else signal.SIGKILL
    need(said.returncode == -by, f"it ended with {said.returncode}: {said.stdout}")
    calls, pending = recovered(tools, folder)
    need(calls >= 2000, f"{calls} calls")
    if kind == "abort":
        need(pending.get("w2") == "advance E", f"pending are {pending}")
    judge.says(os.path.join(folder, "r.calls"))


def try_hang(program, tools, folder, clock, judge):
    said = ran([program, "run", clock, "hang", "x.calls", "x.record"], folder, **HANGING)
    waits = r"line \d+: w2 calls await E 1000000 has not returned"
    note = f"hung: no call began or returned for 0.5 s\n{waits}\nthe history is in x.calls\n"
    need(said.returncode == 5 and re.fullmatch(note, said.stderr), said.stdout + said.stderr)
    line = int(re.search(r"line (\d+)", said.stderr)[1])
    at = lines_of(os.path.join(folder, "x.calls"))[line - 1]
    need(at == "w2 calls await E 1000000", f"line {line} is {at}")
    right = (3 * 4000 + 2001, {"w2": "await E 1000000"})
    need(calls_of(os.path.join(folder, "x.calls")) == right, "calls are missing")
    recovered(tools, folder)
    same(folder)
    judge.says(os.path.join(folder, "x.calls"))


def try_hang_without_room(program, tools, folder, judge):
    """Checks a hang if the text can't be written: it says so, and the file of the record has all."""
    said = ran([program, "run", "counter", "hang", "/dev/full", "x.record"], folder, **HANGING)
    note = "hung: no call began or returned for 0.5 s\nnot written: /dev/full\n"
    need((said.returncode, said.stderr) == (5, note), said.stdout + said.stderr)
    right = (3 * 4000 + 2001, {"w2": "await E 1000000"})
    need(recovered(tools, folder) == right, "calls are missing")
    judge.says(os.path.join(folder, "r.calls"))


def try_large(program, folder):
    said = ran([program, "large", "x.calls"], folder)
    need(said.stdout.startswith("|too large"), said.stdout)
    path = os.path.join(folder, "x.calls")
    size = os.path.getsize(path)
    need(67108864 - 8192 < size <= 67108864, f"{size} bytes")
    need(calls_of(path)[0] > 13000, "calls are missing")
    os.remove(path)


def try_unwritten(program, folder):
    said = ran([program, "unwritten", "x.calls"], folder)
    notes = "|not written: /dev/full\n|not written: /nowhere/x.calls\n|\n"
    need(said.returncode == 0 and said.stdout == notes, said.stdout)
    need(calls_of(os.path.join(folder, "x.calls")) == (CALLS, {}), "calls are missing")


def little_room():
    """Lets files grow to only 200000 bytes, as on a full disk."""
    signal.signal(signal.SIGXFSZ, signal.SIG_IGN)
    resource.setrlimit(resource.RLIMIT_FSIZE, (200000, 200000))


def try_no_room(program, folder):
    words = [program, "run", "counter", "right", "x.calls", "x.record"]
    said = ran(words, folder, preexec_fn=little_room, restore_signals=False)
    note = "|not written: no room in the file of the record\n"
    need(said.returncode == 1 and said.stdout == note, said.stdout + said.stderr)


def try_program(name, program, tools, folder, count, judge):
    """Runs all tests of a program except those that need a clock that is wrong."""
    for clock in tools["clocks"]:
        count.tried(f"{name}, each call, {clock}", try_all, program, folder, clock)
        for kind, test in (("full", try_full), ("hung", try_hang)):
            what = f"{name}, {kind}, {clock}"
            count.tried(what, test, program, tools, folder, clock, judge)
        for kind in ("abort", "kill"):
            what = f"{name}, {kind}, {clock}"
            count.tried(what, try_killed, program, tools, folder, clock, kind, judge)
    for clock in tools["clocks"] + tools["bare"]:
        what = f"{name}, four threads, {clock}"
        count.tried(what, try_run, program, tools, folder, clock, judge)
    count.tried(f"{name}, hung, full device", try_hang_without_room, program, tools, folder, judge)
    count.tried(f"{name}, names", try_names, program, folder)
    for number in range(len(WRONG)):
        if not (name.startswith("Rust") and number in ONLY_IN_C):
            count.tried(f"{name}, wrong use {number}", try_wrong, program, folder, number)
    count.tried(f"{name}, lost advances", try_lossy, program, folder, judge)
    count.tried(f"{name}, a text that is too large", try_large, program, folder)
    count.tried(f"{name}, a full device", try_unwritten, program, folder)
    count.tried(f"{name}, a file that may not grow", try_no_room, program, folder)


def try_skew(program, folder, clock, judge):
    # (each of 4000 calls waits as long as the bound on the skew)
    said = ran([program, "skew", clock, "100000", "x.calls"], folder)
    need(said.stdout == "1 |\n", f"a bound too small, or a fault: {said.stdout}")
    judge.says(os.path.join(folder, "x.calls"))


def try_apart(program, folder, clock):
    said = ran([program, "apart", clock, "3000000", "y.calls"], folder)
    need(said.stdout.endswith("|clock skewed: measured again at the end\n"), said.stdout)
    need(not os.path.exists(os.path.join(folder, "y.calls")), "a history was written")


def try_recover(tools, folder):
    """Gives recover files that are no records: it has to say so, and not to crash."""
    ran([tools["program"], "run", "counter", "right", "x.calls", "x.record"], folder)
    with open(os.path.join(folder, "x.record"), "rb") as file:
        record = file.read()
    wrong = [b"", b"x" * 100, b"\0" * 65536, record[:65536], record[: len(record) // 2]]
    for at in (0, 8, 24, 32, 512, 536, 544, 1536, 1560, 65536, 65537, 65539, 65541):
        wrong.append(record[:at] + b"\xff" * 3 + record[at + 3 :])
    for number, data in enumerate(wrong):
        with open(os.path.join(folder, "wrong.record"), "wb") as file:
            file.write(data)
        said = ran([tools["recover"], "wrong.record", "wrong.calls"], folder)
        need(said.returncode in (0, 2), f"text {number}: {said.returncode} {said.stderr}")
        need(said.returncode == 0 or said.stderr.strip(), f"text {number}: nothing is said")
        need(number > 4 or said.returncode == 2, f"text {number} was taken")
    need(ran([tools["recover"]], folder).returncode == 2, "usage")
