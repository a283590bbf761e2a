"""What is wrong with what evc-explain says of a text that is good, and of how far a script gets."""

import re


def count(text):
    """Returns how many entries, calls and workers a trace has."""
    lines = text.split(b"\n")
    at = lines.index(b"run")
    entries = lines[at + 1 : -2]
    calls = [it for it in entries if it.split(b" ")[1] != b"go"]
    return len(entries), len(calls), len(lines[2].split(b" ")) - 1


def good_history(text):
    lines = [it.split(b" ") for it in text.split(b"\n")]
    calls = sum(it[1:2] == [b"calls"] for it in lines[lines.index([b"run"]) :])
    return b"The calls are linearizable: %d calls, %d workers.\n" % (calls, len(lines[2]) - 1)


def good_histories(text, note):
    """Returns what is said of histories. `note` has the remarks of evc-calls check, each of which belongs after the history
    with its line."""
    said, last, remarks = [], 0, re.findall(rb"(?m)^(remark: line (\d+): .*\n)", note)
    for history in re.split(rb"(?m)^(?=evc-calls)", text)[1:]:
        first, last = last, last + history.count(b"\n")
        said += [good_history(history), *(remark for remark, line in remarks if first < int(line) <= last)]
    return b"".join(said)


def good_output(text, note=b""):
    if text.startswith(b"evc-calls"):
        return good_histories(text, note)
    lines = text.split(b"\n")
    workers = len(lines[2].split(b" ")) - 1
    if text.startswith(b"evc-script"):
        turns = sum(len(it.split(b" ")) - 1 for it in lines if it.startswith(b"schedule "))
        return b"The script is good: %d workers, %d turns in its schedule.\n" % (workers, turns)
    return b"The trace is good: %d entries, %d calls, %d workers.\n" % count(text)


LEFT = re.compile(
    rb"(\w+) (waits for \S+ to reach \d+; \S+ is \d+|has not read yet that \S+ has reached \d+"
    rb"|never moves: the schedule has no turn of it|has not ended: the schedule ends too early for it"
    rb"|has ended: its last act is refused by \w+|has ended: its next value is too large)\."
)

DEADLOCKED = b"No worker can go on: all that have not ended wait."
ALL_FINISH, GO_ON = b"If the workers go on in turn, all finish.", b"If the workers go on in turn:"
CAN_GO_ON = re.compile(rb"\w+ (has not read yet|never moves|has not ended)")


def faults_of_ends(text, output, note):
    """Returns what is wrong with what is said of a script that was run: a line for each worker that has not finished,
    by the notes of evc sim; and how it ends if its workers go on."""
    good = good_output(text)
    if not output.startswith(good):
        return [f"says {output}, and right is {good}"]
    said = output[len(good) :].split(b"\n")[:-1]
    at = next((at for at, it in enumerate(said) if it in (ALL_FINISH, GO_ON)), len(said))
    outcomes = dict(re.findall(rb"(?m)^outcome (\w+) (.*)$", note))
    faults = faults_of_left(said[:at], outcomes)
    if any(CAN_GO_ON.match(it) for it in said[:at]) != (at < len(said)):
        faults.append(f"says {said}")
    return faults + faults_of_going_on(said[at:], outcomes)


def faults_of_left(said, outcomes):
    """Returns what is wrong with what is said of the workers at the end of the schedule."""
    left = [LEFT.fullmatch(it) for it in said if it != DEADLOCKED]
    if None in left or [it[1] for it in left] != [w for w in outcomes if outcomes[w] != b"finished"]:
        return [f"says {said} of {outcomes}"]
    faults = []
    for it in left:
        running = not it[2].startswith(b"has ended")
        if running != (outcomes[it[1]] == b"running"):
            faults.append(f"says {it[0]} of {outcomes[it[1]]}")
    running = [it[2] for it in left if outcomes[it[1]] == b"running"]
    if (DEADLOCKED in said) != bool(running and all(it.startswith(b"waits") for it in running)):
        faults.append(f"says {said}")
    return faults + faults_of_waits(left)


def faults_of_waits(left):
    """Returns what is wrong with the counts that workers are said to wait for."""
    waits = [re.match(rb"waits for (\S+) to reach (\d+); \S+ is (\d+)", it[2]) for it in left]
    return [f"says {it[0]}" for it in waits if it and int(it[3]) >= int(it[2])]


def faults_of_going_on(said, outcomes):
    """Returns what is wrong with what is said of the end of a script if its workers go on: no worker that is named can
    go on then, and none of them had finished before."""
    if said[:1] != [GO_ON]:
        return [] if said in ([], [ALL_FINISH]) else [f"says {said}"]
    left = [LEFT.fullmatch(it) for it in said[1:] if it != DEADLOCKED]
    if not left or None in left or any(CAN_GO_ON.match(it[0]) for it in left):
        return [f"says {said}"]
    if any(outcomes[it[1]] == b"finished" for it in left):
        return [f"says {said} of {outcomes}"]
    waits = any(it[2].startswith(b"waits") for it in left)
    return faults_of_waits(left) + ([] if waits == (DEADLOCKED in said) else [f"says {said}"])
