"""The golden test of workers by a scheduling hook, in which allocations and starts of threads fail."""

from trying.counting import tried
from trying.refused.calls import rows_over_calls
from trying.refused.runs import ROUNDS

WORKERS = "a_worker_beside_two_that_wait"

# How many threads it starts.
STARTS = 8

# The result of a run: that all went well, or what failed.
SERVED = b"Finished\n" * 4
MEMORY = b"there was no memory\n"
THREAD = b"a thread could not be started\n"

# How the four end if one has no memory: the others finish, except those that the first would have released.
ONE_WORKER = [
    b"Memory\nStopped\nStopped\nFinished\n",
    b"Finished\nMemory\nFinished\nFinished\n",
    b"Finished\nFinished\nMemory\nFinished\n",
    b"Finished\nFinished\nFinished\nMemory\n",
]


def outcome_of(ran):
    """Returns the outcome of one of the two runs if the other went well, b"" if there was no memory before the first,
    and otherwise None."""
    if ran.was_refused and (ran.status, ran.output) in ((1, b""), (4, b"")):
        return b""
    if (ran.status, ran.notes) == (0, b""):
        for outcome in (SERVED, MEMORY, THREAD, *ONE_WORKER):
            if ran.output in (outcome + SERVED, SERVED + outcome):
                return outcome
    return None


def faults_of_refusals(refuser, command, row, refused, right):
    """Returns what is wrong with the test if its allocations or starts fail in turn, and the outcomes of its runs."""
    faults, seen = [], []
    for number, ran in refuser.refusals(command, row.input, refused):
        outcome = outcome_of(ran)
        if outcome not in (right if ran.was_refused else [SERVED]):
            faults.append(f"{refused.lower()} {number}: status {ran.status}, {ran.output[:200]}, {ran.notes[:200]}")
        seen.append(outcome)
    return faults, seen[:-1]


def faults_of_workers_row(refuser, caller, row):
    """Returns what is wrong with the golden test of workers."""
    command = [caller, row.sort]
    faults, seen = [], []
    for _ in range(ROUNDS):
        more, ended = faults_of_refusals(refuser, command, row, "REQUEST", [b"", SERVED, MEMORY, THREAD, *ONE_WORKER])
        faults += more
        seen += ended
        if MEMORY in seen and {*ONE_WORKER} & {*seen}:
            break
    else:
        faults.append("no run was without memory, or none had one worker without it")
    more, starts = faults_of_refusals(refuser, command, row, "START", [THREAD])
    faults += more
    if len(starts) != STARTS:
        faults.append(f"{len(starts)} starts were refused, and not {STARTS}")
    print(f"{len(seen)} requests of the row of workers were refused")
    return faults


def try_workers(refuser, caller, count):
    rows = [row for row in rows_over_calls() if row.name == WORKERS]
    test = lambda: [it for row in rows for it in faults_of_workers_row(refuser, caller, row)]
    count.add(WORKERS, tried(test) if rows else "there is no such row")
