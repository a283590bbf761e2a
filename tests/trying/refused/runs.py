"""Runs of workers on threads in which allocations and starts of threads fail."""

from trying.refusing import NO_MEMORY, faults_of_line, is_out_of_memory, plainly

# How many rounds are made at most of what needs threads, until each failure that has to be reported was.
ROUNDS = 20

# Four workers that advance thirty times and read.
FOUR_WORKERS = b"evc-script 1\nlimit 30\nworkers a b c d\neventcount E signal a b c d observe a b c d\n" + b"".join(
    b"worker %c\nrepeat 30\nadvance E\nend\nread E\nend\n" % name for name in b"abcd"
)

# One worker. Its allocations and those of the program come in one order.
ALONE = b"evc-script 1\nlimit 10\nworkers a\neventcount E signal a observe a\nworker a\nadvance E\nread E\nend\n"


def outcomes_of(notes):
    """Returns how each worker ended, or an empty list if the notes say anything else."""
    lines = [line.split(" ", 2) for line in notes.decode().splitlines()]
    if all(len(it) == 3 and it[0] == "outcome" for it in lines):
        return [it[2] for it in lines]
    return []


def fault_of_run(program, ran, ample):
    """Returns what is wrong with a run of workers on threads, whose traces differ from run to run."""
    if ran.status == 3:
        return None if (ran.notes, ran.output) == (b"no thread\n", b"") else "another note or text of a thread"
    checked = plainly([program, "check"], ran.output)
    if is_out_of_memory(ran):
        is_good = (checked.status, checked.notes) == (1, b"unfinished\n")
        return None if is_good else "what was written is no prefix of a trace"
    if checked.status != 0:
        return "its trace is not accepted"
    if (ran.status, ran.notes) == (0, ample.notes):
        return None
    found = outcomes_of(ran.notes)
    if len(found) != len(outcomes_of(ample.notes)) or not set(found) <= {"finished", "no memory", "stopped"}:
        return "other notes of outcomes"
    return None if ran.status == 4 and "no memory" in found else "another status of the outcomes"


def faults_of_workers(refuser, program, words, text, others):
    """Returns what is wrong with runs of workers if each allocation fails in turn, and the runs. It goes on in rounds
    until one worker was without memory and all others ended as `others` says."""
    faults, seen = [], []
    for _ in range(ROUNDS):
        more, ran = faults_of_line(refuser, program, words, text, fault_of_run)
        faults += more
        seen += ran
        if has_one_without_memory(seen, others):
            return faults, seen
    return [*faults, f"no run had one worker without memory and all others {others}"], seen


def fault_of_starts(refuser, program, text, workers):
    """Returns what is wrong with runs of so many workers if each start of a thread fails in turn."""
    seen = [ran for _, ran in refuser.refusals([program, "run"], text, "START")]
    for number, ran in enumerate(seen[:-1], start=1):
        if (ran.status, ran.output, ran.notes) != (3, b"", b"no thread\n"):
            return f"start {number}: status {ran.status}, {ran.notes[:200]}"
    if seen[-1].status != 0 or len(seen) != workers + 1:
        return f"{len(seen) - 1} starts were refused, and then came status {seen[-1].status}"
    return None


def fault_of_joins(refuser, program):
    """Returns what is wrong with runs of one worker if each allocation fails in turn. Those after the worker's own are
    made when its thread has ended. So their failures are reported as out of memory, and not as a thread that could not
    be started."""
    seen = [ran for _, ran in refuser.refusals([program, "run"], ALONE)][:-1]
    own = [at for at, ran in enumerate(seen) if ran.notes == b"outcome a no memory\n"]
    if not own or len(seen) <= own[-1] + 1:
        return "no request of the worker was refused, or none behind it"
    for number, ran in enumerate(seen[own[-1] + 1 :], start=own[-1] + 2):
        if (ran.status, ran.output, ran.notes) != (4, b"", NO_MEMORY):
            return f"request {number}: status {ran.status}, {ran.notes[:200]}"
    return None


def has_one_without_memory(seen, others):
    """Returns whether in some run one worker was without memory and all others ended as `others` says."""
    found = (outcomes_of(it.notes) for it in seen)
    return any(it.count("no memory") == 1 and {*it} == {"no memory", others} for it in found)


def fault_of_full(refuser, program):
    """Returns what is wrong with runs in which each allocation fails in turn and nothing can be written. A failed write
    is reported before a worker that is out of memory: the first has status 3 and the second 4."""
    with open("/dev/full", "wb") as full:
        for number, ran in refuser.refusals([program, "run"], FOUR_WORKERS, output=full):
            is_failed_write = (ran.status, ran.notes) == (3, b"write fault\n")
            is_unstarted = (ran.status, ran.notes) == (3, b"no thread\n")
            if not (is_failed_write or ran.was_refused and (is_unstarted or is_out_of_memory(ran))):
                return f"request {number}: status {ran.status}, {ran.notes[:200]}"
    return None
