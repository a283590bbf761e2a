"""Workers on threads that contend often: their traces differ from run to run, but not what is found in them."""

ALL = b" ".join(b"w%d" % it for it in range(16))
FIRST, SECOND = (b" ".join(b"w%d" % it for it in range(low, low + 8)) for low in (0, 8))


def blocks(names, commands):
    return b"".join(b"worker %s\n%send\n" % (name, commands) for name in names.split())


# Sixteen workers that each advance 500 times, which is the limit, and read.
ADVANCES = b"evc-script 1\nlimit 500\nworkers %s\neventcount E signal %s observe %s\n%s" % (
    ALL,
    ALL,
    ALL,
    blocks(ALL, b"repeat 500\nadvance E\nend\nread E\n"),
)

# Eight producers and eight consumers of 100 items each.
ITEMS = b"evc-script 1\nlimit 1000\nworkers %s\nbuffer B 4 produce %s consume %s\n%s%s" % (
    ALL,
    FIRST,
    SECOND,
    blocks(FIRST, b"repeat 100\nproduce B 7\nend\n"),
    blocks(SECOND, b"repeat 100\nconsume B\nend\n"),
)


def finished(names):
    return b"".join(b"outcome %s finished\n" % name for name in names.split())


def trace_of(program, script):
    """Returns the trace of workers that all finish."""
    status, trace, notes = program.ends(["run"], script)
    if (status, notes) != (0, finished(ALL)):
        raise ValueError(f"run ended with status {status}: {notes[:200]}")
    return trace


def faults_of_advances(program):
    """Checks that the total is that of all advances, and that each read returns at least its worker's own."""
    lines = program.output(["check"], trace_of(program, ADVANCES)).split(b"\n")
    reads = [int(line.rpartition(b" ")[2]) for line in lines if b" read E = " in line]
    faults = []
    if lines[-4:] != [b"totals", b"eventcount E 8000", b"end", b""]:
        faults.append(f"the totals are {lines[-4:]}")
    if len(reads) != 16 or not all(500 <= it <= 8000 for it in reads):
        faults.append(f"the reads are {reads}")
    return faults


def faults_of_items(program):
    """Checks that each item is delivered once, and that each consumer gets a hundred of them."""
    lines = program.output(["audit"], trace_of(program, ITEMS)).split(b"\n")
    found = [line.split(b" ") for line in lines[1:-2]]
    faults = []
    if (lines[0], lines[-2:]) != (b"evc-audit 1", [b"end", b""]):
        faults.append("the audit has another frame")
    if not all(it[:2] == [b"delivery", b"B"] and len(it) == 6 and it[5] == b"7" for it in found):
        faults.append("a line is no delivery of a seven")
    elif [it[2] for it in found] != [b"%d" % it for it in range(800)]:
        faults.append(f"there are {len(found)} deliveries, or their numbers are others")
    elif sorted(it[3] for it in found) + sorted(it[4] for it in found) != [
        name for names in (FIRST, SECOND) for name in sorted(names.split() * 100)
    ]:
        faults.append("a worker has not a hundred items")
    return faults


def faults_of_turns(program):
    """Checks that one worker makes exactly as many steps as it has turns, and ends if these are enough."""
    faults = []
    head = b"evc-trace 1\nlimit 1000000\nworkers a\neventcount E signal a\nrun\n"
    script = b"evc-script 1\nlimit 1000000\nworkers a\neventcount E signal a\nworker a\n"
    script += b"repeat %d\nadvance E\nend\nend\n"
    for turns in (1, 2, 4095, 4096, 9999, 10000, 10001, 65536, 999_999, 1_000_000):
        right = head + b"a advance E = done\n" * turns + b"end\n"
        if program.ends(["run", "--turns", str(turns)], script % turns) != (0, right, b"outcome a finished\n"):
            faults.append(f"{turns} turns for as many steps")
        if turns < 1_000_000:
            ended = program.ends(["run", "--turns", str(turns)], script % (turns + 1))
            if ended != (5, right, b"outcome a out of turns\n"):
                faults.append(f"{turns} turns for one step more: status {ended[0]}, {ended[2]}")
    return faults


def faults_of_many_workers(program):
    """Checks that any number of workers is run on threads, and that all end: with empty programs, and with others."""
    faults = []
    for many in range(1, 17):
        names = b" ".join(b"w%d" % it for it in range(many))
        head = b"evc-script 1\nlimit 2\nworkers %s\neventcount E signal %s observe %s\n" % (names, names, names)
        for commands in (b"", b"advance E\nadvance E\nread E\n"):
            status, trace, notes = program.ends(["run"], head + blocks(names, commands))
            total = b"eventcount E %d\nend\n" % (2 * many if commands else 0)
            if (status, notes) != (0, finished(names)) or not program.output(["check"], trace).endswith(total):
                faults.append(f"{many} workers: status {status}, {notes[:200]}")
    return faults
