"""Scripts for the bench, and the trace of each."""

import random

# The most commands that a worker may have, and the most names that a schedule may have.
COMMANDS = 4096
NAMES = 65536

# The names on a line of a schedule.
ON_A_LINE = 4000


def schedule_lines(names):
    return [f"schedule {' '.join(names[at : at + ON_A_LINE])}" for at in range(0, len(names), ON_A_LINE)]


def block(worker, commands):
    return [f"worker {worker}", *commands, "end"]


def many_names():
    """Returns the script and the trace of 16 workers, each with as many commands as it may have, of one step each, in a
    random order of turns. (`p` is a word of scripts, and no name.)"""
    workers = list("abcdefghijklmnoq")
    draw = random.Random(1)
    all_of_them = " ".join(workers)
    declared = [
        "limit 4294967295",
        f"workers {all_of_them}",
        f"eventcount Events signal {all_of_them}",
        f"sequencer Turns take {all_of_them}",
        f"cells Slot 8 write {all_of_them} read {all_of_them}",
    ]
    kinds = ["advance Events", "ticket Turns", "put Slot[3] 7", "get Slot[3]"]
    commands = {it: [draw.choice(kinds) for _ in range(COMMANDS)] for it in workers}
    turns = [it for it in workers for _ in range(COMMANDS)]
    draw.shuffle(turns)
    script = ["evc-script 1", *declared]
    for it in workers:
        script += block(it, commands[it])
    script += schedule_lines(turns)
    entries, left, tickets, value = [], {it: iter(commands[it]) for it in workers}, 0, 0
    for it in turns:
        command = next(left[it])
        reply = "done"
        if command.startswith("ticket"):
            reply, tickets = tickets, tickets + 1
        elif command.startswith("put"):
            value = 7
        elif command.startswith("get"):
            reply = value
        entries.append(f"{it} {command} = {reply}")
    return script, ["evc-trace 1", *declared, "run", *entries, "end"]


def nested_repeats():
    """Returns the script and the trace of one worker with four nested repeats of one command, and a turn for each."""
    declared = ["limit 4294967295", "workers a", "eventcount Events signal a"]
    commands = ["repeat 16"] * 4 + ["advance Events"] + ["end"] * 4
    script = ["evc-script 1", *declared, *block("a", commands), *schedule_lines(["a"] * NAMES)]
    return script, ["evc-trace 1", *declared, "run", *["a advance Events = done"] * NAMES, "end"]


# The kinds of scripts.
KINDS = {"many names": many_names, "nested repeats": nested_repeats}


def text_of(lines):
    return "".join(line + "\n" for line in lines)


def write_script(path, kind):
    """Writes a script, and returns the text of its trace."""
    script, trace = KINDS[kind]()
    with open(path, "w", encoding="ascii", newline="\n") as file:
        file.write(text_of(script))
    return text_of(trace)


def advances(everybody):
    """Returns declarations and commands of workers that only advance one eventcount."""
    return [f"eventcount E signal {everybody}"], ["advance E"]


def queue(everybody):
    """Returns those of workers in a queue: each draws a ticket, awaits its turn, and advances."""
    declared = [f"eventcount E signal {everybody} observe {everybody}", f"sequencer T take {everybody}"]
    return declared, ["ticket T", "await E last", "advance E"]


def semaphore(everybody):
    """Returns those of workers of which one at a time is between its P and its V."""
    return [f"semaphore S 1 use {everybody}"], ["p S", "v S"]


# What workers on threads do: for each kind the declarations, and the commands that each worker repeats.
THREADED = {"advances": advances, "queue": queue, "semaphore": semaphore}


def write_threaded(path, kind, workers, times):
    """Writes a script whose workers only repeat the commands of their kind, `times` times. Returns the header of its traces,
    and the end of what `check` writes of them."""
    names = [f"w{it}" for it in range(workers)]
    everybody = " ".join(names)
    declared, commands = THREADED[kind](everybody)
    header = ["limit 4294967295", f"workers {everybody}", *declared]
    script = ["evc-script 1", *header]
    for name in names:
        script += block(name, [f"repeat {times}", *commands, "end"])
    with open(path, "w", encoding="ascii", newline="\n") as file:
        file.write(text_of(script))
    event, sequencer = ("S.v", "S.p") if kind == "semaphore" else ("E", "T")
    totals = ["totals", f"eventcount {event} {workers * times}"]
    if kind != "advances":
        totals.append(f"sequencer {sequencer} {workers * times}")
    return text_of(["evc-trace 1", *header, "run"]), text_of([*totals, "end"])
