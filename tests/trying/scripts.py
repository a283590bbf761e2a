"""Scripts that tests run: one of two workers, and random ones."""

# A worker that advances twice, and one that waits for one more than its ticket.
TICKET_AND_AWAIT = b"""evc-script 1
limit 10
workers a c
eventcount E signal a observe c
sequencer T take c
worker a
advance E
advance E
end
worker c
ticket T
await E last+1
read E
end
schedule c c a c a c
"""


def some(draw, names, least=1):
    return draw.sample(names, draw.randint(least, len(names)))


def commands_of(draw, worker, rights):
    """Returns random commands of a worker, who has these rights: (right, object, how many)."""
    commands, awaited = [], 0
    for _ in range(draw.randrange(8)):
        if not rights[worker]:
            break
        sort, name, size = draw.choice(rights[worker])
        if sort == "await":
            awaited = draw.randrange(4)
            commands.append(f"await {name} {awaited}")
        elif sort in ("put", "get"):
            value = f" {draw.choice([0, 1, 7, 999999999999999999])}" if sort == "put" else ""
            commands.append(f"{sort} {name}[{draw.randrange(size)}]{value}")
        elif sort == "hand":
            commands.append(f"hand {name} {draw.choice(size)}")
        elif sort == "produce":
            commands.append(f"produce {name} {draw.randrange(9)}")
        else:
            commands.append(f"{sort} {name}")
    return commands


def random_script(draw):
    """Returns a random script of eventcounts, sequencers and cells, and sometimes of groups and hands."""
    workers = ["a", "b", "c", "d"][: draw.randint(1, 4)]
    rights = {worker: [] for worker in workers}
    version = draw.choice([1, 2])
    lines = [f"evc-script {version}", f"limit {draw.choice([1, 3, 100])}"]
    lines.append("workers " + " ".join(workers))

    def may(names, sort, name, size=0):
        for worker in names:
            rights[worker].append((sort, name, size))

    for name in ["E", "F"][: draw.randint(0, 2)]:
        signal, observe = some(draw, workers), some(draw, workers)
        lines.append(f"eventcount {name} signal {' '.join(signal)} observe {' '.join(observe)}")
        may(signal, "advance", name)
        may(observe, "read", name)
        may(observe, "await", name)
        if version == 2 and draw.random() < 0.1:
            may(signal, "hand", name, workers)
    if draw.random() < 0.5:
        take = some(draw, workers)
        lines.append(f"sequencer T take {' '.join(take)}")
        may(take, "ticket", "T")
    if draw.random() < 0.2 and len(workers) > 1:
        lines.append(f"buffer B 2 produce {workers[0]} consume {workers[1]}")
        if draw.random() < 0.5:
            may(workers[:1], "produce", "B")
            may(workers[1:2], "consume", "B")
    if draw.random() < 0.2:
        lines.append(f"semaphore S 1 use {' '.join(workers)}")
        if draw.random() < 0.5:
            may(workers, "p", "S")
            may(workers, "v", "S")
    if draw.random() < 0.5:
        write, read = some(draw, workers), some(draw, workers)
        lines.append(f"cells X 2 write {' '.join(write)} read {' '.join(read)}")
        may(write, "put", "X", 2)
        may(read, "get", "X", 2)
    for worker in workers:
        lines += [f"worker {worker}", *commands_of(draw, worker, rights), "end"]
    for _ in range(draw.randrange(60)):
        lines.append(f"schedule {draw.choice(workers)}")
    return "".join(f"{line}\n" for line in lines).encode()


def trace_of_script(evc, text):
    """Returns the trace of a script, whose schedule is cut before the first turn of a worker that has ended."""
    while True:
        status, trace, notes = evc.ends(["sim"], text)
        if status == 0:
            return trace
        # (a worker that has ended has no turn: its last one is left out)
        lines = text.splitlines(keepends=True)
        if not lines[-1].startswith(b"schedule"):
            raise ValueError(f"{notes} of {text}")
        text = b"".join(lines[:-1])
