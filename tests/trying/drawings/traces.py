"""Traces that are drawn: random ones, of groups, of as many objects as there can be, and some that are rejected."""

import re


def random_trace(dice, workers=None, components=3, entries=None):
    """Returns a trace of an accepted history, made by a simulator of its own."""
    workers = [f"w{i}" for i in range(workers or dice.randint(1, 6))]
    most = min(components, len(workers))
    events = {f"E{i}": dice.sample(workers, dice.randint(1, most)) for i in range(dice.randint(1, 3))}
    lines = ["evc-trace 1", "limit 1000", "workers " + " ".join(workers)]
    lines += [f"eventcount {e} signal {' '.join(s)} observe {' '.join(workers)}" for e, s in events.items()]
    names = " ".join(workers)
    lines += [f"sequencer T take {names}", f"cells C 2 write {names} read {names}", "run"]
    counts = {e: [0] * len(s) for e, s in events.items()}
    pending, tickets, cells = {}, 0, [0, 0]
    for _ in range(entries if entries is not None else dice.randint(0, 60)):
        w = dice.choice(workers)
        if w in pending:
            act = "go"
        else:
            e = dice.choice(list(events))
            acts = [f"read {e}", f"await {e} {dice.randint(0, 4)}", "ticket T"]
            acts += [f"put C[{dice.randint(0, 1)}] {dice.randint(0, 9)}", f"get C[{dice.randint(0, 1)}]"]
            act = dice.choice(acts + [f"advance {e}"] * (3 * (w in events[e])))
        word = act.split()
        if word[0] == "advance":
            counts[word[1]][events[word[1]].index(w)] += 1
            reply = "done"
        elif word[0] == "ticket":
            reply, tickets = str(tickets), tickets + 1
        elif word[0] in ("put", "get"):
            at = int(word[1][2])
            if word[0] == "put":
                cells[at] = int(word[2])
            reply = "done" if word[0] == "put" else str(cells[at])
        else:
            if word[0] != "go":
                pending[w] = [word[1], int(word[2]) if word[0] == "await" else 0, 0, 0]
            call = pending[w]
            call[3] += counts[call[0]][call[2]]
            call[2] += 1
            reply = "pending"
            if call[2] == len(events[call[0]]):
                if call[3] >= call[1]:
                    reply = str(call[3])
                    del pending[w]
                else:
                    call[2] = call[3] = 0
        lines.append(f"{w} {act} = {reply}")
    return ("\n".join(lines) + "\nend\n").encode()


def random_groups(dice, check):
    """Returns a trace of groups, made by `sim` from a random script with a random schedule."""
    workers = [f"w{i}" for i in range(dice.randint(3, 6))]
    half = dice.randint(1, len(workers) - 1)
    write, read = workers[:half], workers[half:]
    lines = ["evc-script 1", "limit 1000", "workers " + " ".join(workers)]
    cells = dice.randint(1, 3)
    lines += [f"buffer B {dice.randint(1, 3)} produce {' '.join(write)} consume {' '.join(read)}"]
    lines += [f"database D {cells} write {' '.join(write)} read {' '.join(read)}"]
    lines += [f"semaphore {name} {dice.randint(0, 2)} use {' '.join(workers)}" for name in "RS"]
    lines.append(f"both use {' '.join(workers)}")
    for worker in workers:
        lines.append(f"worker {worker}")
        for _ in range(dice.randint(1, 4)):
            own = [f"produce B {dice.randint(0, 99)}"]
            own.append(f"write D {' '.join(str(dice.randint(0, 99)) for _ in range(cells))}")
            other = ["consume B", f"snapshot D {dice.randint(1, 3)}"]
            acts = 2 * (own if worker in write else other)
            lines.append(dice.choice(acts + ["p R", "v R", "v S", "pboth R S", "v R"]))
        lines.append("end")
    schedule = [dice.choice(workers) for _ in range(dice.randint(40, 200))]
    while True:
        turns = ["schedule " + " ".join(schedule[at : at + 20]) for at in range(0, len(schedule), 20)]
        script = "\n".join([*lines, *turns, ""])
        status, answer, notes = check.says("sim", text=script.encode())
        if status == 0:
            return answer.encode()
        place = re.search(r"\d+", notes)
        schedule = schedule[: min(int(place[0]) if place else 0, len(schedule) - 1)]


def trace_of_objects(many):
    """Returns a trace with so many eventcounts, sequencers and cells, in blocks of four at most, and calls on each."""
    lines = ["evc-trace 1", "limit 1", "workers a b"]
    lines += [f"eventcount E{i} signal a observe b" for i in range(many)]
    lines += [f"sequencer T{i} take a" for i in range(many)]
    lines += [f"cells X{i} {min(4, many - i)} write a read b" for i in range(0, many, 4)] + ["run"]
    for i in range(many):
        cell = f"X{i - i % 4}[{i % 4}]"
        lines += [f"a advance E{i} = done", f"b read E{i} = 1", f"a ticket T{i} = 0"]
        lines += [f"a put {cell} {i} = done", f"b get {cell} = {i}"]
    return "\n".join([*lines, "end", ""]).encode()


def long_groups(dice, check, entries):
    """Returns a trace of groups with so many entries, made by `sim`: two workers that produce and consume, write and
    read eight cells and take from a semaphore again and again. Each takes some steps at a time, so that some tries are
    accepted."""
    first, second = (" ".join(str(10 * it + n) for n in range(8)) for it in (1, 2))
    lines = ["evc-script 1", "limit 100000", "workers a b", "buffer B 2 produce a consume b"]
    lines += ["database D 8 write a read b", "semaphore S 1 use a b"]
    lines += ["worker a", "repeat 100000", f"write D {first}", "produce B 7", "p S", "v S", f"write D {second}"]
    lines += ["end", "end"]
    lines += ["worker b", "repeat 100000", "snapshot D 2", "consume B", "p S", "v S", "end", "end"]
    schedule = []
    while len(schedule) < entries:
        schedule += dice.choice("ab") * dice.randint(1, 40)
    lines += ["schedule " + " ".join(schedule[at : min(at + 20, entries)]) for at in range(0, entries, 20)]
    return check.says("sim", text="\n".join([*lines, ""]).encode())[1].encode()


def changed(text, dice):
    """Returns a trace in which some reply is changed."""
    lines = text.split(b"\n")
    at = dice.randrange(lines.index(b"run") + 1, len(lines) - 1)
    if b" = " in lines[at]:
        lines[at] = lines[at].split(b" = ")[0] + b" = " + dice.choice([b"done", b"pending", b"0", b"7"])
    return b"\n".join(lines)


def twice(text):
    """Returns a trace with its last entry twice, which usually is rejected."""
    lines = text.split(b"\n")
    return b"\n".join(lines[:-2] + lines[-3:])


def one_more(text):
    """Returns a trace of groups in which producers without a pending call draw one more ticket each, which may break
    their lists."""
    lines = text.decode().split("\n")
    at = lines.index("run") + 1
    last = {line.split()[0]: line for line in lines[at:-2]}
    idle = [it for it in lines[2].split()[1:] if not last.get(it, "").endswith("= pending")]
    own = [it for it in idle if it in lines[3].split(" produce ")[1].split(" consume ")[0].split()]
    number = sum(" ticket B.put = " in line for line in lines[at:])
    tickets = [f"{it} ticket B.put = {number + i}" for i, it in enumerate(own)]
    return "\n".join([*lines[:-2], *tickets, *lines[-2:]]).encode()


def hostile(text):
    """Returns texts that are no traces, by their names."""
    header, body = text.split(b"\nrun\n")
    lines = body.split(b"\n")
    return {
        "nothing": b"",
        "only zeros": b"\0" * 9000,
        "a picture": b"<svg xmlns='http://www.w3.org/2000/svg'><script>alert(1)</script></svg>\n",
        "only a header": header + b"\n",
        "a run that never ends": header + b"\nrun\n" + b"\n".join(lines[:1]) + b"\n",
        "an entry with an element": header + b"\nrun\n<b>&amp;</b> read E = 1\nend\n",
        "an entry that ends a section": header + b"\nrun\na ]]> E = 1\nend\n",
        "an entry with bytes of all sorts": header + b"\nrun\n" + bytes({*range(256)} - {10}) + b"\nend\n",
        "an entry that is too long": header + b"\nrun\n" + b"x" * 9000 + b"\nend\n",
        "an empty line": header + b"\nrun\n\nend\n",
        "lines after the end": text + b"a read E = 1\n",
    }
