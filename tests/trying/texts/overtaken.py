"""A trace of 64 MiB, of reads and awaits that advances overtake, and the order of its calls by a second reading."""

import random

# The most bytes of a trace.
TRACE_MAX = 67108864

OVERTAKEN = b"evc-trace 1\nlimit 4294967295\nworkers a b c d e\neventcount E signal a b observe c d e\nrun\n"


def overtaken_steps():
    """Yields steps of a and b, which advance, and of c and d, which read and await, in a random order without end. A
    threshold is at most three above the total, so the sums of some awaits are below it."""
    bits = random.Random(1979).getrandbits
    counts, pending = [0, 0], {}
    while True:
        who = bits(2)
        if who < 2:
            counts[who] += 1
            yield (b"a advance E = done\n", b"b advance E = done\n")[who]
            continue
        name = b"abcd"[who : who + 1]
        if who not in pending:
            threshold = bits(3)
            op = b"await E %d" % (counts[0] + counts[1] + threshold) if threshold < 4 else b"read E"
            pending[who] = counts[0] + counts[1] + threshold if threshold < 4 else 0, counts[0]
            yield b"%b %b = pending\n" % (name, op)
            continue
        threshold, first = pending[who]
        if first is None:
            pending[who] = threshold, counts[0]
        elif first + counts[1] < threshold:
            pending[who] = threshold, None
        else:
            del pending[who]
            yield b"%b go = %d\n" % (name, first + counts[1])
            continue
        yield b"%b go = pending\n" % name


def overtaken_trace():
    """Returns a trace of as many of these steps as it has room for, between the two steps of a read by e."""
    text = bytearray(OVERTAKEN + b"e read E = pending\n")
    for step in overtaken_steps():
        if len(text) + len(step) + len(b"e go = 1000000\nend\n") > TRACE_MAX:
            return bytes(text + b"e go = %d\nend\n" % text.count(b"b advance"))
        text += step


def timed_calls(lines):
    """Returns the reads and awaits of these entries on E, which has two components, as lines of an order, by their
    points; and the total. It follows the definitions: a point is the least moment of the last round at which the total
    was the reply, and calls with one point are in the order of their last entries."""
    reached, pending, timed = [0], {}, {}
    for at, line in enumerate(lines):
        worker, word, *rest = line.split()
        if word == b"advance":
            reached.append(at + 1)
            continue
        if word != b"go":
            call = pending[worker] = [b" ".join([worker, word, *rest[:-2]]), at, 1]
        else:
            call = pending[worker]
            call[2] += 1
            if call[2] % 2 == 1:
                call[1] = at
        if rest[-1] != b"pending":
            point = max(call[1], reached[int(rest[-1])])
            timed[point] = timed.get(point, b"") + b"%d %b = %b\n" % (point, call[0], rest[-1])
    return timed, len(reached) - 1


def order_of(text):
    """Returns what `check` has to write of such a trace."""
    lines = text[len(OVERTAKEN) : -len(b"\nend\n")].split(b"\n")
    timed, total = timed_calls(lines)
    order = bytearray(b"evc-order 1\n")
    for at, line in enumerate(lines):
        order += timed.get(at, b"")
        if b" advance " in line:
            order += b"%d %b\n" % (at, line)
    return order + b"totals\neventcount E %d\nend\n" % total


def faults_of_overtaken_calls(program):
    """Returns what is wrong with the order of 64 MiB of reads and awaits, hundreds of thousands of each, and of
    millions of advances."""
    text = overtaken_trace()
    right = order_of(text)
    few = [it for it in (b" read E = ", b" await E ") if right.count(it) < 300_000]
    faults = [f"there are few calls `{it.decode()}`" for it in few]
    if text.count(b"\n") < 3_500_000:
        faults.append("there are few entries")
    if program.output(["check"], text) != right:
        faults.append("check writes another order")
    return faults
