"""Texts that are no histories of calls at all, and very large ones."""

import random

from trying.calls.format import MOST_BYTES

HEAD = b"evc-calls 1\nlimit 9\nworkers a\nsemaphore S 1 use a\nrun\n"
CALL = b"a calls v S\na returns done\n"
EMPTY = b"evc-calls 1\nlimit 9\nworkers a\nrun\nend\n"


def hostile_texts():
    """Yields texts, and the notes on them, or None if only the second reading says what is right."""
    good = HEAD + CALL + b"end\n"
    header = "line 1: 1 BadHeader: "
    yield b"", "line 1: 12 Unfinished: the text ends too early"
    yield b"\n", header + "an empty line"
    yield b"\0", header + "evc-calls 1 is expected"
    yield good.replace(b"\n", b"\r\n"), header + "a carriage return at the end"
    yield good.replace(b"\n", b"\r"), header + "a carriage return at the end"
    yield good.replace(b"\n", b"\r").rstrip(b"\r"), header + "evc-calls 1 is expected"
    yield b"\xef\xbb\xbf" + good, header + "a byte order mark"
    yield b"\xef\xbb\xbf" + good.replace(b"\n", b"\r\n"), header + "a byte order mark"
    yield b"\xff\xfe" + good.decode().encode("utf-16-le"), header + "evc-calls 1 is expected"
    yield good.replace(b" ", b"\t"), header + "a tab"
    yield good.replace(b" ", b"  "), header + "a space too many"
    yield good.replace(b"evc-calls", b"evc-trace"), header + "a trace, for evc check"
    yield good.replace(b"evc-calls", b"evc-script"), header + "a script, for evc sim"
    yield good + b"\n", "line 9: 1 BadHeader: an empty line"
    yield good + b"\x1a", "line 9: 1 BadHeader: evc-calls 1 is expected"
    yield good + good[:-1], "line 16: 12 Unfinished: the text ends too early"
    yield b"x" * 8192, header + "evc-calls 1 is expected"
    yield b"x" * 8193, header + "more than 8192 bytes"
    yield b"x" * 16000000, header + "more than 8192 bytes"
    yield b"evc-calls 1\n" + b" " * 16000000, "line 2: 2 BadLine: more than 8192 bytes"
    yield HEAD + b"a" * 16000000, "line 6: 2 BadLine: more than 8192 bytes"
    yield HEAD + b"\0" * 16000000 + b"\nend\n", "line 6: 2 BadLine: more than 8192 bytes"
    yield b"x" * MOST_BYTES, header + "more than 8192 bytes"
    yield b"x" * (MOST_BYTES + 1), "too large"
    yield b"\n" * (MOST_BYTES + 1), "too large"
    draw = random.Random(51)
    for _ in range(200):
        yield bytes(draw.randrange(256) for _ in range(draw.randrange(60))), None
        at, size = draw.randrange(len(good)), draw.randrange(4)
        yield good[:at] + bytes(draw.randrange(256) for _ in range(size)) + good[at + 1 :], None


def largest_texts():
    """Yields a text of the most bytes that are read: a history of many calls, each of which has only
    one possible point, and a history without calls."""
    order = b"evc-order 1\ntotals\nend\n"
    head = HEAD.replace(b"limit 9", b"limit 281474976710655")
    count = (MOST_BYTES - len(head) - len(b"end\n") - len(EMPTY)) // len(CALL)
    text = head + CALL * count + b"end\n"
    text += filler(MOST_BYTES - len(text))
    calls = b"".join(b"%d a v S = done\n" % (2 * it + 1) for it in range(count))
    totals = b"totals\neventcount S.v %d\nsequencer S.p 0\nend\n" % count
    yield "many calls", text, b"evc-order 1\n" + calls + totals + order


def filler(size):
    """Returns a history without calls of so many bytes, from 38 to 66."""
    more = size - len(EMPTY)
    name, limit = b"a" * (min(more, 15) + 1), b"9" * (max(more - 15, 0) + 1)
    return EMPTY.replace(b"s a", b"s " + name).replace(b"t 9", b"t " + limit)
