"""The texts of examples/, and the same with bytes, words, letters and lines changed at random."""

import os
import re

from trying.files import examples

ODD = [b"\t", b"\r", b" ", b"\n", *b"# = 0 9 a _".split(), b"\xef\xbb\xbf", b"\xc3\xb6", b"\x00", b"[", b"]", b"-"]
WORDS = """advance await both buffer cells consume database done end eventcount get go hand last limit observe p pboth
    pending produce put read repeat run schedule semaphore sequencer signal snapshot take ticket use v worker workers
    write = 0 1 2 7 100 a b c d E T X X[0] X[9] B B.in evc-trace evc-script abcdefghijklmnopq 999999999999999999
    1000000000000000000 calls returns timeout from 4294967296 01 -1 +1 xyz""".split()


def good_texts():
    """Returns the texts that are not long, folder by folder."""
    found = [it for kind in ("trace", "script", "calls") for it in examples(f"**/*.{kind}")]
    return [text for _, text in sorted(found, key=lambda it: os.path.split(it[0])) if len(text) < 5000]


def changed_bytes(draw, text):
    at = draw.randrange(len(text) + 1)
    return text[:at] + draw.choice([b"", draw.choice(ODD)]) + text[at + draw.choice([0, 1]) :]


def changed_word(draw, text):
    lines = text.split(b"\n")
    at = draw.randrange(len(lines))
    words = lines[at].split(b" ")
    place = draw.randrange(len(words))
    others = [[], [draw.choice(WORDS).encode()], [draw.choice(WORDS).encode()]]
    words[place : place + draw.choice([0, 1, 1, 1])] = draw.choice(others)
    lines[at] = b" ".join(words)
    return b"\n".join(lines)


def changed_letter(draw, text):
    words = [it.start() for it in re.finditer(rb"[A-Za-z]", text)]
    at = draw.choice(words)
    return text[:at] + draw.choice([b"", b"x", text[at : at + 1].swapcase(), text[at : at + 1] * 2]) + text[at + 1 :]


def changed_line(draw, text):
    lines = text.split(b"\n")
    at, other = draw.randrange(len(lines)), draw.randrange(len(lines))
    known = [b"", b"run", b"end", b"evc-trace 2", b"workers a b", b"limit 0", b"x" * 8193, b"evc-calls 1"]
    line = draw.choice([lines[other], *known])
    lines[at : at + draw.choice([0, 1])] = draw.choice([[], [line]])
    return b"\n".join(lines)


def broken(draw, texts):
    text = draw.choice(texts)
    for _ in range(draw.choice([1, 1, 1, 2, 3])):
        text = draw.choice([changed_bytes, changed_word, changed_letter, changed_line])(draw, text or b"evc")
    return text
