"""The texts that the C library is given: those of golden tests, and random changes of them."""

import random

from trying.files import TOP
from trying.library.driver import CALLS, COMMANDS
from trying.rows import read_rows, rows_in
from trying.running import run

RANDOM_TEXTS = 6000


def golden_calls():
    """Yields the golden tests of histories of calls."""
    for row in rows_in("tests/evc-calls.rows"):
        if [command.words for command in row.commands] == [[b"check"]]:
            yield row.name, CALLS, row.input


def golden(programs):
    """Yields each stage of a golden test that the library has a call for, with its input."""
    yield from golden_calls()
    found, faults = read_rows()
    for fault in faults:
        print(fault)
    for row in found:
        text = row.input
        for place, command in enumerate(row.commands):
            if len(command.words) == 1 and command.words[0] in COMMANDS:
                yield f"{row.name}, {command.words[0].decode()}", command.words[0], text
            if place + 1 < len(row.commands):
                text = run([programs.evc, *command.words], text, None, cwd=TOP)[1]


def changed(chance, text, others):
    """Returns a text with some of its bytes, words or lines changed."""
    lines = text.split(b"\n")
    for _ in range(chance.choice([0, 1, 1, 1, 2, 3])):
        at = chance.randrange(len(lines))
        kind = chance.randrange(7)
        if kind == 0:
            del lines[at]
        elif kind == 1:
            lines.insert(at, chance.choice(lines))
        elif kind == 2:
            lines.insert(at, chance.choice(chance.choice(others).split(b"\n")))
        elif kind == 3:
            other = chance.randrange(len(lines))
            lines[at], lines[other] = lines[other], lines[at]
        elif kind == 4:
            words = lines[at].split(b" ")
            words[chance.randrange(len(words))] = chance.choice(b"0 1 2 a E done pending 99".split())
            lines[at] = b" ".join(words)
        elif kind == 5:
            line = bytearray(lines[at] or b"x")
            line[chance.randrange(len(line))] = chance.randrange(256)
            lines[at] = bytes(line)
        else:
            lines = lines[:at] + [lines[at][: chance.randrange(len(lines[at]) + 1)]]
        lines = lines or [b""]
    return b"\n".join(lines)


def random_texts(found):
    """Yields texts made of those of golden tests, each with a command."""
    chance = random.Random(20)
    kinds = {b"sim": [], CALLS: [], b"check": []}
    for _, command, text in found:
        if len(text) < 4000:
            kinds[command if command in kinds else b"check"].append(text)
    for number in range(RANDOM_TEXTS):
        command = chance.choice([b"check", b"check", b"audit", b"upgrade", b"sim", CALLS])
        of_its_own = kinds[command if command in kinds else b"check"]
        base = chance.choice(of_its_own if chance.random() < 0.95 else sum(kinds.values(), []))
        text = changed(chance, base, of_its_own)
        if command == CALLS and chance.random() < 0.3:
            text = chance.choice(of_its_own) + text
        yield f"random text {number}, {command.decode()}", command, text
