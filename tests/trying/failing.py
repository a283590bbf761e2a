"""Programs in which one read or write fails (tests/fail.c), and what can't be read or written at all."""

import os
import tempfile
from concurrent.futures import ThreadPoolExecutor

from trying.counting import need
from trying.running import differing, preloaded, run

SECONDS = 20

# How many bytes a read gives and a write takes at most.
PIECES = (1, 2, 3, 5, 7, 8192)


class Failer:
    """Runs a program in which one read or write fails."""

    def __init__(self, folder, program):
        self.program = program
        self.library = preloaded(folder, "fail")

    def ends(self, words, text, **how):
        """Returns the status, the output and the notes of a command in which this fails."""
        env = {**os.environ, "LD_PRELOAD": self.library}
        env.update({f"FAILED_{name.upper()}": str(value) for name, value in how.items()})
        return run([self.program, *words], text, SECONDS, env=env)


def fault(found, right, how):
    return [f"{how}: {it}" for it in differing(found, right)]


def pieces_of(text, most):
    return -(-len(text) // most)


def tries_of_reads(words, text, ample, pieces=PIECES):
    """Yields each try of a read that fails. The last read finds the end of the text."""
    for most in pieces:
        for k in range(pieces_of(text, most) + 2):
            right = (3, b"", b"read fault\n") if k <= pieces_of(text, most) else ample
            yield words, text, {"piece": most, "read": k}, right


def tries_of_writes(words, text, ample, pieces=PIECES):
    """Yields each try of a write that fails or takes nothing."""
    whole = ample[1]
    for most in pieces:
        for k in range(pieces_of(whole, most) + 1):
            right = (3, whole[: k * most], b"write fault\n") if k * most < len(whole) else ample
            yield words, text, {"piece": most, "write": k}, right
            yield words, text, {"piece": most, "write": k, "takes": 0}, right


def faults_of(failer, pool, tries):
    """Returns what is wrong with these tries, and how many there are."""
    tries = list(tries)
    found = pool.map(lambda it: failer.ends(it[0], it[1], **it[2]), tries)
    faults = [it for (_, _, how, right), ends in zip(tries, found) for it in fault(ends, right, how)]
    return faults, len(tries)


def ample_of(failer, words, text):
    """Returns the result of a command in which nothing fails."""
    ample = failer.ends(words, text)
    need(ample[0] == 0 and ample[1], f"{words} ends with {ample} where nothing fails")
    return ample


def try_pieces(part, path, tries):
    """Has each read and each write of a program fail in turn, by few bytes at a time, with each of these words and
    texts."""
    with tempfile.TemporaryDirectory() as folder, ThreadPoolExecutor(os.cpu_count()) as pool:
        failer = Failer(folder, path)
        for words, text in tries:
            ample = ample_of(failer, words, text)
            for name, tries_of in (("reads", tries_of_reads), ("writes", tries_of_writes)):
                faults, _ = faults_of(failer, pool, tries_of(words, text, ample))
                part.add(f"{words[0]}, {name}", faults)


def faults_of_full_files(program, words, text):
    """Returns what is wrong if the output is a file that takes so many bytes, for each number of bytes."""
    faults = []
    _, whole, _ = program.ends(words, text)
    for most in range(len(whole)):
        ran = program.ends_into(words, text, most)
        if ran != (3, whole[:most], b"write fault\n"):
            faults.append(f"into a file of {most} bytes: {ran}")
    if program.ends_into(words, text, len(whole)) != program.ends(words, text):
        faults.append("into a file of just so many bytes")
    return faults


def faults_of_folder(program, words):
    return differing(program.ends_of_folder(words), (3, b"", b"read fault\n"))
