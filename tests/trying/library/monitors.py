"""Monitors of the C library, which are given histories of calls line by line, compared with `evc-calls watch`."""

import struct

from trying.counting import Fault
from trying.library.driver import CALLS, WATCH, Answer, by_program, request, short
from trying.library.refusals import NOTHING_REFUSED, fault_of_refusals
from trying.refusing import NO_MEMORY


def watched(given):
    """Returns the answer of `evc-calls watch` that corresponds to a monitor's, and the line of its first status."""
    histories, calls, others, line = struct.unpack("<4Q", given.text)
    overlap = f"{others // calls}.{others * 100 // calls % 100:02}" if calls else "0.00"
    text = f"{histories} histories, {calls} calls, overlap {overlap}\n".encode() if given.status == 0 else b""
    return Answer(given.status, text, given.notes), line


def line_named(note):
    """Returns the line that a note begins with, or 0."""
    words = note.split(b":")[0].split(b" ")
    return int(words[1]) if words[0] == b"line" and len(words) == 2 else 0


def lines_in(text):
    return text if text.endswith(b"\n") or not text else text + b"\n"


def fault_of_monitor(driver, programs, text):
    """Returns what is wrong with a monitor of these lines."""
    right = by_program(programs, WATCH, text)
    try:
        given, line = watched(driver.ask(request(WATCH, text, 32)))
    except Fault as fault:
        return str(fault)
    if given != right:
        return f"the monitor answers {short(given)}, and the program {short(right)}"
    # (of a text that ends too early no line is at fault)
    named = line_named(right.notes)
    at_the_end = 0 if named == text.count(b"\n") + 1 else named
    if line in (named, at_the_end) or is_decided_at(line, named, text):
        return None
    return f"it stopped at line {line}: {right.notes!r}"


def is_decided_at(line, named, text):
    """Returns whether this line ends the history with the line that a note names. One that calls cells, databases or
    buffers is decided there; a note that says why it is not names no line."""
    lines = text.split(b"\n")[: max(line, 0)]
    ends = [at for at, it in enumerate(lines, 1) if it == b"end"]
    cells = (b" calls put ", b" calls get ", b" calls write ", b" calls snapshot ", b" calls produce ", b" calls consume ")
    begun = ([0] + ends)[-2] if ends else 0
    calls = any(word in it for it in lines[begun:] for word in cells)
    return ends[-1:] == [line] and calls and (named == 0 or begun < named)


def fault_of_refused_monitor(refuser, path, programs, text):
    """Returns what is wrong with a monitor of these lines if each allocation fails in turn."""
    right = by_program(programs, WATCH, text)
    no_memory = Answer(4, b"", NO_MEMORY)

    def is_right(given, was_refused):
        answer = watched(given)[0]
        return answer == right or was_refused and answer == no_memory

    return fault_of_refusals(refuser, path, request(WATCH, text, 32), is_right)


def try_monitors(driver, path, programs, cases, refuser, count):
    """Gives histories of calls to monitors."""
    texts = [(name, lines_in(text)) for name, command, text in cases if command == CALLS]
    for name, text in texts:
        count.add(f"{name}, monitored", fault_of_monitor(driver, programs, text))
    tried = 0
    for name, text in sorted(texts, key=lambda it: len(it[1]), reverse=True):
        fault = fault_of_refused_monitor(refuser, path, programs, text)
        if fault != NOTHING_REFUSED:
            count.add(f"{name}, monitored with memory refused", fault)
            tried += 1
        if tried == 12:
            return
    count.add("monitors with memory refused", f"only {tried} were tried")
