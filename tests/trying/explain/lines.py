"""What is wrong with what evc-explain shows of a line that is rejected, and with its reasons."""

import re


def plain(line):
    return bytes(byte if 32 <= byte < 127 else 63 for byte in line)


def faults_of_line(text, number, output):
    """Returns what is wrong with how a line is shown: the line as it is, and the mark within it."""
    lines = text.split(b"\n")
    line = plain(lines[number - 1]) if number <= len(lines) else b""
    shown = output.split(b"\n")
    if len(shown) < 6 or shown[-1] != b"":
        return [f"has another number of lines: {output}"]
    if shown[0] != b"line %d:" % number or not shown[1].startswith(b"    "):
        return [f"names another line than {number}: {output}"]
    if shown[1][4:] not in line or len(shown[1][4:]) < min(len(line), 40):
        return [f"shows another line: {shown[1]}"]
    mark = shown[2]
    if mark.strip() != b"^" or len(mark) - 1 > len(shown[1]):
        return [f"has its mark outside of the line: {mark}"]
    reasons = shown[4:-2]
    return faults_of_round(lines, number, reasons) + [
        fault for more in reasons for fault in faults_of_reason(lines, number, more)
    ]


REASONS = re.compile(
    rb"The right reply is (done|pending|\d+)\.|Who may (signal|observe|take from|write|read) \S+ at this line:( \w+)+\."
    rb"|The reply is pending until all \d+ components are read\.|The sum is below the threshold of the await\."
)
COMPONENT = re.compile(rb"Component (\d+) of (\S+), which (\w+) signalled, was (\d+) on line (\d+)\.")
COUNT = re.compile(rb"The count of (\S+) was (\d+) when the round began, on line (\d+), and is (\d+) now\.")


def faults_of_reason(lines, number, more):
    """Returns what is wrong with a line that is said to show why, or with what is said of the history before."""
    seen = re.fullmatch(rb"See line (\d+): (.*)", more)
    if not seen:
        known = any(it.fullmatch(more) for it in (REASONS, COMPONENT, COUNT))
        return [] if known else [f"says {more}"]
    at = int(seen[1])
    return [] if at < number and seen[2] == plain(lines[at - 1])[:100] else [f"sees {more}"]


def total(lines, event, before):
    """Returns how often an eventcount was advanced before a line."""
    return sum(it.split(b" ")[1:3] == [b"advance", event] for it in lines[lines.index(b"run") + 1 : before - 1])


def faults_of_round(lines, number, reasons):
    """Returns what is wrong with the components of a round: each is read by an entry of the worker, in order, up to the
    faulty line, and is the number of its signaller's advances; and the counts are those at these lines."""
    found = [it for it in map(COMPONENT.fullmatch, reasons) if it]
    if not found:
        return []
    worker, faults = lines[number - 1].split(b" ")[0], []
    read = [int(it[5]) for it in found]
    if [int(it[1]) for it in found] != list(range(len(found))) or read != sorted(set(read)) or read[-1] != number:
        faults.append(f"reads components in another order: {reasons}")
    for it in found:
        at = int(it[5])
        declared = next((line for line in lines if line.startswith(b"eventcount " + it[2] + b" ")), None)
        if lines[at - 1].split(b" ")[0] != worker:
            faults.append(f"reads by a line of another worker: {it[0]}")
        handed = any(line.split(b" ")[1:3] == [b"hand", it[2]] for line in lines[:number])
        own = sum(line.split(b" ")[:3] == [it[3], b"advance", it[2]] for line in lines[: at - 1])
        if declared and not handed and (own != int(it[4]) or declared.split(b" ")[3 + int(it[1])] != it[3]):
            faults.append(f"reads another number: {it[0]}")
    right = next((it[1] for it in map(re.compile(rb"The right reply is (\d+)\.").fullmatch, reasons) if it), None)
    if right is not None and int(right) != sum(int(it[4]) for it in found):
        faults.append(f"adds up to another reply: {reasons}")
    for it in filter(None, map(COUNT.fullmatch, reasons)):
        ends = int(it[2]), int(it[3]), int(it[4])
        if ends != (total(lines, it[1], read[0]), read[0], total(lines, it[1], number)):
            faults.append(f"counts otherwise: {it[0]}")
    return faults


def faults_of_certificate(lines, shown, note):
    """Returns what is wrong with what is shown of a certificate: the note of evc-calls check, and each line that it
    names."""
    at, said = re.fullmatch(rb"line (\d+): (.*)", note).groups()
    seen = {int(it[1]): it[2] for it in (re.fullmatch(rb"See line (\d+): (.*)", it) for it in shown) if it}
    named = [int(it) for found in re.findall(rb"lines? (\d+(?: \d+)*)", said) for it in found.split(b" ")]
    faults = [] if note in shown and shown[0] == b"line %s:" % at else [f"notes another certificate than {note}"]
    if shown[1] != b"    " + plain(lines[int(at) - 1])[:100]:
        faults.append(f"shows another line: {shown[1]}")
    if len(seen) < 18 and not {it for it in named if it < int(at)} <= {*seen}:
        faults.append(f"shows not all lines that are named: {note}")
    return faults + [f"sees {it}" for it in seen if seen[it] != plain(lines[it - 1])[:100]]
