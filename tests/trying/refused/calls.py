"""Golden tests over calls of the libraries in which allocations and starts of threads fail."""

import os
from concurrent.futures import ThreadPoolExecutor

from trying.counting import Fault
from trying.files import example
from trying.refusing import NO_MEMORY, faults_of_imports
from trying.rows import read_rows

WITH_THREADS = "workers"

# The most bytes of a test's text that is run with failing allocations.
SHORT = 400_000

# The tests that say how many allocations one of their calls makes: the position of its answer, and that number.
REQUESTS = {
    "run_whose_second_segment_is_begun": (4096, 4),
    "board_whose_second_segment_is_begun": (4096, 4),
    "run_of_puts_whose_words_need_memory": (2064, 1),
    "run_of_gets_whose_words_need_memory": (2064, 1),
    "run_of_awaits_whose_words_need_memory": (2064, 1),
    "board_of_puts_whose_words_need_memory": (2064, 1),
    "list_that_is_widened": (1, 1),
}

# The tests that end with calls that don't allocate, each with the same test without these.
NO_MORE = {
    "heading_with_lines_of_sixteen_buffers_upgraded": "heading_with_lines_of_sixteen_buffers",
    "run_whose_second_segment_is_begun_and_who_signals_then": "run_whose_second_segment_is_begun",
    "eventcounts_that_are_fixed": "rights_of_two_workers",
    "list_with_room_that_is_used": "list_with_room",
    "wide_list_with_room_that_is_used": "wide_list_with_room",
}


def rows_over_calls():
    """Returns the golden tests over calls, except those of long texts and those of programs: what has been read of a
    program is kept by the caller itself."""
    rows = [row for row in read_rows()[0] if row.sort and len(row.input) <= SHORT]
    return [row for row in rows if b"\nprogram\n" not in row.input]


def place_of_refusal(output, right):
    """Returns before which line of the right text the caller says that it had no memory: None if it doesn't say so, and
    -1 if it writes another text."""
    if output == right:
        return None
    lines = output.splitlines(keepends=True)
    place = lines.index(NO_MEMORY) if NO_MEMORY in lines else -1
    return place if place >= 0 and b"".join(lines[:place] + lines[place + 1 :]) == right else -1


def fault_of_row(ran, right):
    """Returns what is wrong with a run of the caller. If it can't read its command line, it has to write nothing."""
    if ran.was_refused and (ran.status, ran.output, ran.notes) == (1, b"", b"Error: Kind(OutOfMemory)\n"):
        return None
    if ran.notes:
        return f"notes {ran.notes[:200]}"
    if ran.status == 4:
        return None if ran.was_refused and right.startswith(ran.output) else "another text before its end"
    if ran.status != 0 or place_of_refusal(ran.output, right) == -1:
        return f"status {ran.status}, {ran.output[-200:]}"
    if not ran.was_refused and ran.output != right:
        return "reports out of memory though no allocation failed"
    return None


def faults_of_row(refuser, caller, row):
    """Returns what is wrong with a test if each allocation fails in turn, and how many allocations it makes."""
    right = row.commands[0].output
    faults, places, number = [], [], 0
    for number, ran in refuser.refusals([caller, row.sort, "watched"], row.input):
        fault = fault_of_row(ran, right)
        if fault:
            faults.append(f"request {number}: {fault}")
        places.append(place_of_refusal(ran.output, right))
    place, expected = REQUESTS.get(row.title, (0, None))
    if expected is not None and places.count(place) != expected:
        faults.append(f"{places.count(place)} requests of one call were refused, and not {expected}")
    return faults, number - 1


def try_rows(refuser, caller, count):
    count.add(caller, faults_of_imports(caller))
    rows = [row for row in rows_over_calls() if row.sort != WITH_THREADS]
    count.add("the rows over calls", [] if rows else ["there are none"])
    requests = {}

    def tried(row):
        try:
            return faults_of_row(refuser, caller, row)
        except Fault as fault:
            return [str(fault)], 0

    with ThreadPoolExecutor(os.cpu_count()) as pool:
        for row, (faults, many) in zip(rows, pool.map(tried, rows)):
            count.add(row.name, faults)
            requests[row.name] = many
    for name, other in NO_MORE.items():
        count.add(f"{name} without its last calls", fault_of_more(requests, name, other))
    print(f"{sum(requests.values())} requests of {len(rows)} rows were refused")


def fault_of_more(requests, name, other):
    """Returns what is wrong if a test doesn't make as many allocations as one without its calls that don't allocate."""
    if requests.get(name) == requests.get(other):
        return None
    return f"makes {requests.get(name)} requests, and {other} makes {requests.get(other)}"


def try_upgrade(refuser, texts, count):
    """Checks that upgrading a trace doesn't allocate."""
    requests = {}
    for word in ("read", "upgrade"):
        runs = [ran for _, ran in refuser.refusals([texts, word], example("two-producers.trace"))]
        requests[word] = len(runs)
        faults = [f"status {runs[-1].status}"] if runs[-1].status != 0 else []
        faults += [f"status {it.status}" for it in runs[:-1] if it.status not in (0, 1)]
        count.add(f"bench_texts {word}", faults)
    count.add("bench_texts upgrade", fault_of_more(requests, "upgrade", "read"))
