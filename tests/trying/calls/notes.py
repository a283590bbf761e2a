"""The forms of notes on histories that have no linearization."""

import re

from trying.calls.format import KINDS

NUMBER = "(?:0|[1-9][0-9]*)"
VALUE = f"{NUMBER}(?: {NUMBER})*"
# What a call at a line returned, or awaited, or gave up on; and the same of an earlier one.
RETURNED = f"(?P<returned>returned {NUMBER}|awaited {NUMBER}|gave up on {NUMBER})"
EARLIER = f"line (?P<K>{NUMBER}) had (?P<earlier>returned {NUMBER}|awaited {NUMBER})"
ADVANCES = f"(?P<n>{NUMBER}) (?P<advances>advances?) of (?P<E>[^ ]+)"
FROM = f"(?:, from (?P<start>{NUMBER}))?"
DREW = (
    f"only (?P<n>{NUMBER}) (?P<tickets>tickets?) of (?P<T>[^ ]+)"
    f" can have drawn 0 to (?P<upto>{NUMBER})"
)


def some(name, noun):
    """Returns the form of a number of this name, with a noun in the singular or the plural."""
    return f"(?P<{name}>1(?= {noun}\\b)|(?!1 ){NUMBER}(?= {noun}s\\b)) {noun}s?"


BY_LINE = f"by line (?P<one>{NUMBER}), "
ROOM = f"room for (?P<room>{NUMBER})"
ASKING = f"with (?P<pending>{NUMBER}) of these pending and {ROOM}"
BOUND = (
    f"of the first (?:1 item|(?!1 ){NUMBER} items), {NUMBER} had not been taken before line {NUMBER}"
    f"(?:, so at most {NUMBER} had)?"
)
COUNTED = "(?:1 {0}|(?!1 )" + NUMBER + " {0}s)"
ITEMS, PRODUCES, CONSUMES = (COUNTED.format(noun) for noun in ("item", "produce", "consume"))
ITS_CALLS = f"(?:{PRODUCES}|{CONSUMES})"
FEW_CALLS = f"(?:no (?:produce|consume)|only (?!0 ){ITS_CALLS})"
STEP = (
    f"by line {NUMBER}, (?:{PRODUCES} had returned, so with room for {NUMBER}|{CONSUMES} had returned, so"
    f"|{ITS_CALLS} of {NUMBER}(?: called after line {NUMBER})? had returned, so)"
    f" at least {ITEMS} had been (?:put in|taken)"
)
SHORTAGE = (
    f"of the first {ITEMS}, (?:1 was|(?!1 ){NUMBER} were) {NUMBER},"
    f" and {FEW_CALLS} of it had been called by line {NUMBER}"
)
CLASH = (
    f"(?:(?:no produce|no more than (?!0 ){PRODUCES}) had been called by then"
    f"|(?:no consume|no more than (?!0 ){CONSUMES}) had been called by then, with room for {NUMBER}"
    f"|{SHORTAGE}(?:; {SHORTAGE})*"
    f"(?:; and only (?!0 ){COUNTED.format('pending consume')} had been called by line {NUMBER})?)"
)
# More items are put in than consumes return and there is room for.
SHARE = (
    f"{ITS_CALLS} of {NUMBER}(?: called after line {NUMBER})? had returned,"
    f" and consumes return (?:none|at most (?!0 ){NUMBER}) of these items"
)
CROWD = (
    f"by line {NUMBER}, {SHARE}(?:; {SHARE})*, so with the {NUMBER} that they return at least {ITEMS} had been put in"
)
HELD = f"(?P<X>[^ ]+) returned (?P<value>{VALUE})"

# The forms of notes on histories: the name of the form, and all after `line N: `. The notes on what is
# not decided have no line.
NOTES = {
    "few": f"{RETURNED}, but only {ADVANCES} had been called{FROM}",
    "many": f"{RETURNED}, but when it was called \\(line (?P<L>{NUMBER})\\)"
    f" {ADVANCES} had returned{FROM}",
    "since": f"{RETURNED}, but {EARLIER}, and {ADVANCES} were called and returned between it"
    f" and line (?P<L>{NUMBER})",
    "turned": f"{RETURNED}, but {EARLIER} before it was called \\(line (?P<L>{NUMBER})\\)",
    "below": f"returned (?P<value>{NUMBER}|timeout), but it awaited (?P<v>{NUMBER})",
    "twice": f"returned (?P<value>{NUMBER}), as line (?P<K>{NUMBER}) had",
    "drawn": f"returned (?P<value>{NUMBER}), but {DREW}",
    "drawn_earlier": f"line (?P<K>{NUMBER}) had returned (?P<value>{NUMBER}), but {DREW}",
    "taken": f"the (?P<nth>{NUMBER}(?:st|nd|rd|th)) p of (?P<S>[^ ]+),"
    f" with (?P<units>{NUMBER}) at first and (?P<v>{NUMBER}) v called",
    "nowhere": f"{HELD}, but no (?P<put>put|write) of (?P<same>{VALUE}) had been called",
    "stale": f"{HELD}, but line (?P<K>{NUMBER}) had (?P<put>put|written|returned)"
    f" (?P<other>{VALUE}) before it was called \\(line (?P<L>{NUMBER})\\)",
    "alternate": f"{HELD}, but (?P<one>{VALUE}) and (?P<other>{VALUE}) alternate:"
    f" lines (?P<lines>{NUMBER} {NUMBER} {NUMBER} {NUMBER})",
    "chain": f"{HELD}, but no (?P<put>put|write) is left for it(?:, by lines (?P<lines>{VALUE}))?",
    "unproduced": f"{BY_LINE}{some('taken', 'consume')} had returned (?P<item>{NUMBER}),"
    f" but only {some('put', 'produce')} called by then can have put it in",
    "overfull": f"{BY_LINE}{some('put', 'produce')} had returned done,"
    f" but only {some('taken', 'consume')} called by then can have taken an item, with {ROOM}",
    "crowded": f"{BY_LINE}{some('left', 'item')} had been put in that no consume called by then has returned, {ASKING}",
    "overtaken": f"{BY_LINE}(?P<item>{NUMBER}) was produced before (?P<later_item>{NUMBER}),"
    f" but consumed after line (?P<other>{NUMBER}) had returned that"
    f"(?:: {some('before', 'produce')} by line (?P=one) and {some('later', 'consume')} after line (?P=other),"
    f" of {some('all', 'produce')} in all)?",
    "passed": f"(?:line (?P<K>{NUMBER}) had )?returned (?P<later_item>{NUMBER}), but {BY_LINE}before any"
    f" (?P=later_item) was produced, {some('left', 'item')} had been put in that no consume called by line"
    f" (?P<other>{NUMBER}) has returned(?:, with only (?P<pending>(?!0){NUMBER}) of these consumes pending)?",
    "squeezed": f"{BY_LINE}{some('left', 'item')} had been put in that no consume called by line (?P<other>{NUMBER})"
    f" has returned, {ASKING}; and (?P<item>{NUMBER}), put in once, by then, was not taken by line (?P=one)",
    "overdue": f"(?P<bounds>{BOUND}(?:; {BOUND})*)",
    "outrun": f"(?P<steps>(?:{STEP}(?:; {STEP})*)?)(?:(?:; )?(?P<crowd>{CROWD}))?, but (?P<clash>{CLASH})",
    "unfound": f"(?P<B>[^ ]+) is not decided from line (?P<from>{NUMBER}) on",
    "undecided": f"(?P<X>[^ ]+) is not decided: (?P<value>{VALUE}) was (?P<put>put|written)"
    f" more than once, and the (?P<puts>puts|writes) of lines (?P<one>{NUMBER})"
    f" and (?P<other>{NUMBER}) overlap",
}
OPEN = "undecided", "unfound"
OF_BUFFERS = "unproduced", "overfull", "crowded", "overtaken", "passed", "squeezed", "overdue", "outrun"
NOTE = re.compile(f"(?:line (?P<N>{NUMBER}): )?(?P<rest>.*)")


def said_in(note):
    """Returns the line that a note names, or None; and the forms that it has, with their words."""
    form = NOTE.fullmatch(note)
    if not form:
        return None, []
    said = [(name, re.fullmatch(text, form["rest"])) for name, text in NOTES.items()]
    has_line = form["N"] is not None
    said = [it for it in said if it[1] and has_line == (it[0] not in OPEN)]
    return int(form["N"]) if has_line else None, said


def form_of(note):
    """Returns what a note is: the name of a form, the name of the kind of a fault, or an empty text."""
    _, said = said_in(note)
    kinds = [name for number, name in KINDS.items() if f": {number} {name}: " in note]
    return [*kinds, *(name for name, _ in said), ""][0]
