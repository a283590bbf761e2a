"""Facts on pages that the sources define, for tests/pages: limits, reserved words, refusals, kinds of errors, their
causes, statuses, outcomes, summaries of commands, the map of the crates, the form of the figures of bench/run and which
of them are missed, and that each man page can be made.

Each check yields what is wrong. The sources are right."""

import glob
import os
import re
import subprocess
import sys

from trying.files import TOP, read

sys.path.insert(0, os.path.join(TOP, "bench"))
import page as figures

# The rows of docs/REFERENCE.md, "Limits", by their first cells. The last number of each part of the second cell is the one
# that these sources have.
LIMITS = {
    "`limit`, the maximum of each component and sequencer": [
        ("ec_heading/src/version.rt", r"Version::Two => ([\d_]+)"),
        ("ec_heading/src/version.rt", r"Version::One => ([\d_]+)"),
    ],
    "workers; components of an eventcount": [
        ("ec_count/src/worker_id.rt", r"if n < (\d+)"),
        ("ec_count/src/members.rt", r"ArrayVec<WorkerId, (\d+)>"),
    ],
    "eventcounts; sequencers; cells in all": [
        ("ec_count/src/event_id.rt", r"if n < (\d+)"),
        ("ec_count/src/seq_id.rt", r"if n < (\d+)"),
        ("ec_count/src/cell_id.rt", r"if n < (\d+)"),
    ],
    "initial value of a semaphore": [("ec_semaphore/src/shape.rt", r"INITIAL_MAX: u64 = ([\d_]+)")],
    "values and thresholds": [("ec_core/src/act.rt", r"VALUE_MAX: u64 = ([\d_]+)")],
    "tries of a snapshot; count of a `repeat`; its nesting": [
        ("ec_machine/src/limits.rt", r"TRIES_MAX: usize = ([\d_]+)"),
        ("ec_machine/src/limits.rt", r"TIMES_MAX: u64 = ([\d_]+)"),
        ("ec_machine/src/limits.rt", r"NESTING_MAX: usize = ([\d_]+)"),
    ],
    "commands of a worker; its steps in `run`; names in a schedule": [
        ("ec_machine/src/limits.rt", r"COMMANDS_MAX: usize = ([\d_]+)"),
        ("evc_cli/src/line.rt", r"range\(1\.\.=([\d_]+)\)"),
        ("ec_script/src/kinds.rt", r"SCHEDULE_MAX: usize = ([\d_]+)"),
    ],
    "bytes of a name; of a line without LF; of a script": [
        ("ec_count/src/reserved.rt", r"rest\.len\(\) <= (\d+)"),
        ("ec_heading/src/heading.rt", r"LINE_MAX: usize = ([\d_]+)"),
        ("ec_script/src/parsing.rt", r"SCRIPT_MAX: usize = ([\d_]+)"),
    ],
    "bytes of a trace or history; none with `watch` if judged by event": [
        ("ec_trace/src/read.rt", r"TRACE_MAX: usize = ([\d_]+)")
    ],
    "entries of a picture": [("ec_draw/src/window.rt", r"COLUMNS_MAX: usize = ([\d_]+)")],
}
# The bounds of the formats that the recorders repeat, in each language, by their names there.
WORKERS = ("ec_count/src/worker_id.rt", r"if n < (\d+)")
CELLS = ("ec_count/src/cell_id.rt", r"if n < (\d+)")
LIMIT = ("ec_heading/src/version.rt", r"Version::Two => ([\d_]+)")
NUMBER_MAX = ("ec_core/src/act.rt", r"VALUE_MAX: u64 = ([\d_]+)")
TEXT_MAX = ("calls_report/src/checking.rt", r"TEXT_MAX: usize = ([\d_]+)")
LINE_MAX = ("ec_heading/src/heading.rt", r"LINE_MAX: usize = ([\d_]+)")
TRACE_MAX = ("ec_trace/src/read.rt", r"TRACE_MAX: usize = ([\d_]+)")
OF_CALLS = {"WORKERS": WORKERS, "CELLS": CELLS, "LIMIT": LIMIT, "NUMBER_MAX": NUMBER_MAX, "TEXT_MAX": TEXT_MAX}
RECORDED = {
    "evc_calls.h": {f"EVC_CALLS_{name}": source for name, source in OF_CALLS.items()},
    "evc_calls.rs": OF_CALLS,
    "evc_record.h": {"EVC_TRACE_MAX": TRACE_MAX, "EVC_LINE_MAX": LINE_MAX},
    "evc_record.rs": {"TRACE_MAX": TRACE_MAX, "LINE_MAX": LINE_MAX},
}
# The statuses of the library, and of the programs.
STATUSES = {
    "DONE": "Done",
    "REFUSED": "Refused",
    "USAGE": "Usage",
    "NO_ROOM": "InputOutput",
    "NO_MEMORY": "Memory",
    "NOT_DECIDED": "NotDecided",
}
# The programs with completions, each with the crate of its help.
COMPLETED = {"evc": "evc_cli", "evc-calls": "evc_calls_cli"}


def numbers_of(file, pattern):
    """Returns the number that a source has, or None."""
    found = re.search(pattern, read("crates", file))
    return int(found[1].replace("_", "")) if found else None


def section(page, heading):
    """Returns what a page has under a heading, up to the next one of its level or above."""
    level, _, _ = heading.partition(" ")
    parts = read("docs", page).split(f"\n{heading}\n")
    return re.split(rf"^#{{1,{len(level)}}} ", parts[1], maxsplit=1, flags=re.M)[0] if len(parts) == 2 else ""


def rows(text):
    """Returns the rows of the tables of a text, as lists of cells, without heads."""
    lines = [it for it in text.split("\n") if it.startswith("|")]
    heads = {lines[at - 1] for at, it in enumerate(lines) if at and re.fullmatch(r"[|-]+", it)}
    return [
        [cell.strip() for cell in it.strip("|").split("|")]
        for it in lines
        if it not in heads and not re.fullmatch(r"[|-]+", it)
    ]


def arms(file, kind, pattern):
    """Returns what the arms of a `match` give for the variants of an enum, or ends if there are none."""
    found = dict(re.findall(rf"{kind}::(\w+)(?:\([^)]*\))? => {pattern}", read("crates", file)))
    if not found:
        sys.exit(f"crates/{file} has no arms of {kind} any more")
    return found


def differing(what, said, right):
    """Yields what a page says that is not right, and what is right that it doesn't say."""
    for it in sorted(said - right):
        yield f"{what}: the sources don't have {it}"
    for it in sorted(right - said):
        yield f"{what}: {it} is missing"


def faults_of_limits():
    said = {cells[0]: cells[1].split(";") for cells in rows(section("REFERENCE.md", "## Limits"))}
    yield from differing("docs/REFERENCE.md, Limits", set(said), set(LIMITS))
    for name, sources in LIMITS.items():
        written = [int(re.findall(r"\d+", it)[-1]) for it in said.get(name, [])]
        right = [numbers_of(*it) + (name.startswith("bytes of a name") and at == 0) for at, it in enumerate(sources)]
        if written != right:
            yield f"docs/REFERENCE.md, Limits: {name} is {written}, and {right} in the sources"


def faults_of_recorders():
    for file, names in RECORDED.items():
        text = read("recorder", file)
        for name, source in names.items():
            found = re.search(rf"^(?:#define|(?:pub )?const) {name}\b[^=\n]*?(?:= )?(\d[\d_]*)u?;?$", text, re.M)
            if not found or int(found[1].replace("_", "")) != numbers_of(*source):
                yield f"recorder/{file}: {name} is not {numbers_of(*source)}"


def faults_of_reserved():
    right = set(re.findall(r'^    "(\w+)",$', read("crates/ec_count/src/reserved.rt"), re.M))
    said = set(re.findall(r"\w+", "".join(re.findall(r"^    .*$", section("REFERENCE.md", "## Grammar"), re.M))))
    yield from differing("docs/REFERENCE.md, reserved words", said, right)


def faults_of_refusals():
    right = {f"{number} {name}" for name, number in arms("ec_core/src/act.rt", "Refusal", r"(\d+),").items()}
    said = set(re.findall(r"\b(\d+ [A-Z]\w+)\b", section("REFERENCE.md", "### Rejected traces")))
    yield from differing("docs/REFERENCE.md, refusals", said, right)


def faults_of_kinds():
    """Compares the kinds of errors of scripts and histories, and the causes that notes have."""
    page = section("REFERENCE.md", "### Kinds of errors")
    said = {cells[0]: cells[1] for cells in rows(page) if re.match(r"\d", cells[0])}
    kinds = [arms(f"{it}/src/fault.rt", "Kind", r"(\d+),") for it in ("ec_script", "calls_text")]
    right = {f"{number} {name}" for it in kinds for name, number in it.items()}
    yield from differing("docs/REFERENCE.md, kinds", set(said), right)
    causes = arms("calls_report/src/notes.rt", "Kind", r'b"([^"]*)"')
    for name, number in kinds[1].items():
        if said.get(f"{number} {name}") != f"`{causes[name]}`":
            yield f"docs/REFERENCE.md, kinds: the cause of {name} is {causes[name]}"
    for cause in arms("calls_report/src/notes.rt", "Cause", r'b"([^"]*)"').values():
        if f"`{cause}`" not in page:
            yield f"docs/REFERENCE.md, causes: {cause} is missing"


def faults_of_statuses():
    codes = [arms(f"{it}/src/status.rt", "Status", r"(\d),") for it in ("evc_engine", "calls_report")]
    said = {cells[0] for cells in rows(section("REFERENCE.md", "## Notes and statuses")) if re.fullmatch(r"\d", cells[0])}
    yield from differing("docs/REFERENCE.md, statuses", said, {code for it in codes for code in it.values()})
    header = dict(re.findall(r"^ +EVC_STATUS_(\w+) = (\d)", read("library", "evc.h"), re.M))
    right = {name: (codes[1] | codes[0])[of] for name, of in STATUSES.items()}
    if header != right:
        yield f"library/evc.h: the statuses are {header}, and {right} in the sources"
    for cells in rows(read("docs", "LIBRARY.md")):
        named = re.search(r"EVC_STATUS_(\w+)", cells[1]) if len(cells) > 1 else None
        if named and header.get(named[1]) != cells[0]:
            yield f"docs/LIBRARY.md: {named[0]} is not {cells[0]}"


def faults_of_outcomes():
    page = section("REFERENCE.md", "## Scripts")
    for text in arms("evc_scripts/src/outcomes.rt", "Outcome", r'out\.put\(b"([^"]*)"').values():
        if f"`{text}`" not in page:
            yield f"docs/REFERENCE.md, Scripts: the outcome {text} is missing"


def note_pattern(note):
    """Returns a pattern for a note of a page, in which numbers, lines and names are free."""
    found = []
    lines = r"\blines? (?:[KLN]|\d+)(?: \d+| and \d+)*"
    for it in re.split(rf"(\.\.|{lines}|\d+th|\d+(?:\.\d+)?|X\[0\]|\b[ESTb]\b|advances?|tickets?)", note):
        if it == "..":
            found.append(".*")
        elif it.startswith("line"):
            found.append(r"lines? \d+(?: \d+| and \d+)*")
        elif re.fullmatch(r"\d+th", it):
            found.append(r"\d+(?:st|nd|rd|th)")
        elif re.fullmatch(r"[\d.]+", it):
            found.append(r"[\d.]+")
        elif re.fullmatch(r"X\[0\]|[ESTb]", it):
            found.append(r"\S+")
        else:
            found.append(re.escape(it) if not re.fullmatch("(advance|ticket)s?", it) else f"{it.rstrip('s')}s?")
    return "".join(found)


def faults_of_notes():
    """Looks for notes on histories that no golden test has."""
    tests = "".join(read("tests", f"evc-calls{it}.rows") for it in ("", "-watch", "-steps")).replace("\\\n", "")
    for line in section("REFERENCE.md", "## Orders").split("\n"):
        for note in re.findall(r"`([^`]+ [^`]+)`", line) if line.startswith(("| ", "- ")) and "Note" not in line else ():
            if not re.search(note_pattern(note), tests):
                yield f"docs/REFERENCE.md, Orders: no golden test has the note {note}"


def faults_of_summaries():
    """Compares the summaries of commands in completions with those of the help."""
    for program, crate in COMPLETED.items():
        texts = re.findall(r'const ([A-Z]+)_ABOUT: &str =\s+"([^"]*)";', read(f"crates/{crate}/src/help.rt"))
        for name, text in ((name.lower(), text) for name, text in texts if name != "LONG"):
            for file in (f"_{program}", f"{program}.fish"):
                if text not in read("package", file):
                    yield f"package/{file}: {name} has another summary than its help, {text}"
            words = re.search(r"-W '([^']*)'", read("package", f"{program}.bash"))
            if not words or name not in words[1].split():
                yield f"package/{program}.bash: {name} is missing"


def faults_of_options():
    """Looks for the options of evc-draw, by its help, in REFERENCE and in its completions."""
    options = re.findall(r'"([a-z]+)", help::', read("crates/evc_draw_cli/src/line.rt"))
    page = section("REFERENCE.md", "## Pictures")
    for name in options:
        if f"`--{name}" not in page and name not in ("help", "version"):
            yield f"docs/REFERENCE.md, Pictures: --{name} is missing"
        for file in ("_evc-draw", "evc-draw.fish", "evc-draw.bash"):
            if not re.search(rf"(--|-l ){name}\b", read("package", file)):
                yield f"package/{file}: --{name} is missing"


def faults_of_map():
    """Compares the map of the crates with crates.txt and the crates' pages."""
    page = os.path.join(TOP, "docs", "DESIGN.md")
    found = read(page).split("<!-- crates -->\n") if os.path.exists(page) else []
    if len(found) != 3 or found[1] != subprocess.run([f"{TOP}/bin/crates"], capture_output=True, text=True).stdout:
        yield "docs/DESIGN.md: the map of the crates is another one: run bin/crates --write"


def faults_of_performance():
    """Compares the form of tables and lines with what bench/run makes, and which figures are bold with the targets."""
    yield from (f"docs/PERFORMANCE.md: {it}" for it in figures.faults(read("docs", "PERFORMANCE.md")))


def faults_of_manuals():
    for page in sorted(glob.glob("package/*.[135]", root_dir=TOP)):
        made = subprocess.run(["awk", "-f", "package/tables.awk", page], cwd=TOP, capture_output=True, text=True)
        if made.returncode:
            yield f"{page} can't be made: {made.stderr.strip()}"


def faults_of_causes():
    """Compares the causes of evc-explain in its man page with their sentences in ec_explain."""
    table = read("package/evc-explain.causes")
    advice = read("crates/ec_explain/specs/Advice.antt")
    for said in re.findall(r'^\w+ causes\.\w+ =((?:\s+(?:\+\+ )?codes "[^"]*")+)', advice, re.M):
        text = "".join(re.findall('codes "([^"]*)"', said))
        if text.replace("\\\\", "\\") not in table.replace("`", ""):
            yield f"package/evc-explain.causes: the sentence is missing: {text}"


CHECKS = [
    faults_of_causes,
    faults_of_limits,
    faults_of_recorders,
    faults_of_reserved,
    faults_of_refusals,
    faults_of_kinds,
    faults_of_statuses,
    faults_of_outcomes,
    faults_of_notes,
    faults_of_summaries,
    faults_of_options,
    faults_of_map,
    faults_of_performance,
    faults_of_manuals,
]
