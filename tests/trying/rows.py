"""Reads files of golden tests, in the format that the head of tests/run-rows has."""

import functools
import re
from dataclasses import dataclass, replace
from pathlib import Path
from typing import Optional

from trying.files import TOP
from trying.row_texts import SECTION_MARKS, BadRow, Line, bytes_of, unescaped, words_of

ROWS = TOP / "tests" / "rows"

# The arrow between a line of calls and the answer to it.
ARROW = re.compile(" *-> ?")


@dataclass
class Section:
    """A line that begins a section, and the lines of text under it."""

    head: Line
    lines: list[Line]


@dataclass
class Command:
    """The words of a command, and what its result has to be. None is what the test does not say."""

    words: list[bytes]
    output: Optional[bytes] = None
    in_any_order: bool = False
    counts: Optional[list[tuple[int, bytes]]] = None
    notes: Optional[bytes] = None
    status: Optional[int] = None


@dataclass
class Row:
    """A golden test: its commands, the input of the first, and where it begins. If it has lines `?`, each try is a test
    with a number of its own. The sort is that of the calls that it is over, or None."""

    title: str
    file: Path
    line: int
    input: bytes
    commands: list[Command]
    inputs: list[bytes]
    sort: Optional[str] = None
    times: int = 1
    number: Optional[int] = None

    @property
    def name(self):
        return self.title if self.number is None else f"{self.title}.{self.number}"

    @property
    def place(self):
        return f"{self.file}:{self.line}"


def rows_of(file, data):
    """Returns the golden tests of a file that has these bytes."""
    rows = []
    sort, lines = sort_of(lines_of(data))
    for section in sections_of(lines):
        if section.head.text.startswith("="):
            rows.append(new_row(section, file, sort))
        elif rows:
            add_section(rows[-1], section)
        else:
            raise BadRow(section.head.number, "stands before the first row")
    for row in rows:
        if not row.commands:
            raise BadRow(row.line, f"the row {row.name} has no command")
    if not rows:
        raise BadRow(1, "the file has no row")
    return [one for row in rows for one in tries_of(row)]


def sort_of(lines):
    """Returns the sort of calls that the first line that is no comment names, or None, and the lines without it."""
    for place, line in enumerate(lines):
        if line.text.startswith("@ "):
            return line.text[2:], lines[:place] + lines[place + 1 :]
        if line.text and not line.text.startswith("#"):
            break
    return None, lines


def tries_of(row):
    """Returns a golden test for each try of one."""
    if row.times > 1:
        return [replace(row, number=number) for number in range(1, row.times + 1)]
    if not row.inputs:
        return [row]
    return [replace(row, input=text, number=number) for number, text in enumerate(row.inputs, start=1)]


def lines_of(data):
    lines = []
    for number, line in enumerate(data.split(b"\n"), start=1):
        try:
            text = line.decode()
        except UnicodeDecodeError:
            raise BadRow(number, r"is no UTF-8: other bytes are written as \xHH") from None
        if not text.isprintable():
            raise BadRow(number, r"has something that can't be seen: it is written as \r, \t or \xHH")
        if text.endswith(" "):
            raise BadRow(number, r"ends in a space: it is written as \s")
        lines.append(Line(number, text))
    return lines


def sections_of(lines):
    sections = []
    for line in lines:
        if line.text.startswith("#"):
            continue
        if line.text.startswith(SECTION_MARKS):
            sections.append(Section(line, []))
        elif sections:
            sections[-1].lines.append(line)
        elif line.text:
            raise BadRow(line.number, "is text before the first row")
    for section in sections:
        while section.lines and not section.lines[-1].text:
            section.lines.pop()
    return sections


def new_row(section, file, sort):
    named = re.fullmatch("== ([a-z][a-z0-9_]*)", section.head.text)
    if not named:
        raise BadRow(section.head.number, "is no line `== NAME` with a name of small letters, digits and _")
    row = Row(named[1], file, section.head.number, b"", [], [], sort)
    if sort:
        row.input, output = answered(section)
        row.commands.append(Command([sort.encode()], output))
    else:
        refuse_text(section)
    return row


def answered(section):
    """Returns the input and the output that the lines of a golden test over calls give."""
    given, right = [], []
    for line in section.lines:
        text, arrow, answer = cut_at_arrow(line.text)
        repeat = re.match(r"\* [0-9]+(?: |$)", text)
        if text and (not repeat or repeat[0] != text):
            given.append(bytes_of(Line(line.number, text)))
        if arrow:
            times = repeat[0].rstrip() + " " if repeat else ""
            right.append(bytes_of(Line(line.number, times + answer)))
    return b"".join(given), b"".join(right)


def cut_at_arrow(text):
    """Returns what is before the arrow of a line, whether it has one, and what is after it."""
    arrow = ARROW.search(text)
    if not arrow:
        return text, False, ""
    return text[: arrow.start()], True, text[arrow.end() :]


def add_section(row, section):
    """Adds a section that is not the first to a golden test."""
    number = section.head.number
    mark, _, rest = section.head.text.partition(" ")
    if mark == "$":
        if row.commands:
            raise BadRow(number, "is the second `$` of a row: a further command begins with `|`")
        choices = [at for at, line in enumerate(section.lines) if line.text.startswith("?")]
        row.inputs = [text_of(section, set(choices) - {at}) for at in choices]
        row.input = b"" if choices else text_of(section)
        row.commands.append(Command(words_of(rest, number)))
        return
    if mark not in ("|", "--"):
        raise BadRow(number, f"`{mark}` is no mark; where a text has it, a backslash stands before it")
    if not row.commands:
        raise BadRow(number, "stands before the row's `$`")
    if mark == "|":
        refuse_text(section)
        row.commands.append(Command(words_of(rest, number)))
    elif rest.startswith("times "):
        refuse_text(section)
        row.times = number_of(rest.removeprefix("times "), number)
    else:
        add_result(row.commands[-1], rest, section)


def number_of(text, line):
    if not re.fullmatch("[1-9][0-9]*", text):
        raise BadRow(line, "has no number where one has to stand")
    return int(text)


def counts_of(section):
    """Returns the number and the text of each line of a section."""
    found = []
    for line in section.lines:
        count, _, text = line.text.partition(" ")
        found.append((number_of(count, line.number), unescaped(text, line.number)))
    return found


def add_result(command, title, section):
    """Adds what a section `-- TITLE` says to the command."""
    part, *value = title.split(" ")
    for line in section.lines:
        if line.text.startswith("?"):
            raise BadRow(line.number, "stands in no input of a row")
    if part in ("output", "notes") and not value:
        result = text_of(section)
    elif title == "output in any order":
        command.in_any_order = True
        result = text_of(section)
    elif part == "counts" and not value:
        result = counts_of(section)
    elif part == "status" and re.fullmatch("[0-9]+", " ".join(value)):
        refuse_text(section)
        result = int(value[0])
    else:
        raise BadRow(section.head.number, "is none of the sections of a command")
    if getattr(command, part) is not None:
        raise BadRow(section.head.number, f"is the second `-- {part}` of a command")
    setattr(command, part, result)


def refuse_text(section):
    for line in section.lines:
        if line.text:
            raise BadRow(line.number, f"no text may stand under `{section.head.text}`")


def text_of(section, left_out=frozenset()):
    """Returns the text of a section without the lines of these numbers, from 0."""
    return b"".join(bytes_of(line) for at, line in enumerate(section.lines) if at not in left_out)


def rows_in(file):
    """Returns the golden tests of a file of the repository."""
    return rows_of(file, (TOP / file).read_bytes())


@functools.lru_cache(None)
def read_rows():
    """Returns the golden tests of all files, and a line for each fault that keeps some from being tried."""
    rows, faults = [], []
    for path in sorted(ROWS.iterdir()):
        file = path.relative_to(TOP)
        try:
            if path.suffix == ".rows":
                rows += rows_of(file, path.read_bytes())
            else:
                faults.append(f"{file}: its name does not end in .rows")
        except BadRow as fault:
            faults.append(f"{file}:{fault.line}: {fault}. None of the file's rows was tried")
        except OSError as error:
            faults.append(f"{file}: can't be read: {error.strerror}")
    return rows, faults


def named_once(rows):
    """Returns the first golden test of each name, and a line for each further one."""
    first, kept, faults = {}, [], []
    for row in rows:
        once = first.setdefault(row.title, row)
        if once.place != row.place:
            faults.append(f"{row.place}: a second row {row.name} (the first: {once.place}), not tried")
        else:
            kept.append(row)
    return kept, faults


def input_named(name):
    """Returns the input of a golden test of tests/rows."""
    return next(row.input for row in read_rows()[0] if row.name == name)
