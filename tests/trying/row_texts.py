"""The bytes that the lines of a golden test represent. The head of tests/run-rows has the forms."""

import re
from dataclasses import dataclass

from trying.files import TOP

# The marks with which a line begins that is no plain line of a text. The first four begin a section.
SECTION_MARKS = ("=", "$", "|", "-")
MARKS = (*SECTION_MARKS, "@", "<", "*", "?", "#")

ESCAPES = {b"n": b"\n", b"r": b"\r", b"t": b"\t", b"s": b" ", b"\\": b"\\"}
ESCAPES.update({mark.encode(): mark.encode() for mark in MARKS})


class BadRow(Exception):
    """What is wrong with a file of golden tests, and in which line."""

    def __init__(self, line, what):
        super().__init__(what)
        self.line = line


@dataclass
class Line:
    number: int
    text: str


def words_of(text, number):
    return [unescaped(word, number) for word in text.split()]


def bytes_of(line):
    """Returns the bytes that a line of a text represents."""
    if line.text.startswith("<"):
        return bytes_of_file(line)
    if line.text.startswith("*"):
        return repeated(line)
    if line.text.startswith("?"):
        return chosen(line)
    return line_with_end(line.text, line.number)


def bytes_of_file(line):
    mark, _, path = line.text.partition(" ")
    if mark != "<" or not path:
        raise BadRow(line.number, "is no line `< FILE`")
    try:
        return (TOP / path).read_bytes()
    except OSError as error:
        raise BadRow(line.number, f"{path} can't be read: {error.strerror}") from None


def chosen(line):
    mark, _, text = line.text.partition(" ")
    if mark != "?":
        raise BadRow(line.number, "is no line `? TEXT`")
    return line_with_end(text, line.number)


def repeated(line):
    form = re.fullmatch(r"\* ([1-9][0-9]*) (.+)", line.text)
    if not form:
        raise BadRow(line.number, "is no line `* COUNT TEXT`")
    count, pieces = int(form[1]), between_counters(form[2])
    parts = [unescaped(piece, line.number) for piece in pieces[:-1]]
    last = line_with_end(pieces[-1], line.number)
    if not parts:
        return last * count
    # (this is quick, since some texts have millions of lines)
    counted = b"".join(piece.replace(b"%", b"%%") + b"%d" for piece in parts) + last.replace(b"%", b"%%")
    lines = bytearray()
    for before in range(count):
        lines += counted % ((before,) * len(parts))
    return bytes(lines)


def between_counters(text):
    r"""Returns the parts of a text before, between and after its \i."""
    pieces = [""]
    for part in re.findall(r"\\.|[^\\]+|\\", text):
        if part == r"\i":
            pieces.append("")
        else:
            pieces[-1] += part
    return pieces


def line_with_end(text, number):
    """Returns the bytes of a line, with its line feed unless a backslash at its end takes that away."""
    backslashes = len(text) - len(text.rstrip("\\"))
    if backslashes % 2 == 1:
        return unescaped(text[:-1], number)
    return unescaped(text, number) + b"\n"


def unescaped(text, number):
    def byte(escape):
        code = escape[1]
        if code in ESCAPES:
            return ESCAPES[code]
        if len(code) == 3:
            return bytes.fromhex(code[1:].decode())
        raise BadRow(number, f"`{escape[0].decode(errors='replace')}` stands for nothing here")

    return re.sub(rb"\\(x[0-9a-f]{2}|.?)", byte, text.encode())
