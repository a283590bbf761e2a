"""What is drawn of the longest trace, of what can't be read or written, of files, and with words that ask for
nothing."""

import tempfile
from pathlib import Path

from trying.failing import faults_of_folder
from trying.running import differing

# The most bytes of a trace, and one that has as many.
TRACE_MAX = 67108864
HEADING = b"evc-trace 1\nlimit 1000000\nworkers a\neventcount E signal a observe a\nrun\n"
LONGEST = HEADING + b"a read E = 0\n" * 5162213 + b"a advance E = done\nend\n"


def wrong_sizes(draw):
    """Yields the names of the longest trace, of one that is a byte longer and of a text without end, and what is wrong
    with the result of each."""
    status, answer, notes = draw.says("--text", "--from", "5162213", text=LONGEST)
    last = "a advance E = done, entries 5162213 to 5162213, point 5162213\n"
    right = (len(LONGEST), status, notes, answer.rpartition("\n\n")[2]) == (TRACE_MAX, 0, "", last)
    yield "the longest trace", None if right else f"{len(LONGEST)} bytes: {status} {notes} {answer}"[:300]
    for words in ["--to", "9"], ["--text", "--to", "9"]:
        ended = draw.says(*words, text=LONGEST + b"x")
        yield f"{words} of one byte more", None if ended == (1, "", "too large\n") else f"{ended}"[:300]
    ended = draw.ends_of_endless([], LONGEST[:-4], b"a read E = 1\n")
    yield "a trace without end", differing(ended, (1, b"", b"too large\n"))


def wrong_streams(draw, text):
    """Yields the names of what can't be read or written, and what is wrong with the result of each."""
    for words in [], ["--text"], ["--to", "2", "--object", "E"]:
        yield f"{words} of a folder", faults_of_folder(draw, words)
    for words in [], ["--text"], ["--help"], ["--version"]:
        status, _, notes = draw.ends_at_full(words, text)
        yield f"{words} to a full device", differing((status, notes), (3, b"write fault\n"))


def wrong_words():
    """Yields words that ask for no picture, and the beginning of what is said of them."""
    for words in [b"\xff"], [b"--text", b"--worker", b"a\xff"], [b"--from", b"1\xc3"]:
        yield words, b"error: a word of the command line is not UTF-8\n"
    for many in 100, 4000, 100_000:
        word = b"x" * many
        yield [b"a.trace", word], b"error: unexpected argument '%b' found\n" % word
        yield [b"--" + word], b"error: unexpected argument '--%b' found\n" % word
        yield [b"--from", word], b"error: '--from' takes a number, not '%b'\n" % word
    yield [b"--from", b"1" * 19], b"error: '--from' takes a number, not '%b'\n" % (b"1" * 19)


def wrong_notes(draw):
    for words, right in wrong_words():
        status, output, notes = draw.ends(words)
        good = (status, output) == (2, b"") and notes.startswith(right)
        yield f"{words}"[:60], None if good else f"{status} {notes}"[:300]


def wrong_files(draw, text):
    """Yields the names of a file, of one that doesn't exist and of a folder, and what is wrong with the result of
    each."""
    with tempfile.TemporaryDirectory() as room:
        path = Path(room) / "a.trace"
        path.write_bytes(text)
        for words in [], ["--text"], ["--html"]:
            right = draw.says(*words, text=text)
            is_same = draw.says(*words, str(path), text=b"") == right
            yield f"{words} of a file", None if is_same else "is not as from standard input"
        for there, note in (f"{room}/b.trace", f"cannot open {room}/b.trace\n"), (room, "read fault\n"):
            yield f"the file {there}", differing(draw.says(there, text=text), (3, "", note))


def wrong_pages(draw, texts):
    """Yields the names of some traces, and what is wrong with their pages: each has the whole picture, and a script."""
    for name, text in texts:
        page, picture = draw.says("--html", text=text), draw.says(text=text)
        whole = page[1].startswith("<!DOCTYPE html>\n") and page[1].endswith("</script>\n") and picture[1] in page[1]
        is_right = whole and (page[0], page[2]) == (picture[0], picture[2])
        yield f"the page of {name}", None if is_right else f"{page}"[:300]
