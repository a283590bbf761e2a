"""Random traces with bytes, words and lines changed, so that most of them are no traces any more."""

from generate.random_traces import random_trace

# Numbers at the bounds of what a text may have, and next to them.
NUMBERS = (
    "0 1 2 00 01 9 10 16 17 32 33 255 256 257 1000000 1000001 4294967295 4294967296 99999999 100000000 1234567 12345678 "
    "281474976710655 281474976710656 999999999999999999 0999999999999999999 1000000000000000000 18446744073709551616 -1 +1 1a"
).split()
WORDS = "advance read await go ticket put get hand done pending = end run observe consume both use v p take".split()
ODD = (b" ", b"\n", b"\r", b"\t", b"\0", b"\xff", b"=", b"0", b"9", b"a", b"[", b"]", b".", b"  ", b" \n", b"\r\n")


def change_byte(draw, text):
    at = draw.randrange(len(text))
    return text[:at] + draw.choice((bytes([draw.randrange(256)]), draw.choice(ODD))) + text[at + 1 :]


def insert_byte(draw, text):
    at = draw.randrange(len(text) + 1)
    return text[:at] + draw.choice(ODD) + text[at:]


def drop_byte(draw, text):
    at = draw.randrange(len(text))
    return text[:at] + text[at + 1 :]


def cut(draw, text):
    return text[: draw.randrange(len(text))]


def after_end(draw, text):
    return text + draw.choice((b"x", b"\n", b"end\n", b" ", b"x" * 9000))


def in_lines(change):
    def changed(draw, text):
        lines = text.split(b"\n")[:-1] or [b""]
        change(draw, lines)
        return b"".join(line + b"\n" for line in lines)

    return changed


@in_lines
def drop_line(draw, lines):
    del lines[draw.randrange(len(lines))]


@in_lines
def double_line(draw, lines):
    at = draw.randrange(len(lines))
    lines.insert(draw.randrange(len(lines) + 1) if draw.random() < 0.5 else at, lines[at])


@in_lines
def swap_lines(draw, lines):
    at = draw.randrange(max(1, len(lines) - 1))
    other = min(at + 1, len(lines) - 1) if draw.random() < 0.5 else draw.randrange(len(lines))
    lines[at], lines[other] = lines[other], lines[at]


@in_lines
def long_line(draw, lines):
    at = draw.randrange(len(lines))
    length = draw.choice((8191, 8192, 8193, 20000))
    lines[at] = lines[at] + draw.choice((b" ", b"x", b" a")) * (length - len(lines[at]))
    lines[at] = lines[at][:length]


@in_lines
def other_word(draw, lines):
    at = draw.randrange(len(lines))
    words = lines[at].split(b" ")
    whence = lines[draw.randrange(len(lines))].split(b" ")
    word = draw.choice((draw.choice(NUMBERS).encode(), draw.choice(WORDS).encode(), draw.choice(whence), b"", words[0] + b"\0"))
    words[draw.randrange(len(words))] = word
    lines[at] = b" ".join(words)


@in_lines
def word_of_same_place(draw, lines):
    at, other = draw.randrange(len(lines)), draw.randrange(len(lines))
    words, whence = lines[at].split(b" "), lines[other].split(b" ")
    place = draw.randrange(min(len(words), len(whence)))
    words[place] = whence[place]
    lines[at] = b" ".join(words)


@in_lines
def other_reply(draw, lines):
    at = draw.randrange(len(lines))
    entry = lines[at].rsplit(b" ", 1)[0]
    lines[at] = entry + b" " + draw.choice(["done", "pending", "done ", "pendin", *NUMBERS]).encode()


@in_lines
def other_version(draw, lines):
    lines[0] = draw.choice((b"evc-trace 1", b"evc-trace 2", b"evc-trace 3", b"evc-script 1", b"evc-trace 1\r"))


def end_of_header(lines):
    return lines.index(b"run") if b"run" in lines else len(lines)


@in_lines
def odd_declaration(draw, lines):
    names = draw.choice((b"a", b"a b", b"Q a", b"zz", b"a a", b"observe a", b""))
    form = draw.choice(
        (
            "eventcount Q signal a observe", "eventcount Q signal %", "eventcount Q signal a observe %", "sequencer Q take %",
            "cells Q # write %", "cells Q # write a read %", "buffer Q # produce a consume %", "database Q # write % read b",
            "semaphore Q # use %", "both use %", "eventcount # signal %", "buffer Q 1 produce a consume b consume c",
            "sequencer seventeen_letter5 take a", "sequencer advance take a", "sequencer 1q take a", "sequencer Q take a observe b",
        )
    )
    line = form.encode().replace(b"#", draw.choice(NUMBERS).encode()).replace(b"%", names)
    where = end_of_header(lines)
    lines.insert(draw.randrange(max(1, where - 1), where + 1), line)


@in_lines
def many_declarations(draw, lines):
    form = draw.choice(("eventcount Q% signal a", "sequencer Q% take a", "cells Q% 17 write a", "semaphore Q% 1 use a"))
    worker = lines[2].split(b" ")[1] if len(lines) > 2 and b" " in lines[2] else b"a"
    where, form = end_of_header(lines), form.encode()[:-1] + worker
    lines[where:where] = [form.replace(b"%", str(it).encode()) for it in range(draw.choice((10, 15, 16, 28, 30, 31, 32, 33)))]


BREAKS = [
    change_byte, change_byte, insert_byte, drop_byte, cut, after_end, drop_line, drop_line, double_line, double_line, swap_lines,
    swap_lines, long_line, other_word, other_word, word_of_same_place, word_of_same_place, other_reply, other_reply, other_version,
    odd_declaration, many_declarations,
]


def broken_trace(draw):
    text = random_trace(draw)
    for _ in range(draw.choice((1, 1, 1, 2, 4))):
        if text:
            text = draw.choice(BREAKS)(draw, text)
    return text
