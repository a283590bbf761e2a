"""What options choose of a trace of 1000 entries and of one with none, and the rows of some texts, written by hand."""

LONG = b"evc-trace 1\nlimit 9999\nworkers a\neventcount E signal a\nrun\n" + b"a advance E = done\n" * 1000 + b"end\n"
EMPTY = b"evc-trace 1\nlimit 9\nworkers a\neventcount E signal a\nrun\nend\n"
CUT = "more than 400 entries: only the last 400 are drawn\n"
# Options, the status, and what the notes on a trace of 1000 entries begin with.
OF_LONG = [
    ([], 0, CUT),
    (["--from", "600"], 0, ""),
    (["--from", "599"], 0, CUT),
    (["--from", "100", "--to", "499"], 0, ""),
    (["--from", "100", "--to", "500"], 0, CUT),
    (["--to", "399"], 0, ""),
    (["--to", "400"], 0, CUT),
    (["--text"], 0, CUT),
    (["--html"], 0, CUT),
    (["--text", "--to", "399"], 0, ""),
    (["--from", "600", "--text"], 0, ""),
    (["--from=600", "--text"], 0, ""),
    (["--from", "600", "--text", "--to", "700"], 0, ""),
    (["--text", "--from"], 2, "error: a value is required for '--from <N>' but none was supplied\n"),
    (["--from", "999"], 0, ""),
    (["--from", "999", "--to", "999999999999999999"], 0, ""),
    (["--from", "1000"], 2, "no entry from 1000 on: the trace has 1000 entries\n"),
    (["--from", "999999999999999999"], 2, "no entry from 999999999999999999 on: the trace has 1000 entries\n"),
    (["--from", "3", "--to", "1"], 2, "no entry from 3 to 1: the trace has 1000 entries\n"),
    (["--text", "--from", "1", "--to", "0"], 2, "no entry from 1 to 0: the trace has 1000 entries\n"),
    (["--from", "3", "--to", "3"], 0, ""),
    (["--to", "0"], 0, ""),
    (["--from", "3", "--to", "1", "--worker", "b"], 2, "no worker b is declared\n"),
    (["--from", "x"], 2, "error: '--from' takes a number, not 'x'\n"),
    (["--from", "x", "--to", "y"], 2, "error: '--from' takes a number, not 'x'\n"),
    (["--to=-1"], 2, "error: '--to' takes a number, not '-1'\n"),
    (["--from", "3", "--to", "01"], 2, "error: '--to' takes a number, not '01'\n"),
    (["--to", "9", "--to", "9"], 2, "error: the argument '--to <N>' cannot be used multiple times\n"),
    (["--width", "3"], 2, "error: unexpected argument '--width' found\n"),
    (["--text", "-x", "--from", "x"], 2, "error: unexpected argument '-x' found\n"),
    (["a.trace", "b.trace"], 2, "error: unexpected argument 'b.trace' found\n"),
    (["--text", "--text", "--to", "9"], 0, ""),
    (["--worker", "a", "--to", "9"], 0, ""),
    (["--worker", "a", "--worker", "a", "--to", "9"], 0, ""),
    (["--worker", "b", "--to", "9"], 2, "no worker b is declared\n"),
    (["--worker", "E", "--to", "9"], 2, "no worker E is declared\n"),
    (["--worker", "", "--to", "9"], 2, "no worker  is declared\n"),
    (["--object", "a"], 2, "no object a is declared\n"),
    (["--object", "E", "--to", "9"], 0, ""),
    (["--object", "E.", "--to", "9"], 2, "no object E. is declared\n"),
    (
        ["--text", "--object", "F", "--worker", "b", "--object", "E", "--object", "G"],
        2,
        "no worker b is declared\nno object F is declared\nno object G is declared\n",
    ),
    (["--worker"], 2, "error: a value is required for '--worker <NAME>' but none was supplied\n"),
    (["--help"], 0, ""),
    (["--version"], 0, ""),
]
# The same of a trace with no entry, and the notes.
OF_EMPTY = [
    ([], 0, ""),
    (["--text"], 0, ""),
    (["--from", "0"], 0, ""),
    (["--from", "1"], 2, "no entry from 1 on: the trace has 0 entries\n"),
    (["--text", "--to", "7"], 2, "no entry from 0 to 7: the trace has 0 entries\n"),
]


def wrong_options(draw):
    """Yields some options, and what is wrong with what is drawn or reported with them."""
    for words, right, beginning in OF_LONG:
        status, drawn, notes = draw.says(*words, text=LONG)
        good = status == right and notes.startswith(beginning) and bool(notes) == bool(beginning)
        yield f"{words}", None if good and bool(drawn) == (status == 0) else f"{status} {notes}"
    whole, last = (draw.says(*words, "--text", text=LONG)[1] for words in ([], ["--from", "600"]))
    yield "1000 entries", None if whole == last else "not the last 400 are drawn"
    for words, *right in OF_EMPTY:
        status, drawn, notes = draw.says(*words, text=EMPTY)
        good = [status, notes] == right and bool(drawn) == (status == 0)
        yield f"{words} of a trace with no entry", None if good else f"{status} {notes}"


def texts_by_hand():
    """Yields traces for which the rows of `--text` are given by hand: the name, the trace, the options besides
    `--text`, the width of the cells, and the names and the cells of the rows. The first cell is that of the moment
    before the first entry."""
    header = b"evc-trace 1\nlimit 9999\nworkers a b\nsemaphore S %d use a b\nrun\n"
    run_ = b"a ticket S.p = 0\na await S.v 0 = pending\na go = 0\na advance S.v = done\nend\n"
    for initial, width in (999, 4), (1000, 8), (1000000, 8):
        balances = [initial, initial, initial, initial - 1, initial]
        yield (
            f"a semaphore of {initial}",
            header % initial + run_,
            [],
            width,
            [
                ("entry", ["", 0, 1, 2, 3]),
                ("a", ["", "*", "0", "1".rjust(width, "-"), "0"]),
                ("b", [""] * 5),
                ("S.v", [0, 0, 0, 0, 1]),
                ("S.p", [0, 1, 1, 1, 1]),
                ("S", balances),
            ],
        )
    header = b"evc-trace 1\nlimit 10\nworkers a c\neventcount E signal a observe c\nrun\n"
    header += b"a advance E = done\nc read E = 1\n"
    own = [("a", ["", 0, ""]), ("c", ["", "", 0])]
    for line in b"c advance E = done", b"c read E", b"":
        faulty = header + line + b"\nend\n"
        yield f"the line {line}", faulty, [], 4, [("entry", ["", 0, 1, "!"]), *own, ("E", [0, 1, 1, 1])]
        yield f"the line {line}, not shown", faulty, ["--to", "1"], 4, [("entry", ["", 0, 1]), *own, ("E", [0, 1, 1])]
        rows = [("entry", ["", "!"]), ("a", [""]), ("c", [""]), ("E", [1, 1])]
        yield f"only the line {line}", faulty, ["--from", "2"], 4, rows
    for line in b"c read E = 1", b"c read E = 7":
        rows = [("entry", ["", 0, 1, 2]), ("a", ["", 0, "", ""]), ("E", [0, 1, 1, 1])]
        yield f"the line {line}", header + line + b"\nend\n", ["--worker", "a"], 4, rows


def wrong_rows(draw):
    """Yields the name of each of these traces, and what is wrong with its rows."""
    for name, text, options, width, rows in texts_by_hand():
        right = "".join(name.ljust(23) + "".join(str(it).rjust(width) for it in cells) + "\n" for name, cells in rows)
        rows = draw.says("--text", *options, text=text)[1].partition("\n\n")[0] + "\n"
        yield name, None if rows == right else f"rows\n{rows} and not\n{right}"
