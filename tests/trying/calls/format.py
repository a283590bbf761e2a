"""A second reading of the format `evc-calls 1`, written from its description only: words, bounds, and kinds of
faults."""

import re

MOST_BYTES = 67108864
MOST_OF_A_LINE = 8192
MOST_LIMIT = 281474976710655
MOST_NUMBER = 999999999999999999
MOST_WORKERS = 16
BOUNDS = {"eventcounts": 32, "sequencers": 32, "cells": 256}

RESERVED = set(
    "advance await both buffer cells consume database done end eventcount get go hand last "
    "limit observe p pboth pending produce put read repeat run schedule semaphore sequencer signal "
    "snapshot take ticket use v worker workers write".split()
)

KINDS = {
    1: "BadHeader",
    2: "BadLine",
    3: "BadName",
    4: "NameTaken",
    5: "UnknownName",
    6: "BadNumber",
    7: "TooMany",
    8: "Hidden",
    9: "TwoRoles",
    10: "NoRight",
    11: "BadOrder",
    12: "Unfinished",
    13: "Busy",
    14: "Idle",
    15: "Unsuited",
    16: "AtLimit",
}

CAUSES = {
    3: "a word is no name",
    4: "a name was used before",
    5: "a name is not declared",
    6: "a number is out of range",
    7: "a table would pass its bound",
    8: "the object belongs to a group",
    9: "one stands in both roles",
    10: "the worker lacks the right",
    11: "the from lines are not in the order of the declarations",
    12: "the text ends too early",
    13: "the call of the worker is pending",
    14: "the worker has no pending call",
    15: "the reply does not suit the call",
    16: "the limit is passed",
}

DIGITS = re.compile(r"0|[1-9][0-9]*")
NAME = re.compile(r"[A-Za-z][A-Za-z0-9_]{0,15}")


def number_of(word):
    """Returns the number that digits represent. More than 18 of them are above every bound."""
    return int(word) if len(word) <= 18 else MOST_NUMBER + 1


def is_digits(word):
    return DIGITS.fullmatch(word) is not None


def is_name(word):
    return NAME.fullmatch(word) is not None and word not in RESERVED


def cause_of(kind, line):
    """Returns why a line has a fault of this kind, in words."""
    if kind not in (1, 2, 3, 5):
        return CAUSES[kind]
    if len(line) > MOST_OF_A_LINE:
        return "more than 8192 bytes"
    if line.startswith(b"\xef\xbb\xbf"):
        return "a byte order mark"
    if line.endswith(b"\r"):
        return "a carriage return at the end"
    if b"\t" in line:
        return "a tab"
    if not line:
        return "an empty line"
    if line.startswith(b" ") or line.endswith(b" ") or b"  " in line:
        return "a space too many"
    if kind == 2:
        return "no line of this form may stand here"
    if kind > 2:
        return CAUSES[kind]
    if line in (b"evc-trace 1", b"evc-trace 2"):
        return "a trace, for evc check"
    if line in (b"evc-script 1", b"evc-script 2"):
        return "a script, for evc sim"
    return "evc-calls 1 is expected"


def note_of(number, kind, line=b""):
    return f"line {number}: {kind} {KINDS[kind]}: {cause_of(kind, line)}"
