"""The files of mutants. The head of tests/mutants.py has their format."""

import os
from dataclasses import dataclass, field


@dataclass
class Mutant:
    """One mutant of a crate."""

    crate: str
    name: str
    # The name of its file in must-fail/, without the ending.
    edit: str
    # What it changes, in order: (file, old text, new text).
    pairs: list = field(default_factory=list)
    # The functions whose proofs have to fail, if these are not the changed ones.
    refused_in: list = field(default_factory=list)
    # 0 if it is put into the function that it changes, otherwise the number of the twin that it is put into.
    twin: int = 0


class BadMutant(Exception):
    """A mutant that can't be tried, and why."""


def names_of_files(folder):
    """Returns the names of a crate's files of mutants, without their ending."""
    place = os.path.join(folder, "must-fail")
    names = os.listdir(place) if os.path.isdir(place) else []
    return sorted(it.removesuffix(".edit") for it in names if it.endswith(".edit"))


def mutants_in(folder, edit):
    """Returns the mutants of one file, in order."""
    crate = os.path.basename(folder)
    found, file, old = [], None, None
    with open(os.path.join(folder, "must-fail", f"{edit}.edit"), encoding="utf-8") as text:
        lines = text.read().split("\n")
    if not any(it.startswith("body: ") for it in lines):
        found.append(Mutant(crate, edit, edit))
    for line in lines:
        word, _, rest = line.partition(": ")
        if word == "body":
            found.append(Mutant(crate, rest.strip(), edit))
        elif word == "file":
            file = rest.strip()
        elif word == "old":
            old = rest
        elif word == "refused-in":
            found[-1].refused_in.append(rest.strip())
        elif line == "new:" or word == "new":
            found[-1].pairs.append((file, old, rest))
    return found


def mutants_of(folder):
    """Returns all mutants of a crate. Two of one name are an error."""
    found = [mutant for name in names_of_files(folder) for mutant in mutants_in(folder, name)]
    names = [it.name for it in found]
    twice = sorted({it for it in names if names.count(it) > 1})
    if twice:
        raise BadMutant(f"{os.path.basename(folder)} has two mutants named {', '.join(twice)}")
    return found


def read(folder, file):
    with open(os.path.join(folder, file), encoding="utf-8") as text:
        return text.read()
