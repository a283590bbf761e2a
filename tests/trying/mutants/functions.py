"""The functions of source files, and those that a mutant changes, or that read what it changes."""

import glob
import os
import re
from dataclasses import dataclass

from trying.mutants.files import read


@dataclass(frozen=True)
class Function:
    """A function of a source file, named by the end of the name that a check prints."""

    file: str
    name: str
    first: int
    last: int
    # Whether it is in a trait, or in an impl of one.
    is_of_trait: bool = False


ITEM = re.compile(
    r"^(?P<indent>[ ]*)(?:pub(?:\([a-z]+\))?[ ]+)?(?:(?:const|unsafe|extern[ ]+\"C\")[ ]+)*"
    r"(?:fn[ ]+(?P<fn>\w+)|impl(?:<[^>]*>)?[ ]+(?P<impl>[^{]*)|trait[ ]+(?P<trait>\w+))"
)


def word_of(type_name):
    """Returns the bare name of a type or a trait: `Board` of `crate::board::Board<'a, A>`."""
    return re.sub(r"<.*", "", type_name.strip().lstrip("&")).split("::")[-1].strip()


def block_name(head):
    """Returns what a check puts before the names of an `impl`'s methods: the type, and the trait if there is one."""
    trait, is_of_trait, type_name = re.sub(r"\bwhere\b.*", "", head).partition(" for ")
    return word_of(type_name) + word_of(trait) if is_of_trait else word_of(trait)


def functions_of(file, text):
    """Returns the functions of a source file, each from its head to the brace that closes it."""
    found, block, block_indent, is_of_trait = [], "", -1, False
    module = os.path.splitext(os.path.basename(file))[0]
    lines = text.split("\n")
    for number, line in enumerate(lines, 1):
        indent = len(line) - len(line.lstrip())
        if block and line.strip() == "}" and indent == block_indent:
            block, block_indent, is_of_trait = "", -1, False
        head = ITEM.match(line)
        if not head:
            continue
        if head["impl"] is not None or head["trait"] is not None:
            block = head["trait"] or block_name(head["impl"])
            block_indent = indent
            is_of_trait = head["trait"] is not None or " for " in head["impl"]
        elif head["fn"]:
            ends = (" " * indent + "}", " " * indent + "{}")
            below = range(number, len(lines) + 1)
            end = next((at for at in below if lines[at - 1].rstrip() in ends), len(lines))
            found.append(Function(file, f"{block or module}::{head['fn']}", number, end, is_of_trait))
    return found


def function_at(file, text, old):
    """Returns the function of the file that the text `old` is in, or None if it is in none."""
    place = text.find(old)
    first = text.count("\n", 0, place + len(old) - len(old.lstrip())) + 1
    inside = [it for it in functions_of(file, text) if it.first <= first <= it.last]
    return inside[-1] if inside else None


def lines_of(folder, function):
    """Returns the lines of a function, with its attributes."""
    lines = read(folder, function.file).split("\n")
    first = function.first
    while lines[first - 2].lstrip().startswith("#["):
        first -= 1
    return lines[first - 1 : function.last]


def changes_type(folder, mutant):
    """Returns whether the mutant changes a type, so that other functions than its own may no longer be proved."""
    outside = [old for file, old, _ in mutant.pairs if not function_at(file, read(folder, file), old)]
    return any(not old.strip().startswith(("///", "const ", '"')) for old in outside)


def readers(folder, constant):
    """Yields the functions of a crate that name a constant."""
    for at, _, files in os.walk(os.path.join(folder, "src")):
        for name in sorted(files):
            file = os.path.relpath(os.path.join(at, name), folder)
            lines = read(folder, file).split("\n")
            for it in functions_of(file, "\n".join(lines)):
                if any(re.search(rf"\b{constant}\b", line) for line in lines[it.first - 1 : it.last]):
                    yield it.name


def reads_by(folder, mutant):
    """Returns the functions that read a constant which the mutant changes."""
    outside = [old for file, old, _ in mutant.pairs if not function_at(file, read(folder, file), old)]
    constants = [found[1] for it in outside if (found := re.match(r"\s*const (\w+)", it))]
    return {name for it in constants for name in readers(folder, it)}


def texts_of_functions(folder):
    """Returns the functions of a crate, except its tests, each with its text."""
    found = []
    for file in sorted(glob.glob(os.path.join(folder, "src", "**", "*.rt"), recursive=True)):
        short = os.path.relpath(file, folder)
        text = read(folder, short)
        if "#[test]" not in text:
            found += [(it, "\n".join(lines_of(folder, it))) for it in functions_of(short, text)]
    return found


def callers(texts, names):
    """Returns these names of functions, and those of all functions that call them, directly or through others."""
    found, more = set(), set(names)
    while more:
        found |= more
        calls = re.compile(rf"\b({'|'.join(map(re.escape, sorted(found)))})\(")
        more = {it.name.split("::")[-1] for it, text in texts if calls.search(text.partition("(")[2])} - found
    return found


def only_function(folder, mutant):
    """Returns the one function that a mutant changes and whose proof has to fail, or None if there is no such one."""
    found = {function_at(file, read(folder, file), old) for file, old, _ in mutant.pairs}
    only = found.pop() if len(found) == 1 else None
    return only if only and mutant.refused_in in ([], [only.name]) else None


def can_have_twin(folder, mutant):
    """Returns whether the function that a mutant changes can be in its file twice: it is of no trait, and is proved by
    itself, not in a cycle with functions that call it."""
    only = only_function(folder, mutant)
    return only is not None and not only.is_of_trait and not any("#[cycle(" in it for it in lines_of(folder, only))
