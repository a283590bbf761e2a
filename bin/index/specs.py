"""The files `crates/NAME/specs/*.antt`: what each of them brings in and defines, and what a definition cites."""

import os
from dataclasses import dataclass, field

from .antt import TOP, Reader, Scope, Unread, items_of, outside, texts, tokens_of

MARKS = ("pattern", "unfoldable", "abbrev", "axiom", "pub")


@dataclass
class Definition:
    """A definition: its file, its name, its lines, its kind, and its items, the first of which names it."""

    file: str
    name: str
    line: int
    last: int
    kind: str
    items: list = field(default_factory=list)
    constructors: list = field(default_factory=list)


def signed(item):
    """Returns the name and the kind that an item of a file declares, or None if it continues another item."""
    words = [it.text for it in item]
    at = next(at for at, it in enumerate(words) if it not in MARKS)
    if words[at] in ("data", "record"):
        return words[at + 1], words[at]
    after = words.index("}", at) + 1 if words[at + 1 : at + 2] == ["{"] and "}" in words else at + 1
    return (words[at], "function") if words[after : after + 1] == [":"] else None


class File:
    """A file of definitions."""

    def __init__(self, path):
        with open(os.path.join(TOP, path), encoding="utf-8") as text:
            self.lines = text.read().split("\n")
        self.path, self.scope, self.passed, self.definitions = path, Scope(path), Scope(path), {}
        for item in items_of(tokens_of("\n".join(self.lines))):
            self.take(item)
        for it in self.definitions.values():
            self.scope.own[it.name] = it.name
            self.scope.own.update({name: it.name for name in it.constructors})

    def take(self, item):
        words = [it.text for it in item[:3]]
        if "use" in words[:2]:
            self.scope.bring(item)
            if words[0] == "pub":
                self.passed.bring(item)
        elif "mod" not in words[:2] and words[0] not in ("infixl", "infixr", "infix"):
            self.define(item)

    def define(self, item):
        named = signed(item)
        if named:
            self.last = Definition(self.path, named[0], item[0].line, item[-1].line, named[1])
            self.definitions[named[0]] = self.last
            if named[1] == "data":
                fields = fields_of(item)
                self.last.constructors = [it.text for one in fields for it in one[: texts(one).index(":")]]
        elif not self.definitions or item[0].text != "unfolding" and not self.goes_on(item):
            raise Unread(f"{self.path}:{item[0].line}: {item[0].text!r} is not read here")
        self.last.items.append(item)
        self.last.last = item[-1].line

    def goes_on(self, item):
        parts = self.last.name.split("◌")
        return item[0].text == self.last.name or len(parts) > 1 and all(it in texts(item) for it in parts if it)

    def text_of(self, it):
        """Returns the text of a definition, with the comment right above it."""
        first = it.line
        while self.lines[first - 2].startswith("--"):
            first -= 1
        return "\n".join(self.lines[first - 1 : it.last])

    def cited_by(self, it, matches):
        """Returns the paths that a definition cites, in order."""
        reader = Reader(self.scope, matches)
        if it.kind == "function":
            for item in it.items:
                read_function(reader, item, it.name)
        else:
            read_type(reader, it.items[0], it.kind)
        return [path for path in reader.found if path != (it.file, it.name)]


def fields_of(item):
    """Returns the fields of a record, or the constructors of a data type."""
    at = texts(item).index("where") + 1
    return items_of(item[at:], item[at].column) if at < len(item) else []


def levels_of(item, at):
    """Returns the names of the levels in braces right after a name, and the place after them."""
    words = texts(item)
    end = words.index("}", at) + 1 if words[at] == "{" and "}" in words else at
    return ({*words[at:end]}, end) if ":" not in words[at:end] else (set(), at)


def read_type(reader, item, kind):
    bound, start = levels_of(item, texts(item).index(kind) + 2)
    reader.term(item, start, bound, ("where",))
    for one in fields_of(item):
        at = texts(one).index(":")
        reader.term(one, at + 1, set(bound))
        bound |= set(texts(one)[:at]) if kind == "record" else set()


def read_function(reader, item, name, around=frozenset()):
    """Reads one item of a function: its signature, its line `unfolding`, or a clause of it."""
    if item[0].text == "unfolding":
        for it in item[1:]:
            reader.cite(it, around)
    elif signed(item):
        levels, at = levels_of(item, texts(item).index(name) + 1)
        reader.term(item, at + 1, levels | around)
    else:
        read_clause(reader, item, name, around)


def read_clause(reader, item, name, around):
    """Reads a clause, with the local definitions after its `where`."""
    equals, behind = outside(item, "="), outside(item, "where")
    parts = {name, *name.split("◌")}
    bound = around | reader.pattern([it for it in item[:equals] if it.text not in parts])
    local = items_of(item[behind + 1 :], item[behind + 1].column) if behind < len(item) else []
    bound |= {signed(it)[0] for it in local if signed(it)}
    reader.term(item[:behind], equals + 1, set(bound))
    for it in local:
        name = signed(it)[0] if signed(it) else name
        read_function(reader, it, name, frozenset(bound))
