"""The files `crates/NAME/src/*.rt`: their items, and the contracts of their functions.

It reads the layout of `rt fmt`, in which each item of a module begins in the first column.
"""

import os
import re
import sys
from dataclasses import dataclass, field

from .antt import TOP, Scope, closing, texts, tokens_of

sys.path.insert(0, os.path.join(TOP, "tests"))
from trying.mutants.files import read
from trying.mutants.functions import block_name, functions_of

HEAD = re.compile(
    r"(?P<pub>pub )?(?:pub\([^)]*\) )?(?:const (?=fn)|unsafe |extern \"C\" )*"
    r"(?P<kind>struct|enum|union|trait|type|const|static|fn|mod|impl)\b(?:<[^>]*>)? *(?P<name>[^{;=]*)"
)
USE = re.compile(r"^(pub )?use ([^;]*);", re.M)
GHOST_USE = re.compile(r"^( *)ghost (use [^;]*);", re.M)


@dataclass
class Item:
    """An item of a module: a type, a constant, a function, or an impl, which is named as `block_name` says."""

    kind: str
    name: str
    is_public: bool
    first: int
    last: int


@dataclass
class Function:
    """A public function or method, and its contract: the kind, the name and the tokens of each clause."""

    source: object
    name: str
    line: int
    comment: str
    head: str
    clauses: list = field(default_factory=list)
    is_empty: bool = False

    def path(self):
        return "::".join([self.source.crate, *self.source.module, self.name])

    def contract(self):
        """Returns the lines of its contract."""
        below = self.source.lines[self.line - 1 :]
        first = next(at for at, it in enumerate(below) if re.match(r"\s+(requires|ensures|ghost)\b", it))
        last = next(at for at, it in enumerate(below) if at > first and it.strip() in ("{", "{}") or it.endswith(";"))
        return below[first : last + below[last].endswith(";")]

    def sentence(self):
        """Returns the first sentence of its comment."""
        return re.split(r"(?<=[^.][.!?])\s", self.comment + " ")[0].strip()


def leaves(text):
    """Returns what a `use` line of Rust brings in, as pairs of a name and its path."""
    base, brace, rest = text.partition("{")
    if not brace:
        path, _, name = (it.strip() for it in text.partition(" as "))
        words = path.split("::")
        words = words[:-1] if words[-1] == "self" else words
        return [(name or words[-1], words)] if path else []
    found, depth, start = [], 0, 0
    inside = rest[: rest.rindex("}")] + ","
    for at, it in enumerate(inside):
        depth += (it == "{") - (it == "}")
        if it == "," and depth == 0:
            part, start = inside[start:at].strip(), at + 1
            found += leaves(base.strip() + part) if part else []
    return found


def last_of(lines, at, kind):
    """Returns the last line of the item whose head is this line."""
    if lines[at - 1].rstrip().endswith((";", "}")):
        return at
    for below in range(at + 1, len(lines) + 1):
        line = lines[below - 1]
        if line.startswith(("}", "{}")) or kind in ("const", "static", "type") and line.endswith(";"):
            return below
    return len(lines)


class Source:
    """A source file."""

    def __init__(self, path):
        self.path = path
        _, self.crate, _, inside = path.split("/", 3)
        self.module = tuple(it for it in inside[: -len(".rt")].split("/") if it not in ("lib", "main"))
        self.text = read(TOP, path)
        self.lines = self.text.split("\n")
        self.blocks = [self.item(head, at) for at, it in enumerate(self.lines, 1) if (head := HEAD.match(it))]
        self.items = {it.name: it for it in self.blocks if it.kind != "impl"}
        self.uses = {name: (way, bool(it[1])) for it in USE.finditer(self.text) for name, way in leaves(it[2])}

    def item(self, head, at):
        name = head["name"].strip()
        name = block_name(name) if head["kind"] == "impl" else re.match(r"\w*", name)[0]
        return Item(head["kind"], name, bool(head["pub"]), at, last_of(self.lines, at, head["kind"]))

    def impl(self, name):
        return next((it for it in self.blocks if it.kind == "impl" and it.name == name), None)

    def text_of(self, item):
        return "\n".join(self.lines[item.first - 1 : item.last])

    def shown(self, name):
        """Returns an item with its comment. If a type has a Model, its values in contracts replace its fields."""
        item = self.items.get(name) or self.impl(name)
        model = self.impl(f"{name}Model") if item.kind in ("struct", "enum") else None
        comment = re.findall(r"^ *///.*$", "\n".join(self.lines[self.above(item.first) - 1 : item.first - 1]), re.M)
        text = self.text_of(item)
        if model or item.kind == "impl":
            member = "Value" if model else r"(?!use\b)\w+"
            ghosts = re.findall(rf"^    ghost {member} = .*?;$", self.text_of(model or item), re.M | re.S)
            head = self.lines[(model or item).first - 1]
            text = "\n".join([*([] if model is None else [re.sub(r" *[{(;].*", ";", text.split("\n")[0])]), head, *ghosts, "}"])
        return "\n".join([*comment, text])

    def above(self, line):
        """Returns the first line of the comment and the attributes above an item."""
        inside = False
        while line > 1:
            text = self.lines[line - 2].strip()
            if not (inside or text.startswith(("//", "#[")) or text.endswith(")]")):
                break
            inside = not text.startswith(("#[", "//")) and (inside or text.endswith(")]"))
            line -= 1
        return line

    def comment_above(self, line):
        """Returns the comment above an item, in one line."""
        lines = (it.strip() for it in self.lines[self.above(line) - 1 : line - 1])
        return " ".join(it[3:].strip() for it in lines if it.startswith("///"))

    def block_at(self, line):
        return next((it for it in self.blocks if it.kind in ("impl", "trait") and it.first <= line <= it.last), None)

    def scope_at(self, line, others):
        """Returns what the clauses at a line may cite: the `ghost use` lines of the file, and of the block around it."""
        block, scope = self.block_at(line), Scope(self.path, others=others)
        for it in GHOST_USE.finditer(self.text):
            at = self.text.count("\n", 0, it.start()) + 1
            if not it[1] or block and block.first <= at <= block.last:
                scope.bring(tokens_of(it[2]))
        return scope

    def functions(self):
        """Yields the functions that are public in their module or block, and those of traits."""
        inside = os.path.join("src", *self.path.split("/")[3:])
        for it in functions_of(inside, self.text):
            block = self.block_at(it.first)
            is_of_trait = block is not None and block.kind == "trait"
            if is_of_trait or not it.is_of_trait and self.lines[it.first - 1].strip().startswith("pub "):
                name = it.name.split("::")[-1]
                yield self.function(f"{block.name}::{name}" if block else name, it)

    def function(self, name, it):
        head, clauses, rest = contract_of("\n".join(self.lines[it.first - 1 : it.last]), it.first)
        return Function(self, name, it.first, self.comment_above(it.first), head, clauses, rest == ["{", "}"])


def contract_of(text, line):
    """Returns the signature of a function, its clauses, and the tokens after them."""
    tokens, at, clauses, start = tokens_of(text, line), 0, [], None
    while at < len(tokens) and tokens[at].text not in ("{", ";"):
        word = tokens[at].text.rstrip("*")
        if word in ("requires", "ensures", "ghost"):
            start = at if start is None else start
            opens = next(it for it in range(at, len(tokens)) if tokens[it].text == "{")
            end = closing(tokens, opens)
            name = tokens[opens - 1].text.rstrip(":") if opens > at + 1 else ""
            clauses.append((word, name, tokens[opens + 1 : end]))
            at = end
        at += 1
    return " ".join(texts(tokens[: at if start is None else start])), clauses, texts(tokens[at:])
