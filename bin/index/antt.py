"""The language of definitions and clauses: its tokens, what a text has in scope, and what a term cites.

It reads the part of antt that this repository writes, with its scopes: a name that a binder, a pattern or a field binds
cites nothing, and each other name has to be brought in by a `use` line, or be antt's own. If it can't read a text,
it raises `Unread`: it skips nothing.
"""

import os
import re
from dataclasses import dataclass, field

TOP = os.path.realpath(os.path.join(os.path.dirname(os.path.realpath(__file__)), "..", ".."))
# What antt has without a `use` line: its own words, and the names of its prelude.
WORDS = set("→ × ↦ = | : ] ⊔ Type record elim as unfold in ? _ « »".split())
PRELUDE = set("Unit tt ⊥ absurd ¬ refl cc omega grind search simp rw".split())
# The names of the library that a pattern matches and does not bind, besides all that begin with a capital.
MATCHED = set("zero suc [] true false inl inr tt refl pos negsuc ◌∷◌".split())
NAME = r"«?[^\s(){}.;,@\"«»]+»?"
TOKEN = re.compile(
    rf"(?P<gap>\s+|--[^\n]*|\{{-.*?-\}})|(?P<text>\"(?:\\.|[^\"\\])*\")|(?P<field>(?<=\))(?:\.{NAME})+)"
    rf"|(?P<name>{NAME}(?:\.{NAME})*)|(?P<mark>.)",
    re.S,
)


class Unread(Exception):
    """A text that can't be read, or a name that refers to nothing, and its place."""


@dataclass(frozen=True)
class Token:
    kind: str
    text: str
    line: int
    column: int


def tokens_of(text, line=1):
    """Returns the tokens of a text, without comments."""
    found, start = [], 0
    for it in TOKEN.finditer(text):
        if it.lastgroup != "gap":
            found.append(Token(it.lastgroup, it[0].replace("«", "").replace("»", ""), line, it.start() - start))
        if "\n" in it[0]:
            line, start = line + it[0].count("\n"), it.start() + it[0].rindex("\n") + 1
    return found


def items_of(tokens, column=0):
    """Cuts tokens into items, each of which begins in this column outside of brackets."""
    found, depth = [], 0
    for it in tokens:
        if not found or it.column == column and depth == 0 and it.line != found[-1][-1].line:
            found.append([])
        depth += (it.text in "({") - (it.text in ")}")
        found[-1].append(it)
    return found


def closing(tokens, at):
    """Returns the place of the bracket that closes the one at this place."""
    depth = 0
    for end in range(at, len(tokens)):
        depth += (tokens[end].text in "({") - (tokens[end].text in ")}")
        if depth == 0:
            return end
    raise Unread(f"line {tokens[at].line}: nothing closes this bracket")


def outside(item, word):
    """Returns the first place of a word outside of brackets, or the end."""
    depth = 0
    for at, it in enumerate(item):
        depth += (it.text in "({") - (it.text in ")}")
        if it.text == word and depth == 0:
            return at
    return len(item)


def uses_of(tokens):
    """Returns what a `use` line brings in: each name with its full path, and whether that is a module's."""
    words = [it.text for it in tokens if it.text not in ("pub", "use", "unfoldable", "ghost")]
    base, found, rest = words[0].split("."), [], words[1:]
    if rest[:1] != ["."]:
        return [(rest[1] if rest[:1] == ["as"] else base[-1], tuple(base), True)]
    for leaf in " ".join(rest[2:-1]).split(","):
        parts = leaf.split()
        if parts:
            path = parts[0].split(".")
            found.append((parts[2] if parts[1:2] == ["as"] else path[-1], (*base, *path), False))
    return found


@dataclass
class Scope:
    """What a text may cite: names and modules, each with its full path, and what its own file defines."""

    file: str
    items: dict = field(default_factory=dict)
    modules: dict = field(default_factory=dict)
    own: dict = field(default_factory=dict)
    # A function that resolves other names to paths: for a clause, those that Rust has in scope there.
    others: object = None

    def bring(self, tokens):
        for name, path, is_module in uses_of(tokens):
            (self.modules if is_module else self.items)[name] = path

    def with_operators(self):
        """Returns the parts of the operators in scope, each with the names of its operators."""
        found = {}
        for name in (*self.items, *self.own):
            for part in name.split("◌") if "◌" in name else ():
                found.setdefault(part, set()).add(name)
        return found

    def path_of(self, name):
        """Returns the path that a name refers to, or None if nothing brings it in."""
        head, *rest = name.split(".")
        if head in self.own:
            return (self.file, self.own[head])
        if head in self.items and not (rest and head in self.modules):
            return self.items[head]
        if head in self.modules and rest:
            return (*self.modules[head], *rest)
        if head in ("Rattle", "Prim"):
            return (head, *rest)
        return self.others(head) if self.others else None


def texts(tokens):
    return [it.text for it in tokens]


class Reader:
    """Reads terms, and notes the paths that they cite. `matches` says if a pattern matches what a path refers to."""

    def __init__(self, scope, matches):
        self.scope, self.matches, self.parts = scope, matches, scope.with_operators()
        self.found = {}

    def cite(self, token, bound):
        """Notes what a token cites, unless it is one of antt's own words or names something that is bound."""
        name = token.text
        head = name.split(".")[0]
        if token.kind != "name" or head in bound or name in WORDS or re.match(r"\d|\?", name):
            return
        operators = self.parts.get(name.replace("◌", ""), ())
        path = self.scope.path_of(name)
        if path is None and len(operators) == 1:
            path = self.scope.path_of(*operators)
        if path is None and head in PRELUDE:
            path = ("Prim", head)
        if path is None:
            several = f", but for a part of {', '.join(sorted(operators))}" if operators else ""
            raise Unread(f"{self.scope.file}:{token.line}: nothing brings in {name!r}{several}")
        self.found[path] = None

    def term(self, tokens, at, bound, stops=()):
        """Reads a term up to one of these tokens, and returns the place of that. Adds names that it binds to `bound`."""
        while at < len(tokens) and tokens[at].text not in stops:
            word = tokens[at].text
            if word == "λ":
                at = self.binders(tokens, at + 1, bound)
            elif word == "let":
                at = self.binding(tokens, at + 1, bound)
            elif word in ("(", "{"):
                at = self.group(tokens, at, bound)
            elif word == "[":
                at = self.cases(tokens, at + 1, bound)
            elif word in ("do", "where", "open", "∀", "module", "mutual"):
                raise Unread(f"{self.scope.file}:{tokens[at].line}: {word!r} is not read here")
            else:
                self.cite(tokens[at], bound)
                at += 1
        return at

    def group(self, tokens, at, bound):
        """Reads what is in brackets: a binder of names, whose scope continues after it, or terms and fields."""
        close, names = ")}"[tokens[at].text == "{"], at + 1
        while tokens[names].kind == "name" and tokens[names].text not in WORDS | {"let", "λ"}:
            names += 1
        if names > at + 1 and tokens[names].text == ":":
            end = self.term(tokens, names + 1, set(bound), (close,))
            bound |= {it.text for it in tokens[at + 1 : names]}
            return end + 1
        at += 1
        while tokens[at].text != close:
            if close == "}" and tokens[at + 1].text == "=":
                at += 2
            at = self.term(tokens, at, set(bound), (close, ",", ";"))
            at += tokens[at].text in ",;"
        return at + 1

    def binders(self, tokens, at, bound):
        """Reads the binders of a λ, and returns the place after its dot."""
        while tokens[at].text != ".":
            if tokens[at].text == "(" and tokens[at + 2].text != ",":
                at = self.group(tokens, at, bound)
            else:
                bound |= {tokens[at].text} - set("(){},")
                at += 1
        return at + 1

    def binding(self, tokens, at, bound):
        """Reads one binding of a `let`, and returns the place after its `in`."""
        names = set()
        while tokens[at].text not in (":", "="):
            names |= {tokens[at].text} - set("(),")
            at += 1
        if tokens[at].text == ":":
            at = self.term(tokens, at + 1, set(bound), ("=",))
        at = self.term(tokens, at + 1, set(bound), ("in",))
        bound |= names
        return at + 1

    def cases(self, tokens, at, bound):
        """Reads the cases of an `elim`, and returns the place after its bracket."""
        while tokens[at].text != "]":
            end = next(it for it in range(at, len(tokens)) if tokens[it].text in ("↦", "]"))
            if tokens[end].text == "]":
                return end + 1
            inside = bound | self.pattern(tokens[at:end], bound)
            at = self.term(tokens, end + 1, inside, ("|", "]"))
            at += tokens[at].text == "|"
        return at + 1

    def pattern(self, tokens, bound=()):
        """Notes the constructors of patterns, and returns the names that they bind."""
        names = set()
        for at, it in enumerate(tokens):
            if it.kind != "name" or it.text == "=" or tokens[at + 1 : at + 2] and tokens[at + 1].text == "=":
                continue
            path = self.scope.path_of(it.text)
            if self.parts.get(it.text) or "." in it.text or path and self.matches(path):
                self.cite(it, ())
            elif not re.match(r"\d|_$", it.text):
                names.add(it.text)
        return names
