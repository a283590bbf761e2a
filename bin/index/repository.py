"""The repository: what a path refers to, what can be called from outside a crate, and what definitions and clauses cite."""

import glob
import os
import re
from dataclasses import replace

from .antt import MATCHED, TOP, Reader, Unread, closing, texts, tokens_of
from .sources import Source
from .specs import File

# The names of the library that a clause uses without a `ghost use` line.
STD = {it: ("Rust", it) for it in ("Some", "None", "Ok", "Err", "Option", "Result", "usize", "u64", "u32", "u8")}
# An impl of a trait, as a clause names it: `⟦<Consume as Procedure>⟧.rest`.
OF_TRAIT = re.compile(r"⟦<(\w+)[^⟧]* as (\w+)[^⟧]*⟧")


class Repository:
    """The crates of crates.txt, and their files. A definition or an item is known by its file and its name there."""

    def __init__(self):
        self.files, self.sources = {}, {}
        with open(os.path.join(TOP, "crates.txt"), encoding="utf-8") as lines:
            self.crates = [re.split(r"[ :]", it)[0] for it in lines if it[0] not in "#\n"]

    def file(self, path):
        """Returns a file of definitions, or None if there is none."""
        if path not in self.files:
            self.files[path] = File(path) if os.path.isfile(os.path.join(TOP, path)) else None
        return self.files[path]

    def source(self, crate, module=()):
        """Returns the source file of a module, or None if there is none."""
        names = ["/".join(module)] if module else ["lib", "main"]
        for path in (f"crates/{crate}/src/{it}.rt" for it in names):
            if path not in self.sources:
                self.sources[path] = Source(path) if os.path.isfile(os.path.join(TOP, path)) else None
            if self.sources[path]:
                return self.sources[path]
        return None

    def sources_of(self, crate):
        """Returns the source files of a crate."""
        top = os.path.join(TOP, "crates", crate, "src")
        paths = (os.path.relpath(it, top) for it in sorted(glob.glob(os.path.join(top, "**", "*.rt"), recursive=True)))
        return [self.source(crate, () if it in ("lib.rt", "main.rt") else tuple(it[:-3].split(os.sep))) for it in paths]

    # What a path of antt refers to

    def locate(self, path):
        """Returns the file and the name that a path refers to, or None if that is the toolchain's."""
        if len(path) == 2 and "/" in path[0]:
            return path
        if path[0] != "Rattle" or path[1] not in self.crates:
            return None
        _, crate, part, *rest = path
        made = rest[0] in ("declared", "contracts")
        found = self.item_of(crate, rest[1:]) if made else self.definition_of(crate, part, rest)
        if found is None:
            raise Unread(f"nothing stands at {'.'.join(path)}")
        return found

    def definition_of(self, crate, part, rest):
        """Returns the definition under this path, even if another file re-exports it, or None."""
        parent, at = self.file(f"crates/{crate}/{part}/Lib.antt"), 0
        while at < len(rest) and (file := self.file(f"crates/{crate}/{part}/{'/'.join(rest[: at + 1])}.antt")):
            parent, at = file, at + 1
        if parent is None or at == len(rest):
            return None
        if rest[at] in parent.passed.modules:
            return self.locate((*parent.passed.modules[rest[at]], *rest[at + 1 :]))
        if rest[at] in parent.scope.own:
            return (parent.path, parent.scope.own[rest[at]])
        return self.locate(parent.passed.items[rest[at]]) if rest[at] in parent.passed.items else None

    def item_of(self, crate, rest):
        """Returns the item that antt has under this path: a type, a constant, or an impl of a trait."""
        module = ()
        while rest and self.source(crate, (*module, rest[0])):
            module, rest = (*module, rest[0]), rest[1:]
        source = self.source(crate, module)
        name = rest[-1 if rest[0] == "TheConstants" else 0] if rest else ""
        return (source.path, name) if source and (name in source.items or source.impl(name)) else None

    # What a path of Rust refers to

    def resolved(self, source, name):
        """Returns the file and the name of the item that a name means in a source file, or None."""
        if name in source.items:
            return (source.path, name)
        return self.item_at(source, source.uses[name][0]) if name in source.uses else None

    def item_at(self, source, words):
        """Returns the item that a path refers to, as it is written in a source file, or None."""
        crate, module, rest = source.crate, source.module, list(words)
        if words[0] in ("crate", "self", "super"):
            module = {"crate": (), "self": module, "super": module[:-1]}[rest.pop(0)]
        elif words[0] in self.crates and not self.source(crate, (*module, words[0])):
            crate, module = rest.pop(0), ()
        while len(rest) > 1 and self.source(crate, (*module, rest[0])):
            module = (*module, rest.pop(0))
        there = self.source(crate, module)
        return self.resolved(there, rest[0]) if there and rest and there is not source else None

    def exported(self, crate):
        """Returns what can be named from outside a crate."""
        found, left = {}, [self.source(crate)]
        for source in left:
            public = [name for name, (_, is_public) in source.uses.items() if is_public]
            found.update({it: None for name in public if (it := self.resolved(source, name))})
            for it in (it for it in source.blocks if it.is_public):
                if it.kind == "mod":
                    left += filter(None, [self.source(crate, (*source.module, it.name))])
                else:
                    found[(source.path, it.name)] = None
        return found

    def public(self, crate):
        """Yields the functions and methods that can be called from outside a crate, by file and line."""
        exported = self.exported(crate)
        for source in self.sources_of(crate):
            for it in source.functions():
                name = it.name.split("::")[0]
                if self.resolved(source, name) in exported:
                    yield it

    # What is cited

    def text_of(self, key):
        """Returns the text of a definition or an item, with the comment above it."""
        file, name = key
        if file.endswith(".rt"):
            return self.sources[file].shown(name)
        return self.file(file).text_of(self.file(file).definitions[name])

    def line_of(self, key):
        """Returns the line at which a definition or an item begins."""
        file, name = key
        if file.endswith(".rt"):
            return (self.sources[file].items.get(name) or self.sources[file].impl(name)).first
        return self.file(file).definitions[name].line

    def cited_by(self, key):
        """Returns what a definition or an item cites, in order: the path if it is the library's, else the file and name."""
        file, name = key
        try:
            if file.endswith(".antt"):
                found = self.file(file).cited_by(self.file(file).definitions[name], self.is_matched)
            else:
                found = self.cited_by_item(self.sources[file], name)
            return [it for it in self.placed(found) if it != key]
        except Unread as why:
            raise Unread(f"{name} of {file}: {why}") from None

    def placed(self, paths):
        """Returns what paths refer to, in order and each once: the path if it is the library's, else the file and name."""
        return list(dict.fromkeys(self.locate(it) or it for it in paths))

    def cited_by_item(self, source, name):
        """Returns what the fields of a type name, or, if it has a Model, what its values in contracts name."""
        item = source.items.get(name) or source.impl(name)
        model = source.impl(f"{name}Model") if item.kind in ("struct", "enum") else None
        if model:
            return self.cited_by_ghosts(source, model, "Value")
        if item.kind in ("impl", "trait"):
            return [*self.items_in(source, source.lines[item.first - 1]), *self.cited_by_ghosts(source, item, r"\w+")]
        text = re.sub(r"//[^\n]*|#\[[^\]]*\]|\"[^\"]*\"", "", source.text_of(item))
        text = re.sub(r"^    \w+", "", text, flags=re.M) if item.kind == "enum" else text
        found = self.items_in(source, text)
        return found if item.kind in ("const", "static") else [it for it in found if not self.is_constant(it)]

    def items_in(self, source, text):
        """Returns the items of this repository that a text of Rust names, in order."""
        found = {}
        for path in re.findall(r"\b(?:\w+::)*[A-Z]\w*\b", text):
            first, *rest = path.split("::")
            words = [*source.uses[first][0], *rest] if rest and first in source.uses else [first, *rest]
            found[self.item_at(source, words) if rest else self.resolved(source, first)] = None
        return [it for it in found if it]

    def is_constant(self, key):
        return key[0].endswith(".rt") and self.sources[key[0]].items[key[1]].kind in ("const", "static")

    def cited_by_ghosts(self, source, item, names):
        """Returns what the ghost members of these names cite, of an impl or a trait."""
        found, text = {}, source.text_of(item)
        bound = {"Self", *re.findall(r"\b[A-Z]\b", source.lines[item.first - 1]), *re.findall(r"^    ghost (\w+)", text, re.M)}
        bound -= {"use"}
        for it in re.finditer(rf"^    ghost (?:{names})(?: =|:) ", text, re.M):
            tokens = tokens_of(text[it.end() :], item.first + text.count("\n", 0, it.end()))
            found.update(self.cited_in(source, tokens[1 : closing(tokens, 0)], bound))
        return list(found)

    def cited_in(self, source, tokens, bound):
        """Returns the paths that a clause cites."""
        if not tokens:
            return {}
        impls = self.impls_in(source, tokens)
        others = lambda name: impls.get(name) or self.resolved(source, name) or STD.get(name)
        reader = Reader(source.scope_at(tokens[0].line, others), self.is_matched)
        reader.term(joined(tokens), 0, set(bound))
        return reader.found

    def impls_in(self, source, tokens):
        """Returns the impls that tokens name, each by its type and trait."""
        found = {}
        for it in OF_TRAIT.finditer(" ".join(texts(tokens))):
            crate = (self.resolved(source, it[1]) or (source.path,))[0].split("/")[1]
            name = it[1] + it[2]
            there = next((one for one in self.sources_of(crate) if one.impl(name)), None)
            found[f"⟦{name}⟧"] = (there.path, name) if there else None
        return found

    def cited_by_clause(self, function, clause):
        """Returns what a clause of a contract cites, as `cited_by` does. `clause` is its tokens."""
        source, names = function.source, set(re.findall(r"(\w+)(?= ?:)", function.head))
        names |= {"result", "self", "Self", *re.findall(r"\b[A-Z]\b", function.head)}
        names |= {name for kind, name, _ in function.clauses if kind == "ghost"}
        block = source.block_at(function.line)
        if block:
            names |= set(re.findall(r"\b[A-Z]\b", source.lines[block.first - 1]))
        if block and block.kind == "trait":
            names |= set(re.findall(r"^    ghost (\w+)", source.text_of(block), re.M))
        return self.placed(self.cited_in(source, clause, names))

    def is_matched(self, path):
        """Returns whether a pattern that names what is at a path matches it, and binds nothing."""
        found = self.locate(path)
        if found is None:
            return path[-1] in MATCHED or path[-1][:1].isupper()
        return found[0].endswith(".rt") or self.file(found[0]).definitions[found[1]].kind == "data"


def joined(tokens):
    """Returns the tokens, with each name of an impl of a trait joined into one."""
    found, inside = [], []
    for it in tokens:
        if inside or it.text.startswith("⟦<"):
            inside.append(it)
        else:
            found.append(it)
        if inside and "⟧" in it.text:
            name = OF_TRAIT.sub(r"⟦\1\2⟧", " ".join(texts(inside)))
            found.append(replace(inside[0], text=name))
            inside = []
    return found
