"""How pages are written, for tests/pages: the words of the field, short sentences, no history of the code, figures only
on the pages for them, names that name something, and pages of at most their size.

Each check yields what is wrong. CONTRIBUTING.md has the rules."""

import os
import re

from trying.files import TOP, read

# Words that pages don't use, and those that they use in their place.
WORDS = {
    r"told|tells": "returns, reports, says",
    r"fronts?": "prefix",
    r"want of memory": "out of memory",
    r"refus\w+ (an? |the |each )?(traces?|scripts?|files?|texts?|histor(y|ies)|inputs?|allocations?|mutants?)": "rejects, fails",
    r"(traces?|scripts?|files?|texts?|histor(y|ies)|inputs?|allocations?|mutants?) (is|are|was|were) refused": "rejected, failed",
    r"refused (traces?|scripts?|files?|texts?|histor(y|ies)|inputs?|allocations?|mutants?)": "rejected, failed, killed",
    r"st(ands?|ood) (on|for|in|at)": "depends on, represents, is in",
    r"pasts": "history so far",
    r"finished (calls?|gets?|reads?|awaits?|try|tries|P|V)": "completed",
    r"under way": "pending",
    r"finished-before": "real-time order",
    r"legal orders?": "linearization",
    r"laws?": "theorem",
    r"wrong bod(y|ies)": "mutant",
    r"worked (rows?|histor(y|ies))": "golden test, example",
    r"whole lists?": "complete call sequence",
    r"guarded parts?": "critical section",
    r"silent": "read-only",
    r"headings?": "header",
    r"outlines?": "syntax tree",
    r"vocabular(y|ies)": "symbol table",
    r"spell(s|ed|ings?)?": "writes, encoding",
    r"go(es)? past": "is streamed",
    r"walk(s|ed|ing)?": "passes over",
    r"seats?|stuck": "worker status, deadlocked",
    r"behind": "after",
    r"beside": "compared with, in addition to",
    r"anew": "again",
    r"mostly": "usually",
    r"just(?! (before|after|below|above))": "exactly, only",
    r"alone": "only, by itself",
    r"(of|by) whom|, (of|by) which": "turn the sentence round",
    r"wanted": "target",
    r"by the clock": "wall-clock",
    r"yardsticks?": "baseline",
    r"dear(er)?": "expensive",
    r"hold of the lock": "critical section",
}
# Words at the beginning of a sentence or a clause.
OPENERS = {
    r"Where (a|an|the|no|it|there|that|one|all|each|they|more|less|none|some|nothing)": "If",
    r"Else|, else": "Otherwise",
    r"Nor": "turn the sentence round",
}
# Phrases that say how something was before. Only a change log has them.
HISTORY = [
    r"(an|the) (earlier|older|previous|former) (version|form)",
    r"in the past",
    r"once (it|they|this|there) (was|were|had|took|stood)",
    r"(formerly|previously|since then)",
    r"(was|were) once",
    r"used to (be|have|take|stand)",
]
# Pages of figures.
FIGURES = ("docs/REFERENCE.md", "docs/PERFORMANCE.md")
# How many words a sentence may have.
LONGEST = 30
# How many KB each page may have, those of a folder together, and all.
SIZES = {
    "README.md": 6,
    "docs/GUIDE.md": 9,
    "docs/RECORDING.md": 10,
    "docs/REFERENCE.md": 18,
    "docs/GALLERY.md": 5,
    "docs/COMPARISON.md": 2.5,
    "docs/LIBRARY.md": 8,
    "docs/THEORY.md": 19.5,
    "docs/GUARANTEES.md": 10.5,
    "docs/DESIGN.md": 9,
    "CONTRIBUTING.md": 6,
    "docs/PERFORMANCE.md": 3,
    "docs/GLOSSARY.md": 2.5,
    "examples/real/README.md": 4,
    "crates/": 13,
    "package/": 14,
}
ALL = 132


def files():
    """Yields the files of the repository, as paths from its top."""
    for folder, folders, names in os.walk(TOP):
        folders[:] = sorted(it for it in folders if it not in (".git", "out", "release", "__pycache__"))
        yield from (os.path.relpath(os.path.join(folder, it), TOP) for it in sorted(names))


def pages():
    """Returns the pages: those in Markdown, and the sources of man pages."""
    return [it for it in files() if re.search(r"\.md$|^package/.*\.[135]$|^CITATION\.cff$", it)]


def plain(text):
    """Returns a page in Markdown without blocks of code. Code within a line becomes a word."""
    text = re.sub(r"^```.*?^```$|<!--.*?-->", "", text, flags=re.M | re.S)
    text = re.sub(r"(?<=\n\n)(?:    .*\n+)+", "", text)
    text = re.sub(r"!\[([^]]*)\]\([^)]*\)|\[([^]]*)\]\([^)]*\)", r"\1\2", text)
    return re.sub(r"`[^`\n]*`", "code", text)


def plain_manual(text):
    """Returns the source of a man page without its requests and its blocks of code."""
    text = re.sub(r"^\.nf$.*?^\.fi$", "\n", text, flags=re.M | re.S)
    text = re.sub(r'^\.(\\".*|TH.*|SH.*|TP.*|PP.*|br.*)$', "\n", text, flags=re.M)
    text = re.sub(r"^\.[BIR]+ ", "", text, flags=re.M)
    return re.sub(r'\\[-~]|\\f[BIR]|"', lambda it: "-" if it[0] == "\\-" else "", text)


def prose(page):
    return plain_manual(read(page)) if page.startswith("package/") else plain(read(page))


def sentences(text):
    """Yields the sentences of plain text. A table, a heading and each item of a list end one."""
    text = re.sub(r"^(\|.*|#.*)$", "\n", text, flags=re.M)
    text = re.sub(r"^ *([-*]|\d+\.) ", "\n\n", text, flags=re.M)
    for part in re.split(r"\n\s*\n", text):
        yield from (it for it in re.split(r"(?<=[.!?])[)\"*_]*\s+", part.strip()) if it)


def faults_of_words(page):
    text = re.sub(r"[\w/.-]+\.(rt|antt|md|rs|c|h|rows)\b", "file", prose(page))
    checks = [*((rf"\b({it})\b", to, re.I) for it, to in WORDS.items())]
    checks += [(rf"(?:^|(?<=[.;:] )|(?<=\| ))({it})\b", to, re.M) for it, to in OPENERS.items()]
    if page != "CHANGELOG.md":
        checks += [(rf"\b({it})\b", "no page says how it was", re.I) for it in HISTORY]
    for pattern, better, flags in checks:
        for it in re.finditer(pattern, text, flags):
            near = " ".join(text[max(0, it.start() - 30) : it.end() + 20].split())
            yield f"{page}: '{it[0]}': {better} ({near})"


def faults_of_sentences(page):
    for it in sentences(prose(page)):
        number = len(it.split())
        if number > LONGEST:
            yield f"{page}: {number} words in '{' '.join(it.split()[:9])} ..'"


def faults_of_figures(page):
    if page not in FIGURES and not page.startswith("package/"):
        for it in re.findall(r"\b\d{5,}\b", prose(page)):
            yield f"{page}: the figure {it} belongs to docs/REFERENCE.md or docs/PERFORMANCE.md"


def words_of_sources():
    """Returns all words of the files that are no pages, and the names of files and folders."""
    found = set()
    for path in files():
        found.update(re.findall(r"\w+", path))
        if not path.endswith(".md"):
            try:
                found.update(re.findall(r"\w+", read(path)))
            except UnicodeDecodeError:
                pass
    return found


def faults_of_names(page, known):
    """Looks for code within lines that names nothing: words, paths of Rust, and paths of files."""
    if page.startswith("package/"):
        return
    text = re.sub(r"^```.*?^```$", "", read(page), flags=re.M | re.S)
    for it in re.findall(r"`([A-Za-z_][\w:]{3,})`", text):
        missing = [word for word in it.split("::") if len(word) > 3 and word not in known]
        if missing:
            yield f"{page}: nothing is named {missing[0]}"
    for it in re.findall(r"`((?:bin|bench|crates|docs|examples|library|package|recorder|release|tests)/[\w./-]*)`", text):
        if not re.search(r"\b[A-Z]+\b(?!\.md)", it) and not os.path.exists(os.path.join(TOP, it)):
            yield f"{page}: nothing is at {it}"


def faults_of_sizes():
    sizes = {it: len(read(it).encode()) for it in pages()}
    for name, bound in SIZES.items():
        size = sum(number for page, number in sizes.items() if page == name or name[-1] == "/" and page.startswith(name))
        if size > bound * 1024:
            yield f"{name} has {size} bytes, and at most {bound} KB are meant for it"
    whole = sum(sizes.values())
    if whole > ALL * 1024:
        yield f"the pages have {whole} bytes, and at most {ALL} KB are meant for them"


def faults(page, known):
    """Yields what is wrong with a page."""
    if page != "CITATION.cff":
        yield from faults_of_words(page)
        yield from faults_of_sentences(page)
        yield from faults_of_figures(page)
        yield from faults_of_names(page, known)
