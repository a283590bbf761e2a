"""The pages of the package: man pages with their tables, and links."""

import importlib.machinery
import importlib.util
import os
import re

from trying.files import TOP


def read(*path):
    with open(os.path.join(*path), encoding="utf-8") as text:
        return text.read()


def cells_of(row):
    """Returns the cells of a row of a table, as plain text."""
    plain = re.sub(r"`|\*\*|\[([^]]*)\]\([^)]*\)", r"\1", row)
    return [it.strip() for it in plain.strip("|").split("|")]


def missing_in(source, page):
    """Yields the cells of the tables that the source of a man page names, and that the page doesn't have."""
    lines = re.sub(r"\\f[BR]|\\&", "", page).replace("\\-", "-").replace("\\e", "\\").split("\n")
    for place, columns, head in re.findall(r'^\.\\" TABLE (\S+) ([\d,]*) ?(\|.*)$', source, re.M):
        _, rows = f"\n{read(TOP, place)}".split(f"\n{head}\n")
        chosen = [int(it) - 1 for it in columns.split(",")] if columns else range(len(cells_of(head)))
        for row in rows.split("\n\n")[0].strip().split("\n")[1:]:
            for i in chosen:
                cell, name = cells_of(row)[i], cells_of(head)[i]
                if cell not in lines and f"{name}: {cell}" not in lines and cell:
                    yield cell


def try_tables(place, pages, count):
    sources = {f"{it}.gz": it for it in os.listdir(os.path.join(TOP, "package"))}
    for page in pages:
        source = read(TOP, "package", sources[os.path.basename(page)])
        missing = [*missing_in(source, place.ran(f"zcat {{usr}}/share/man/{page}")[1])]
        count.expect(not missing, f"{page} has not {missing}")


def try_links(place, count):
    docs, found, links = os.path.join(place.root, "usr/share/doc/evc"), [], script_of_pages().links
    for folder, _, names in os.walk(docs):
        for page in (os.path.join(folder, it) for it in names if it.endswith(".md")):
            targets = {os.path.join(folder, it.partition("#")[0]) for it in links(read(page))}
            found += [f"{os.path.relpath(page, docs)}: nothing is at {it}" for it in targets if not os.path.exists(it)]
    count.expect(not found, "\n".join(found))


def set_pages(place, count):
    status, said = place.ran("cd {usr}/share/man && find . -type f -name '*evc*.gz'")
    pages = sorted(said.split())
    count.expect(status == 0 and len(pages) >= 11, f"there are {len(pages)} man pages")
    try_tables(place, pages, count)
    if not place.has("man"):
        print("man pages are not set: this machine has no man")
        return
    status, said = place.ran("man -l {usr}/share/man/man3/evc_calls_check.3.gz")
    count.expect(status == 0 and "evc_calls_check" in said, f"the page of evc_calls_check: {said}")
    for page in pages:
        status, said = place.ran(f"man --warnings -E UTF-8 -l -Tutf8 -Z {{usr}}/share/man/{page} 2>&1 >page")
        count.expect(status == 0 and not said, f"{page}: {said}")


def script_of_pages():
    """Returns the script tests/pages as a module."""
    loader = importlib.machinery.SourceFileLoader("pages", str(TOP / "tests" / "pages"))
    module = importlib.util.module_from_spec(importlib.util.spec_from_loader(loader.name, loader))
    loader.exec_module(module)
    return module
