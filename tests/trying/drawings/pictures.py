"""Reads the pictures of traces: as SVG, and as text."""

import re
import xml.etree.ElementTree as tree

from trying.counting import Fault

SPACE = "{http://www.w3.org/2000/svg}"
TITLE = re.compile(r"(.*), entries (\d+) to (\d+), point (\d+)")


def heights_of(path, foot, low, high):
    """Returns the numbers of a curve. Its least is `low`, at the height `foot`, and its greatest is `high`."""
    span = max(high - low, 1)
    rises = {52 * n // span: low + n for n in range(span + 1)}
    return [rises[foot - int(path[at + 1])] for at in range(3, len(path), 4)]


def drawn(picture):
    """Returns the calls of a picture, as the lines of `check`, the last count of each curve, how many entries and
    pending calls it has, the labels of the dots, the names of the rows, and the findings: arrows and shades with their
    columns, and balances."""
    top = tree.fromstring(picture)
    calls, begun, marks = [], 0, []
    arrows, shades = [], []
    for group in top.iter(SPACE + "g"):
        if group.get("class") == "version":
            bar = group.find(SPACE + "rect")
            shades.append((group.find(SPACE + "title").text, int(bar.get("x")), int(bar.get("width"))))
            continue
        if group.get("class") == "delivery":
            path = group.find(SPACE + "path").get("d").split()
            arrows.append((group.find(SPACE + "title").text, int(path[1]), int(path[6])))
            continue
        title = TITLE.fullmatch(group.find(SPACE + "title").text)
        if not title:
            begun += 1
            continue
        text, first, last, point = title[1], *map(int, title.groups()[1:])
        calls.append(f"{point} {text}")
        bar = group.find(SPACE + "rect")
        if int(bar.get("x")) != 139 + 84 * first or int(bar.get("width")) != 84 * (last + 1 - first) - 6:
            raise Fault(f"the bar of {title[0]} stands at {bar.attrib}")
        marks.append(136 + 84 * point + (42 if first == last else 0))
    paths = [it.get("d").split() for it in top.iter(SPACE + "path") if it.get("class") == "mark"]
    if [int(it[1]) for it in paths] != marks:
        raise Fault("the marks don't stand at the points")
    texts = [it for it in top.iter(SPACE + "text")]
    classes = [(it.get("class") or "").split(" ")[0] for it in texts]
    rows = [it.text for at, it in enumerate(texts) if classes[at] == "name" and classes[at + 1 : at + 2] != ["count"]]
    entries = classes.count("entry")
    dots = [it.text for at, it in enumerate(texts) if classes[at] == "component"]
    totals, balances = {}, {}
    lines = [it for it in top.iter(SPACE + "path") if it.get("class") in ("curve", "balance")]
    named = [at for at in range(len(texts)) if classes[at : at + 2] == ["name", "count"]]
    for at, line in zip(named, lines, strict=True):
        path, foot = line.get("d").split(), int(texts[at + 1].get("y"))
        scale = [it.text for it, kind in zip(texts[at + 1 : at + 3], classes[at + 1 : at + 3]) if kind == "count"]
        if len(scale) != len(set(scale)):
            raise Fault(f"the curve of {texts[at].text} has a number twice")
        if path[:3] != ["M", "136", path[4]]:
            raise Fault(f"the curve of {texts[at].text} doesn't begin at its first number")
        if line.get("class") == "curve":
            totals[texts[at].text] = scale[-1]
        else:
            balances[texts[at].text] = heights_of(path, foot, int(scale[0]), int(scale[-1]))
    return calls, totals, entries, begun, dots, rows, (arrows, shades, balances)


def bars_of(picture):
    """Yields, for each call of a picture, its first entry and its last (None if it is pending), where its bar begins
    and ends, what is written below it, and where lines are within it."""
    for group in tree.fromstring(picture).iter(SPACE + "g"):
        if group.get("class") in ("version", "delivery"):
            continue
        title, bar = group.find(SPACE + "title").text, group.find(SPACE + "rect")
        ended = TITLE.fullmatch(title)
        first, last = (int(ended[2]), int(ended[3])) if ended else (int(title.split()[-1]), None)
        below = [it.text for it in group.iter(SPACE + "text") if it.get("class").startswith("reply")]
        rounds = [int(it.get("x1")) for it in group.iter(SPACE + "line") if it.get("class") == "round"]
        yield first, last, int(bar.get("x")), int(bar.get("x")) + int(bar.get("width")), below, rounds


def read_text(text, groups=()):
    """Returns the calls of a text, as the lines of `check`, the last number of each count's row, the worker in whose
    row each entry has a mark, if one has, how many calls are pending, and the findings: the lines of deliveries and
    versions, and the balances of these groups."""
    top, below = text.split("\n\n")
    lines = below.split("\n")[:-1]
    found = [line for line in lines if re.match("(delivery|version) ", line)]
    found = [line for line in found if not re.search(", point \\d+$|, under way from ", line)]
    lines = [line for line in lines if line not in found]
    calls = [TITLE.fullmatch(line) for line in lines if ", under way from entry " not in line]
    begun = len(lines) - len(calls)
    heads, *rows = top.split("\n")
    # (the first cell of a row is that of the moment before the first entry: only a count has a number there)
    first = re.search(r"\d+", heads)
    end = 23 + (first.end() - 23) // 2 if first else 39
    counts = [it for it in rows if re.fullmatch(r"[\w.]+ +[\d ]+", it) and it[:23].strip() and it[23:end].strip()]
    totals = {it.split()[0]: it.split()[-1] for it in counts if it.split()[0] not in groups}
    balances = {it.split()[0]: [int(n) for n in it.split()[1:]] for it in counts if it.split()[0] in groups}
    marks = []
    for number in re.finditer(r"\d+", heads):
        place = slice(number.end() - 1, number.end())
        here = [it.split()[0] for it in rows if it not in counts and it[place] not in ("", " ", "-")]
        marks.append(here[0] if len(here) == 1 else tuple(here) or None)
    return [f"{call[4]} {call[1]}" for call in calls], totals, marks, begun, (found, balances)
