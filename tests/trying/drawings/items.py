"""A second reading of how pictures show the items of buffers."""

import re
import xml.etree.ElementTree as tree

from trying.counting import need
from trying.drawings.histories import counts
from trying.drawings.pictures import SPACE

# Where the first column begins, the height of a lane, and the most lanes.
LEFT, LANE, LANES = 136, 22, 16


class Shapes:
    """What an SVG shows of items: the blocks of each panel by its name, each with its text, its place and its width;
    the x of each mark, in their order; the right edge; and the words about room."""

    def __init__(self, svg):
        self.blocks, self.hot, self.marks, self.rooms, self.right = {}, {}, [], [], LEFT
        panel, block = None, None
        for it in tree.fromstring(svg).iter():
            tag, name = it.tag.removeprefix(SPACE), it.get("class")
            if (tag, name) == ("text", "name"):
                panel = it.text
            elif tag == "rect" and name in ("block", "block hot"):
                block = [None, *(int(it.get(word)) for word in ("x", "y", "width"))]
                (self.blocks if name == "block" else self.hot).setdefault(panel, []).append(block)
            elif (tag, name) == ("text", "middle"):
                block[0] = it.text
            elif (tag, name) == ("path", "mark"):
                self.marks.append(int(it.get("d").split()[1]))
            elif (tag, name) == ("text", "small") and it.text.startswith("room for "):
                self.rooms.append(it.text)
            elif (tag, name) == ("line", "zero"):
                self.right = int(it.get("x2"))


def items_of(points, name):
    """Returns the items of a buffer along an order: the produce of each, and its consume or None."""
    puts = [c for c in points if counts(("produces", name), c.act, c.reply)]
    takes = [c for c in points if counts(("consumes", name), c.act, c.reply)]
    return [(c, takes[k] if k < len(takes) else None) for k, c in enumerate(puts)]


def most_at_once(points, name):
    """Returns how many items there are at once, at most."""
    held, most = 0, 0
    for c in points:
        held += counts(("produces", name), c.act, c.reply) - counts(("consumes", name), c.act, c.reply)
        most = max(most, held)
    return most


def check_blocks(shapes, name, points, window, xs):
    """Checks the blocks of a buffer: `xs` has the x of the point of each call with a mark."""
    low, high = window
    lanes, items = most_at_once(points, name), items_of(points, name)
    known = [(k, put, take) for k, (put, take) in enumerate(items) if points[put] <= high]
    known = [it for it in known if it[2] is None or low <= points[it[2]]] if lanes <= LANES else []
    found = shapes.blocks.get(name, [])
    words = [put.act.split()[-1] for _, put, _ in known]
    need([it[0] for it in found] == words, f"the items of {name}: {found}, not {words}")
    tops = {y - LANE * (k % lanes) for (_, _, y, _), (k, _, _) in zip(found, known)}
    need(len(tops) <= 1, f"the lanes of {name}: {found}")
    for (_, x, _, width), (_, put, take) in zip(found, known):
        begin = LEFT if points[put] < low else xs.get(put, x)
        end = shapes.right if take is None or points[take] > high else xs.get(take, x + width)
        need((x, x + width) == (begin, end), f"{put} is drawn from {x} to {x + width}, not from {begin} to {end}")
    ends = {}
    for _, x, y, width in found:
        need(ends.get(y, LEFT) <= x, f"blocks of {name} overlap: {found}")
        ends[y] = x + width


def check_items(history, text, points, svg, window, shown):
    """Checks what an SVG shows of the items of the buffers whose panels it has, if nothing is shown of a fault."""
    shapes = Shapes(svg)
    placed = [c for c in points if c in shown and window[0] <= points[c] <= window[1]]
    xs, rooms = dict(zip(placed, shapes.marks)), []
    for name, room in history.rooms.items():
        if rows := text.panels.get(name):
            rooms += [f"room for {room}"] * (min(rows["least"]) <= room <= max(rows["most"]))
            check_blocks(shapes, name, points, window, xs)
    need(sorted(shapes.rooms) == sorted(rooms), f"{shapes.rooms} and not {rooms}")


def named_item(line):
    """Returns the object of a call that a certificate names, and the item that it put in or took."""
    act, reply = re.match(r"named: (?:\S+) (.*?) = ([^,]*)", f"named: {line}").groups()
    word, name, *item = act.split()
    return name, item[0] if word == "produce" else reply if word == "consume" else None


def check_named(history, text, svg):
    """Checks the blocks of the calls of a buffer that a certificate names, if it has neither stairs nor limits."""
    hot = Shapes(svg).hot
    for name in set(history.rooms) & set(text.panels):
        named = [item for it in text.named for object_, item in [named_item(it)] if object_ == name]
        known = [] if text.stairs or text.limits else named
        found = [it[0] for it in hot.get(name, [])]
        need(found == known, f"the named items of {name}: {found}, not {known}")


BOUND = re.compile(r"of the first (\d+) items?, (\d+) had not been taken before line (\d+)")
STEP = re.compile(r"by line (\d+), (?:(?!; by line ).)*?at least (\d+) items? had been (put in|taken)")
CLOSED = re.compile(r"but no (?:more than (\d+) )?(?:produce|consume)s? had been called by then(?:, with room for (\d+))?")
FEW = re.compile(r"but of the first (\d+) items?, \d+ (?:was|were) ")
CROWDED = re.compile(r"by line (\d+), (\d+) items? had been put in that no consume called by then .* with (\d+) of ")


def limits_of(history, note):
    """Returns the limits that a note has."""
    at = lambda line: int(line) - history.first_line
    limits = []
    for due, jobs, line in BOUND.findall(note):
        most = int(due) - int(jobs)
        words = f"at most {most} taken" if most >= 0 else f"of the first {due}, {jobs} not taken"
        limits.append(f"limit: {words} to event {at(line)}")
    steps = STEP.findall(note)
    limits += [f"limit: at least {n} {moved} from event {at(line)}" for line, n, moved in steps]
    if steps:
        line, _, moved = steps[-1]
        most = int(it[1] or 0) + int(it[2] or 0) if (it := CLOSED.search(note)) else int(FEW.search(note)[1]) - 1
        limits.append(f"limit: at most {most} {moved} to event {at(line)}")
    if it := CROWDED.search(note):
        limits.append(f"limit: at least {int(it[2]) - int(it[3])} inside at event {at(it[1])}")
    return limits
