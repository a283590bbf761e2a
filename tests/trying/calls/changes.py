"""Random changes of histories of calls, and random histories."""

from trying.calls.threads import SORTS, Threads

WORDS = "0 1 2 01 9 1000000000000000000 done timeout a b zz both end run from calls returns".split()
ODD = ("\t", "\r", " ", "\0", "\xff", "x", "0", "[", "\xef\xbb\xbf", "x" * 9000)


def changed_reply(draw, lines):
    """Changes a reply, usually to one that suits the call."""
    places = [at for at, line in enumerate(lines) if " returns " in line]
    others = [at for at in places if not lines[at].endswith(" done")]
    if draw.random() < 0.8:
        places = others
    if not places:
        return
    at = draw.choice(places)
    words = lines[at].split(" ")
    if words[-1].isdigit() and draw.random() < 0.9:
        at_word = draw.randrange(2, len(words))
        number = int(words[at_word]) + draw.choice((-2, -1, -1, 1, 1, 2))
        words[at_word] = str(max(0, number))
    elif words[2] == "timeout" and draw.random() < 0.9:
        words[2] = "done"
    else:
        words[2:] = [draw.choice(("done", "timeout", "0", "1", "5", "0 1"))]
    lines[at] = " ".join(words)


def swapped_events(draw, lines):
    """Swaps two events."""
    places = [at for at, line in enumerate(lines) if " returns " in line or " calls " in line]
    if len(places) > 1:
        one = draw.randrange(len(places) - 1)
        other = draw.choice((one + 1, draw.randrange(len(places))))
        one, other = places[one], places[other]
        lines[one], lines[other] = lines[other], lines[one]


def moved_event(draw, lines):
    """Moves an event among those of other workers, so that other calls precede its call or follow it."""
    places = [at for at, line in enumerate(lines) if " returns " in line or " calls " in line]
    if not places:
        return
    at = draw.choice(places)
    worker = lines[at].split(" ")[0] + " "
    low, high = at, at
    while low > places[0] and not lines[low - 1].startswith(worker):
        low -= 1
    while high < places[-1] and not lines[high + 1].startswith(worker):
        high += 1
    to = draw.randint(low, high)
    lines.insert(to, lines.pop(at))


def swapped_replies(draw, lines):
    """Swaps the replies of two calls of one operation on one object."""
    asked, alike = {}, {}
    for at, line in enumerate(lines):
        worker, *rest = line.split(" ")
        if rest[:1] == ["calls"]:
            asked[worker] = tuple(rest[1:3])
        elif rest[:1] == ["returns"] and rest[1:] != ["done"]:
            alike.setdefault(asked.pop(worker, None), {}).setdefault(tuple(rest[1:]), at)
    pairs = [it for it in alike.values() if len(it) > 1]
    if pairs:
        one, other = draw.sample(list(draw.choice(pairs).items()), 2)
        for (reply, _), (_, at) in ((one, other), (other, one)):
            lines[at] = " ".join([*lines[at].split(" ")[:2], *reply])


def lowered_read(draw, lines):
    """Makes a read return only the count of the advances that had returned when it was called."""
    made, asked, places = {}, {}, []
    for at, line in enumerate(lines):
        worker, *rest = line.split(" ")
        if worker == "from":
            made[rest[0]] = int(rest[1])
        elif rest[:1] == ["calls"]:
            asked[worker] = rest[1], rest[2], made.get(rest[2], 0)
        elif rest[:1] == ["returns"] and worker in asked:
            word, name, low = asked.pop(worker)
            if word == "advance":
                made[name] = made.get(name, 0) + 1
            elif word == "read" and int(rest[1]) > low:
                places.append((at, f"{worker} returns {low}"))
    if places:
        at, line = draw.choice(places)
        lines[at] = line


def dropped_call(draw, lines):
    """Removes a call with its response, so that replies of others may be wrong."""
    places = [at for at, line in enumerate(lines) if " calls " in line]
    if places:
        at = draw.choice(places)
        worker = lines[at].split(" ")[0] + " returns "
        end = [it for it in range(at, len(lines)) if lines[it].startswith(worker)]
        for it in (end[:1] + [at]):
            del lines[it]


def changed_line(draw, lines):
    """Changes a line to one that may have any fault."""
    at = draw.randrange(len(lines))
    words = lines[at].split(" ")
    way = draw.randrange(7)
    if way == 0:
        del lines[at]
    elif way == 1:
        lines.insert(draw.randrange(len(lines) + 1), lines[at])
    elif way == 2:
        words[draw.randrange(len(words))] = draw.choice(WORDS)
    elif way == 3:
        words.insert(draw.randrange(len(words) + 1), draw.choice(WORDS))
    elif way == 4:
        del words[draw.randrange(len(words))]
    elif way == 5:
        words[draw.randrange(len(words))] = draw.choice(draw.choice(lines).split(" "))
    else:
        place = draw.randrange(len(lines[at]) + 1)
        lines[at] = lines[at][:place] + draw.choice(ODD) + lines[at][place:]
    if way in (2, 3, 4, 5):
        lines[at] = " ".join(words)


def random_text(draw, sorts=SORTS):
    """Returns a random history of objects of these sorts, good or broken."""
    lines = Threads(draw, sorts=sorts).text()
    changes = draw.choices(
        (
            [],
            [changed_reply],
            [swapped_replies],
            [lowered_read],
            [moved_event],
            [swapped_events],
            [dropped_call],
            [changed_line],
        ),
        (6, 5, 5, 3, 5, 1, 4, 3),
    )[0]
    for change in changes * draw.choice((1, 1, 1, 2, 3)):
        change(draw, lines)
    text = "\n".join(lines) + "\n"
    if changes == [changed_line] and draw.random() < 0.1:
        text = text[: draw.randrange(len(text))]
    return text.encode("latin-1")
