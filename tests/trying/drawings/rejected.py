"""Pictures of traces that are rejected: what came before, and what is said of the faulty line."""

import re
import xml.etree.ElementTree as tree

from trying.drawings.pictures import SPACE, drawn, read_text
from trying.drawings.readings import entries_of


def history_before(text, note):
    """Returns a trace of the history before the faulty line that a note of `check` names, and the words that a picture
    has of that line. If the note has the right reply, the line with it is included. None if no run had begun."""
    noted = re.fullmatch(r"line (\d+): (bad line|refused \d+ (\w+)|wrong reply, right is (\w+))\n", note)
    lines = text.split(b"\n")
    if not noted or b"run" not in lines[: int(noted[1]) - 1]:
        return None, None
    number, before = int(noted[1]), lines[: int(noted[1]) - 1]
    if before[-1] == b"end":
        return None, None
    faulty = lines[number - 1]
    shown = "".join(chr(it) if 32 <= it < 127 and it not in b"<>&" else "?" for it in faulty[:100])
    replied = f"the right reply is {noted[4]}" if noted[4] else "no line that can stand here"
    right = f"refused: {noted[3]}" if noted[3] else replied
    words = [f"line {number}: {shown}", right]
    if not noted[4]:
        return b"\n".join([*before, b"end", b""]), words
    mended = b"\n".join([*before, faulty.split(b"=")[0] + b"= " + noted[4].encode(), b"end", b""])
    entries = entries_of(mended)
    worker, name, label, _ = entries[-1]
    if label and "=" in label:
        own = [at for at in range(len(entries)) if entries[at][0] == worker]
        start = next(at for at in reversed(own) if entries[at][2].startswith("0="))
        acts = [line.split()[1:3] for line in mended.decode().split("\nrun\n")[1].split("\n")]
        totals = [acts[:at].count(["advance", name]) for at in (start, len(entries) - 1)]
        words.append(f"total of {name}: {totals[0]} when the round began, {totals[1]} at this entry")
        for at in own[own.index(start) :]:
            component, read = entries[at][2].split("=")
            words.append(f"line {number - len(entries) + 1 + at}: component {component} was {read}")
    return mended, words


def fault_of_rejected(draw, check, text, asked):
    mended, words = history_before(text, asked[2])
    for form in ([], ["--text"]):
        status, answer, notes = draw.says(*form, text=text)
        if (status, notes) != (asked[0], asked[2]):
            return f"{form}: {status} {notes} and not {asked}"
        if mended is None:
            if answer:
                return f"{form}: a picture of no run"
            continue
        lines = check.says("check", text=mended)[1].split("\n")
        calls = lines[1 : lines.index("totals")]
        if form:
            top, _, said = answer.rpartition("\n\n")
            said, found = said.split("\n")[:-1], read_text(top + "\n")[0]
        else:
            said = [it.text for it in tree.fromstring(answer).iter(SPACE + "text") if it.get("class") == "fault"]
            found = drawn(answer)[0]
        if said != words or found != calls:
            return f"{form}: {said} and not {words}, or {found} and not {calls}"
    return None


def wrong_replies(draw):
    """Yields the names of traces with a wrong reply, and what is wrong with what is next to the right one."""
    start = b"evc-trace 1\nlimit 10\nworkers a c\neventcount E signal a observe c\nrun\na advance E = done\nc read E = "
    for reply, shown in (b"7", "7"), (b"pending", "pending"), (b"done", "done"):
        top = tree.fromstring(draw.says(text=start + reply + b"\nend\n")[1])
        texts = [it for it in top.iter(SPACE + "text") if it.get("class").split(" ")[0] in ("reply", "struck")]
        texts = [(it.get("class"), it.text, it.get("y")) for it in texts]
        right = [("reply", "= 1", "182"), ("struck", f"= {shown}", "182")]
        yield f"the wrong reply {reply}", None if texts == right else f"{texts} and not {right}"
