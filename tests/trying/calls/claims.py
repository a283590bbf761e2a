"""Checks by counting what a note on a history without a linearization claims, and that it excludes a linearization."""

import re

from trying.calls.notes import OF_BUFFERS, OPEN, said_in
from trying.calls.orders import text_of_reply
from trying.calls.search import fault_by_search, search
from trying.calls.theorems import (
    called_before,
    doubled,
    givers,
    is_below,
    is_open,
    least_of,
    made_between,
    may_have_drawn,
    most_of,
    overlap,
    puts_of,
    takers,
    times_put,
    value_of,
)
from trying.calls.verdict import judge
from trying.counting import Fault, need
from trying.verdicts.chains import is_chain, is_decided, windows_of
from trying.verdicts.turns import Crowd, is_outrun, is_put_in_turn, is_taken_in_turn, turns_of


def note_faults(history, verdict, note):
    """Returns what is wrong with the note (without its line feed) on a history with this verdict, which is not
    `linearizable`, or None."""
    line, said = said_in(note)
    if not said:
        return "it has none of the forms"
    try:
        for name, words in said:
            if (name if name in OPEN else "refused") != verdict.name:
                raise Fault(f"the verdict is {verdict.name}")
            if line is None:
                (check_undecided if name == "undecided" else check_unfound)(history, words)
                continue
            claim = Claim(history, line)
            if name in OF_BUFFERS:
                claim.on_a_buffer()
            claim.is_first(verdict.position)
            getattr(claim, name)(words)
    except Fault as wrong:
        return str(wrong)
    return None


def check_undecided(history, words):
    """Checks that the object is not decided: the value was returned by a get, and put more than once, and the puts at
    these two lines overlap."""
    part = next((part for part in history.parts() if part.key == words["X"]), None)
    need(part is not None and is_open(part), f"{words['X']} is decided")
    is_database = part.key in history.databases
    right = ("written", "writes") if is_database else ("put", "puts")
    need((words["put"], words["puts"]) == right, "`put` and `write`")
    found = map(text_of_reply, doubled(part.calls, part.start))
    need(words["value"] in found, "no such value was got, and put more than once")
    lines = int(words["one"]), int(words["other"])
    puts = [put for put in puts_of(part.calls) if history.line_of(put.first) in lines]
    need(len(puts) == 2, "the lines are not those of two puts")
    need(lines[0] < lines[1], "the later put is named first")
    need(overlap(*puts), "the puts do not overlap")


def check_unfound(history, words):
    """Checks that all but buffers is linearizable, and that the buffer was before this line."""
    part = next((part for part in history.parts() if part.key == words["B"]), None)
    need(part is not None and part.kind == "buffer", f"{words['B']} is no buffer with calls")
    other = judge(history, but_buffers=True)
    need(other.name != "refused", "another object shows a fault")
    need(not is_decided(*accesses(part.calls)), "the buffer is of the decided class")
    position, fault = int(words["from"]) - history.first_line, fault_by_search(part)
    need(fault is None or position <= fault, "there is a fault before that line")
    ends = [at for call in part.calls for at in (call.first, call.last)]
    need(position in ends, "the line is of another object")


def accesses(calls):
    """Returns the produces that may have taken effect, the consumes that returned an item, and where the pending ones were
    invoked."""
    puts = [one for one in calls if one.op[0] == "produce" and one.reply != "timeout"]
    takes = [one for one in calls if one.op[0] == "consume" and one.reply not in (None, "timeout")]
    return (
        [(one.op[1], one.first, one.last) for one in puts],
        [(one.reply, one.first, one.last) for one in takes],
        [one.first for one in calls if one.op[0] == "consume" and one.last is None],
    )


def ordinal(number):
    is_teen = number % 100 in (11, 12, 13)
    ending = "th" if is_teen else {1: "st", 2: "nd", 3: "rd"}.get(number % 10, "th")
    return f"{number}{ending}"


class Claim:
    """What a note claims of a history. Each method checks one form: it counts what the form says, and checks that this
    excludes a linearization."""

    def __init__(self, history, line):
        self.history, self.at = history, line - history.first_line
        self.part, self.calls, self.call = None, [], None
        for part in history.parts():
            calls = part.before(self.at + 1)
            for call in calls:
                if call.last == self.at:
                    self.part, self.calls, self.call = part, calls, call

    def on_a_buffer(self):
        """Finds the buffer on which the event is, also if it is an invocation."""
        for part in self.history.parts():
            if any(self.at in (call.first, call.last) for call in part.calls):
                self.part, self.calls = part, part.before(self.at + 1)
        need(self.part is not None and self.part.kind == "buffer", "the line is of no buffer")

    def is_first(self, position):
        """Checks that this is the first faulty event. A fault of a buffer may be found later than it is there, or not at
        all, but before one of another object."""
        others = judge(self.history, but_buffers=True).position
        if self.part is None or self.part.kind != "buffer":
            right = position if others is None else others
            need(self.at == right, f"the first faulty event is at line {self.history.line_of(right)}")
            return
        fault = fault_by_search(self.part)
        need(fault is not None and fault <= self.at, "there is a linearization up to that line")
        need(others is None or self.at <= others, "another object has an earlier fault")

    def own(self, kind, name=None):
        """Checks that the line is of a response on an object of this kind, and of this name if there is one."""
        need(self.call is not None, "the line is of no response")
        need(self.part.kind == kind, f"the line is of {self.part.kind}")
        need(name in (None, self.call.object), f"the line is of {self.call.object}")

    def line(self, number, position, what):
        need(int(number) == self.history.line_of(position), f"line {number} is not {what}")

    def response(self, number):
        """Returns the call on the same object that returned at this line."""
        position = int(number) - self.history.first_line
        found = [call for call in self.calls if call.last == position]
        need(found, f"line {number} is no response on this object before line N")
        return found[0]

    def invocation(self, number):
        position = int(number) - self.history.first_line
        found = [call for call in self.calls if call.first == position]
        need(found, f"line {number} is no invocation on this object before line N")
        return found[0]

    # Eventcounts

    def reads(self, words, call, name="returned"):
        """Checks that a read or an await is named by what it returned."""
        need(call.op[0] in ("read", "await"), "it is neither a read nor an await")
        if call.reply == "timeout":
            right = f"gave up on {call.op[1]}"
        elif call.reply == "done":
            right = f"awaited {call.op[1]}"
        else:
            right = f"returned {call.reply}"
        need(words[name] == right, f"`{words[name]}` in place of `{right}`")

    def advances(self, words, right):
        need(words["E"] == self.call.object, "the eventcount is another")
        need(int(words["n"]) == right, f"{words['n']} advances in place of {right}")
        need((words["advances"] == "advance") == (right == 1), "`advance` and `advances`")

    def starts(self, words):
        start = self.history.starts.get(self.call.object)
        right = None if start is None else str(start)
        need(words["start"] == right, "the count at the beginning is another")

    def few(self, words):
        self.own("eventcount")
        self.reads(words, self.call)
        count = called_before(self.calls, self.at)
        self.advances(words, count)
        self.starts(words)
        need(self.part.start + count < least_of(self.call), "so many advances are enough")

    def many(self, words):
        self.own("eventcount")
        self.reads(words, self.call)
        self.line(words["L"], self.call.first, "its invocation")
        count = made_between(self.calls, -1, self.call.first)
        self.advances(words, count)
        self.starts(words)
        most = most_of(self.call)
        need(most is not None and most < self.part.start + count, "that is not too many")

    def since(self, words):
        count = self.after_an_earlier(words)
        self.advances(words, count)
        need(count > 0, "the form is that with advances")

    def after_an_earlier(self, words):
        """Checks that an earlier read and the advances since then are too many, and returns how many advances."""
        self.own("eventcount")
        self.reads(words, self.call)
        earlier = self.response(words["K"])
        self.reads(words, earlier, "earlier")
        self.line(words["L"], self.call.first, "its invocation")
        need(earlier.precedes(self.call), "line K is not before line L")
        count, most = made_between(self.calls, earlier.last, self.call.first), most_of(self.call)
        need(most is not None and most < least_of(earlier) + count, "that is not too many")
        return count

    def below(self, words):
        self.own("eventcount")
        need(is_below(self.call), "it is not below what it awaited")
        right = str(self.call.reply), str(self.call.op[1])
        need((words["value"], words["v"]) == right, "what it returned or awaited is another")

    # Sequencers, and what has the same form

    def turned(self, words):
        if self.part is not None and self.part.kind == "eventcount":
            need(self.after_an_earlier(words) == 0, "there are advances between")
            return
        self.own("sequencer")
        earlier = self.response(words["K"])
        self.line(words["L"], self.call.first, "its invocation")
        need(words["returned"] == f"returned {self.call.reply}", "it returned another number")
        need(words["earlier"] == f"returned {earlier.reply}", "line K returned another number")
        need(earlier.precedes(self.call), "line K is not before line L")
        need(earlier.reply > self.call.reply, "the earlier number is not greater")

    def twice(self, words):
        self.own("sequencer")
        earlier = self.response(words["K"])
        need(earlier is not self.call, "line K is line N")
        need(str(self.call.reply) == words["value"], "it returned another number")
        need(earlier.reply == self.call.reply, "line K returned another number")

    def drew(self, words, call):
        need(words["T"] == call.object, "the sequencer is another")
        need(str(call.reply) == words["value"] == words["upto"], "the number is another")
        count = may_have_drawn(self.calls, call)
        need(int(words["n"]) == count, f"{words['n']} tickets in place of {count}")
        need((words["tickets"] == "ticket") == (count == 1), "`ticket` and `tickets`")
        need(count <= call.reply, "so many tickets are enough")

    def drawn(self, words):
        self.own("sequencer")
        self.drew(words, self.call)

    def drawn_earlier(self, words):
        self.own("sequencer")
        earlier = self.response(words["K"])
        need(earlier is not self.call, "line K is line N")
        self.drew(words, earlier)

    # Semaphores

    def taken(self, words):
        self.own("semaphores")
        name = words["S"]
        is_done = self.call.op[0] == "take" and self.call.reply == "done"
        need(is_done and name in self.call.op[1], f"it took no unit of {name}")
        count, given = takers(self.calls, name, self.at), givers(self.calls, name, self.at)
        units = self.part.start[name]
        need(words["nth"] == ordinal(count), f"it is the {ordinal(count)}")
        need(words["units"] == str(units), f"there were {units} units at first")
        need(words["v"] == str(given), f"{given} v had been called")
        need(count > units + given, "so many units are enough")

    # Cells and databases

    def get(self, words):
        self.own("cell", words["X"])
        need(self.call.op[0] == "get", "the line is of no get")
        right = text_of_reply(self.call.reply)
        need(words["value"] == right, f"it returned {right}")

    def word(self, word, put, write):
        right = write if self.call.object in self.history.databases else put
        need(word == right, f"`{word}` in place of `{right}`")

    def nowhere(self, words):
        self.get(words)
        self.word(words["put"], "put", "write")
        need(words["same"] == words["value"], "the values differ")
        need(times_put(self.calls, self.part.start, self.call.reply) == 0, "it was put")

    def stale(self, words):
        self.get(words)
        self.line(words["L"], self.call.first, "its invocation")
        earlier = self.response(words["K"])
        if earlier.op[0] == "put":
            self.word(words["put"], "put", "written")
        else:
            need(words["put"] == "returned", "line K is of a get")
        need(text_of_reply(value_of(earlier)) == words["other"], "line K is of another value")
        need(earlier.precedes(self.call), "line K is not before line L")
        start = self.part.start
        need(self.call.reply == start != value_of(earlier), "it is not the first value")
        need(times_put(self.calls, start, start) == 1, "the first value was put again")

    def alternate(self, words):
        self.get(words)
        one, two, three, four = words["lines"].split(" ")
        a, b = self.response(one), self.invocation(two)
        c, d = self.response(three), self.invocation(four)
        need(a.precedes(b) and c.precedes(d), "the lines do not precede")
        values = [value_of(call) for call in (a, b, c, d)]
        need(None not in values, "one of the calls is pending")
        need(values[0] == values[3] != values[1] == values[2], "the values do not alternate")
        both = words["one"], words["other"]
        need(set(both) == set(map(text_of_reply, values)), "the values are others")
        need(words["value"] == words["one"], "the first value is not what it returned")
        for first, second in ((a, d), (b, c)):
            is_once = times_put(self.calls, self.part.start, value_of(first)) == 1
            need(first is second or is_once, f"{text_of_reply(value_of(first))} was not put once")

    def chain(self, words):
        self.get(words)
        self.word(words["put"], "put", "write")
        lines = [int(word) for word in (words["lines"] or "").split()]
        need(lines == sorted(set(lines), reverse=True), "the latest line is not the first")
        named = [self.response(line) for line in lines]
        need(all(call.op[0] == "get" for call in named), "one of the lines is of no get")
        need(self.call not in named, "line N is among the lines")
        kept = [call for call in self.calls if call.op[0] == "put" or call in [*named, self.call]]
        need(search("cell", self.part.start, kept) is None, "a put is left for it")

    # Buffers

    def responses(self, words):
        """Returns the calls that returned at the lines of the note."""
        names = [name for name in ("one", "other") if words.groupdict().get(name)]
        return [self.response(words[name]) for name in names]

    def puts(self, test, holds):
        """Returns how many produces of such items may have taken effect, among the calls for which this holds."""
        calls = (one for one in self.calls if one.op[0] == "produce" and one.reply != "timeout")
        return sum(1 for one in calls if test(one.op[1]) and holds(one))

    def takes(self, test, holds):
        """Returns how many consumes returned such items, among the calls for which this holds."""
        calls = (one for one in self.calls if one.op[0] == "consume" and one.reply not in (None, "timeout"))
        return sum(1 for one in calls if test(one.reply) and holds(one))

    def pending_takes(self, at):
        calls = (one for one in self.calls if one.op[0] == "consume" and one.last is None)
        return sum(1 for one in calls if one.first <= at)

    def untaken(self, at):
        """Returns the test of items that no consume returned which was invoked up to there."""
        return lambda item: self.takes(lambda it: it == item, lambda one: one.first <= at) == 0

    def room(self):
        return self.part.start[0]

    def counts(self, words, **right):
        """Checks the numbers of the note, and how much room there is if it says so."""
        if words.groupdict().get("room"):
            right["room"] = self.room()
        for name, number in right.items():
            need(words[name] is None or int(words[name]) == number, f"{name} is {number}")

    def unproduced(self, words):
        (call,) = self.responses(words)
        need(call.op[0] == "consume", "the line is of no consume")
        same, at = lambda it: it == call.reply, call.last
        put, got = self.puts(same, lambda one: one.first <= at), self.takes(same, lambda one: one.last <= at)
        need(put < got, "as many were produced")
        self.counts(words, taken=got, put=put, item=call.reply)

    def overfull(self, words):
        (call,) = self.responses(words)
        every, at = lambda it: True, call.last
        put = self.puts(every, lambda one: one.last is not None and one.last <= at)
        got = self.takes(every, lambda one: one.first <= at) + self.pending_takes(at)
        need(put > self.room() + got, "there is room")
        self.counts(words, put=put, taken=got)

    def crowded(self, words):
        (call,) = self.responses(words)
        at = call.last
        put = self.puts(self.untaken(at), lambda one: one.last is not None and one.last <= at)
        need(put > self.room() + self.pending_takes(at), "there is room")
        self.counts(words, left=put, pending=self.pending_takes(at))

    def two(self, words):
        """Returns the two calls, of which the first returned before any produce of the item of the second was invoked."""
        one, other = self.responses(words)
        need(other.op[0] == "consume", "the second line is of no consume")
        known = self.puts(lambda it: it == other.reply, lambda call: call.first <= one.last)
        need(known == 0, "its item may have been produced before")
        return one, other

    def overtaken(self, words):
        one, other = self.two(words)
        need(one.op[0] == "produce" and one.reply == "done", "the first line is of no produce")
        same = lambda it: it == one.op[1]
        put = self.puts(same, lambda call: call.last is not None and call.last <= one.last)
        later = self.takes(same, lambda call: call.first > other.last)
        every = self.puts(same, lambda call: True)
        need(every < put + later, "so many produces are enough")
        need((words["all"] is None) == (every == 1), "the counts are there if and only if they are needed")
        self.counts(words, item=one.op[1], later_item=other.reply, before=put, later=later, all=every)

    def passed(self, words):
        one, other = self.two(words)
        put = self.puts(self.untaken(other.last), lambda call: call.last is not None and call.last <= one.last)
        asking = self.pending_takes(other.last)
        need(put > asking, "they may have been taken")
        right = None if other.last == self.at else words["other"]
        need(words["K"] == right, "the line of the consume is there if and only if another call ends at line N")
        need((words["pending"] is None) == (asking == 0), "pending consumes are there if and only if there are any")
        self.counts(words, later_item=other.reply, left=put, pending=asking)

    def squeezed(self, words):
        one, other = self.responses(words)
        need(other.op[0] == "produce" and other.reply == "done", "the second line is of no produce")
        need(one.last < other.last, "the second line is the earlier one")
        same = lambda it: it == other.op[1]
        need(self.puts(same, lambda call: True) == 1, "the item was produced more than once")
        got = self.takes(same, lambda call: call.first <= one.last)
        put = self.puts(same, lambda call: call.first <= one.last)
        need(got == 0 or put == 0, "the item may have been taken by then")
        inside = self.puts(self.untaken(other.last), lambda call: call.last is not None and call.last <= one.last)
        asking = self.pending_takes(other.last)
        need(self.room() + asking <= inside, "there is room")
        self.counts(words, item=other.op[1], left=inside, pending=asking)

    def step(self, text, flow, room):
        """Returns a step, and checks what its words say of produces, room and its number twice."""
        found = re.fullmatch(
            r"by line (\d+), (\d+) (produce|consume)s?(?: of (\d+)(?: called after line (\d+))?)? had returned, so"
            r"(?: with room for (\d+))? at least (\d+) items? had been (put in|taken)",
            text,
        )
        line, calls, noun, item, after, free, number, moved = found.groups()
        at, calls, number = int(line) - self.history.first_line, int(calls), int(number)
        need(moved == {"in": "put in", "out": "taken"}[flow], "the steps count both ways")
        if item is None:
            right = ("consume", number, None) if flow == "in" else ("produce", number + room, str(room))
            need((noun, calls, free) == right, "a step has other numbers")
            return at, number, None
        need(noun == {"in": "produce", "out": "consume"}[flow], "a step is of the other calls")
        position = None if after is None else int(after) - self.history.first_line
        return at, number, (calls, int(item), position)

    def closed(self, text, flow, room):
        """Returns the index of the item for which it is too early, and checks how much room there is."""
        number, *others = map(int, re.findall("[0-9]+", re.sub("^no (produce|consume)", "0", text)))
        need(others == ([room] if flow == "in" else []), "there is other room")
        return number + room if flow == "in" else number

    def shortages(self, text, flow, at):
        """Returns the shortages, and how many consumes are pending. Checks that these are counted up to the last step."""
        shortages, others = [], 0
        for part in text.split("; "):
            *numbers, line = map(int, re.findall("[0-9]+", part))
            position = line - self.history.first_line
            if "pending" in part:
                (others,) = numbers
                need(position == at, "the pending consumes are counted up to another line")
                continue
            count, needed, item, come = numbers if " and only " in part else [*numbers, 0]
            need({"in": " produce", "out": " consume"}[flow] in part, "a shortage is of the other calls")
            shortages.append((position, count - 1, needed, come, item))
        return shortages, others

    def crowd(self, text, turn):
        """Returns what is said of items that consumes don't return."""
        position = lambda line: int(line) - self.history.first_line
        share = (
            r"(\d+) produces? of (\d+)(?: called after line (\d+))? had returned,"
            r" and consumes return (?:none|at most (\d+))"
        )
        shares = [
            (int(item), position(after) if after else None, int(calls), int(most or 0))
            for calls, item, after, most in re.findall(share, text)
        ]
        known, number = re.search(r"so with the (\d+) that they return at least (\d+) ", text).groups()
        need(int(number) == turn + 1, "it is too early for another item")
        return Crowd(turn, position(re.match(r"by line (\d+)", text)[1]), int(known), shares)

    def outrun(self, words):
        """Checks the steps: each follows from those before it, and together they need more items than there can be."""
        crowd, text = words["crowd"], words["clash"]
        flow = "in" if crowd or " put in" in words["steps"] else "out"
        room, (puts, takes, asked) = self.room(), accesses(self.calls)
        is_known = is_taken_in_turn(puts) if flow == "out" else is_put_in_turn(puts, takes, asked)
        need(is_known, "the order of the items is not known")
        steps = [self.step(step, flow, room) for step in words["steps"].split("; ") if step]
        is_closed = "had been called by then" in text
        clash = self.closed(text, flow, room) if is_closed else self.shortages(text, flow, steps[-1][0])
        clash = self.crowd(crowd, clash) if crowd else clash
        turns, takers = turns_of(flow, puts, takes, asked, room, self.at + 1)
        need(is_outrun(turns, takers, steps, clash, self.at + 1), "a step does not follow")

    def overdue(self, words):
        """Checks the bounds: each follows from those before it, and only the last one is of more items than there are."""
        bounds = []
        for text in words["bounds"].split("; "):
            due, items, line, *most = map(int, re.findall("[0-9]+", text))
            need(most == ([] if due < items else [due - items]), f"{due - items} of {due} are left")
            bounds.append((line - self.history.first_line, items, due))
        windows = windows_of(*accesses(self.calls))
        need(is_chain(windows, self.room(), bounds, self.at + 1), "a bound does not follow")
