"""How many items of a buffer were taken out, or put in, by a position, counted anew from its calls, if no two produces
overlap or no two consumes do."""

import collections

# More items were put in than consumes return and there is room for: the turn that can't be taken, the position by which it
# has to be, how many turns are of items that consumes return, and shares (item, position after which its produces were
# invoked or None, how many there are, how many of these items consumes return).
Crowd = collections.namedtuple("Crowd", "turn at known shares")


def is_apart(accesses):
    """Whether each access, (item, first, last), returned before the next one was invoked; a pending one has last None."""
    ordered = sorted(accesses, key=lambda access: access[1])
    return all(last is not None and last < first for (_, _, last), (_, first, _) in zip(ordered, ordered[1:]))


def is_taken_in_turn(puts):
    """Whether the items are taken out in a known order: no two produces overlap."""
    return is_apart(puts)


def is_put_in_turn(puts, takes, asked):
    """Whether it is known in which order the items are put in that consumes return: no two consumes overlap, and a pending
    one was invoked last, unless no more was produced than returned."""
    return is_apart(takes + [(None, first, None) for first in asked] * (len(puts) > len(takes)))


def turns_of(flow, puts, takes, asked, room, end):
    """Returns the turns, each (item, from, by), and who takes them: a pending consume takes any item, and has None in place
    of one, as have the turns of items that no consume returns. `end` stands for what does not happen."""
    full = lambda accesses: [(item, first, end if last is None else last) for item, first, last in accesses]
    puts, takes = sorted(full(puts), key=lambda put: put[1]), sorted(full(takes), key=lambda take: take[1])
    if flow == "out":
        lasts = [last for _, _, last in puts][room:] + [end] * room
        takes += [(None, first, end) for first in asked]
        return [(item, first, by) for (item, first, _), by in zip(puts, lasts)], takes
    firsts = [0] * room + [first for _, first, _ in takes] + asked + [end] * len(puts)
    known = [(item, since, last) for (item, _, last), since in zip(takes, firsts)]
    return known + [(None, since, end) for since in firsts[len(takes) : len(puts)]], puts


def count_of(turns, item, upto):
    return sum(1 for it, _, _ in turns[:upto] if it == item)


def known_of(turns):
    return sum(1 for item, _, _ in turns if item is not None)


def reached(steps, at):
    """How many turns are taken by a position, at least, by these steps."""
    return max([0, *(number for position, number, _ in steps if position <= at)])


def is_step(turns, takers, before, step):
    """Whether a step (position, number, reason) follows from those before it. The reason is None if the last of so many
    turns is due by then, and otherwise (takers, item, position after which these were invoked, or None)."""
    at, number, reason = step
    if reason is None:
        return number <= len(turns) and turns[number - 1][2] <= at
    needed, item, after = reason
    few = count_of(turns, item, number - 1) < sure_of(turns, before, item, after) + needed
    return 0 < needed <= own_of(takers, item, after, at) and number <= known_of(turns) + 1 and few


def own_of(takers, item, after, at):
    """How many takers of an item were invoked after a position, if there is one, and are due by another."""
    return sum(1 for t in takers if t[0] == item and t[2] <= at and (after is None or after < t[1]))


def sure_of(turns, steps, item, after):
    """How many turns of an item are taken by a position, if there is one, by these steps."""
    return count_of(turns, item, 0 if after is None else reached(steps, after))


def is_shortage(turns, takers, steps, shortage):
    """Whether the turn of a shortage (position, turn, turns, takers, item) is taken by its position; and up to that turn
    there are so many of the item, and no more takers of the item who had come."""
    at, turn, needed, come, item = shortage
    is_taken = at <= steps[-1][0] and turn < reached(steps, at)
    own = [t for t in takers if t[0] == item and t[1] <= at]
    return is_taken and needed == count_of(turns, item, turn + 1) and come == len(own) <= needed


def are_short(turns, takers, steps, shortages, others):
    """Whether the takers of some items are too few, and so many of any item, who had come, are fewer than all that are
    missing."""
    if not all(is_shortage(turns, takers, steps, shortage) for shortage in shortages):
        return False
    items = [shortage[4] for shortage in shortages]
    missing = sum(needed - come for _, _, needed, come, _ in shortages)
    open_ones = [t for t in takers if t[0] is None and t[1] <= steps[-1][0]]
    return len(set(items)) == len(items) and others == len(open_ones) < missing


def is_not_open(turns, turn, at):
    return turn >= len(turns) or at < turns[turn][1]


def is_crowd(turns, takers, steps, crowd, end):
    """Whether more items are put in by a position than consumes return, and than can be."""
    left = 0
    for item, after, calls, most in crowd.shares:
        of_item = count_of(turns, item, len(turns)) - sure_of(turns, steps, item, after)
        if calls > own_of(takers, item, after, crowd.at) or of_item > most:
            return False
        left += max(0, calls - most)
    items = [share[0] for share in crowd.shares]
    is_known = crowd.known == known_of(turns) <= crowd.turn < crowd.known + left
    return crowd.at < end and len(set(items)) == len(items) and is_known and is_not_open(turns, crowd.turn, crowd.at)


def is_outrun(turns, takers, steps, clash, end):
    """Whether these steps need more than can be taken. The clash is the turn that the last step needs, if it is not open by
    then; or a crowd; or shortages and how many takers of any item had come."""
    for i, step in enumerate(steps):
        if step[0] >= end or not is_step(turns, takers, steps[:i], step):
            return False
    if isinstance(clash, Crowd):
        return is_crowd(turns, takers, steps, clash, end)
    if not isinstance(clash, int):
        return are_short(turns, takers, steps, *clash)
    at, number, _ = steps[-1]
    return clash < number and is_not_open(turns, clash, at)
