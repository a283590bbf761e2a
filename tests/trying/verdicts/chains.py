"""Bounds on how many items of a buffer were taken, counted anew from its calls."""

from trying.verdicts.turns import is_put_in_turn, is_taken_in_turn


def windows_of(puts, takes, asked):
    """Returns for each item that is put in once where its produce and its consume begin and end, or None. `puts` are
    (item, first, last), with last None if the produce is pending; `takes` are (item, first, last). An item that nobody
    returned is left out if its produce is pending, or if a consume is: that may have taken it. `asked` are where these were
    invoked."""
    windows = []
    for item, first, last in puts:
        own = [take for take in takes if take[0] == item]
        once = sum(1 for put in puts if put[0] == item) == 1 and len(own) < 2
        if once and (own or (last is not None and not asked)):
            windows.append((first, last, *(own[0][1:] if own else (None, None))))
    return windows


def jobs_of(windows, end):
    """Returns for each item the position before which it was not taken, that before which it was put in, and that
    before which it was taken. `end` stands for what does not happen."""
    full = [tuple(end if at is None else at for at in window) for window in windows]
    for a, b, c, d in full:
        early = max([max(a, c), *(max(e, g) for e, f, g, h in full if min(f, h) < a)])
        late = min([d, *(h for e, f, g, h in full if min(b, d) < e)])
        yield early, min(b, d) + 1, late + 1


def is_chain(windows, room, bounds, end):
    """Whether each of the bounds (position, items, due) follows from those before it, and only the last one is of more
    items than those among which they are due."""
    jobs, caps = list(jobs_of(windows, end)), []
    limit = lambda p: min([sum(1 for job in jobs if job[0] < p), *(cap for at, cap in caps if p <= at)])
    for i, (at, items, due) in enumerate(bounds):
        is_due = lambda by, late: limit(late) <= due or limit(by) + room <= due
        if not 0 < items <= sum(1 for early, by, late in jobs if at <= early and is_due(by, late)):
            return False
        if (due < items) != (i == len(bounds) - 1):
            return False
        caps.append((at, due - items))
    return len(bounds) > 0


def is_decided(puts, takes, asked):
    """Whether the calls are of a class that is always decided: each item is put in at most once, and no pending consume
    may have taken one; or the items are taken out, or put in, in a known order."""
    if is_taken_in_turn(puts) or is_put_in_turn(puts, takes, asked):
        return True
    items = [item for item, first, last in puts]
    kept = [item for item, first, last in puts if last is not None and item not in [take[0] for take in takes]]
    return len(set(items)) == len(items) and not (asked and kept)
