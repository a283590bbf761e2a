"""Mutants: tries them, as many in one check as fit together. trying/mutants/groups.py decides which fit, texts.py next
to it puts them into their crate, and verdicts.py reads what a check says of each.

A file `crates/NAME/must-fail/FILE.edit` holds one or several mutants. For example:

    body: event_id_taken_at_32
    file: src/event_id.rt
    old: if n < 32 {
    new: if n < 33 {

`body:` begins a mutant and names it. A file with no such line is one mutant, which has the file's name.
`file:` names the text that changes, and each `old:` has to be in it exactly once. `refused-in: FUNCTION`
names a function whose proof has to fail instead of that of the changed one: the caller of a private helper
whose own contract says nothing of it, or a function that reads a table. FUNCTION is as the check prints it,
or the end of that. If several are named, the proof of each has to fail.
"""

import os
import re
from concurrent.futures import ThreadPoolExecutor
from dataclasses import replace

# (tests/gate, tests/mutants and tests/quick use some of these names)
from trying.mutants.files import BadMutant, mutants_of, read
from trying.mutants.functions import callers, can_have_twin, functions_of, texts_of_functions
from trying.mutants.groups import faults, faults_of_files, fitting, taken_by, targets
from trying.mutants.texts import UNCHANGED, all_applied, name_of_twin, twinned
from trying.mutants.verdicts import ANSWER, GOAL, OTHER, PROVED, UNREAD, judged_by, verdict_on


def tried(folder, log_of, at_once=1):
    """Tries the mutants of a crate, as many in one check as fit together, `at_once` checks at a time, and judges each.
    `log_of(name, texts, ends)` checks the functions whose names have these ends, in the crate with these texts, and
    returns the log, which has that name."""
    groups = enumerate(fitting(folder, mutants_of(folder)), 1)
    with ThreadPoolExecutor(at_once) as pool:
        for found in pool.map(lambda it: list(tried_group(folder, f"together_{it[0]}", it[1], log_of)), groups):
            yield from found


def tried_group(folder, name, together, log_of):
    """Tries mutants that fit together. If that says nothing of some, since their functions call others that are
    changed, these are tried once more in twins, with all other functions unchanged, and the rest one by one."""
    left = {it.name: it for it in together}
    for found in judged_together(folder, name, together, log_of):
        if found.is_killed() or len(together) == 1:
            del left[found.mutant.name]
            yield found
    twins = [replace(it, twin=at) for at, it in enumerate(left.values(), 1) if can_have_twin(folder, it)]
    for found in judged_together(folder, f"{name}_twins", twins, log_of) if len(twins) > 1 else ():
        if found.is_killed():
            del left[found.mutant.name]
            yield found
    for mutant in left.values():
        yield from judged_together(folder, mutant.name, [mutant], log_of)


def judged_together(folder, name, together, log_of):
    """Judges mutants by one check of the crate with all of them. If it says nothing at all, for example because a text
    can't be parsed, or if together they affect each function, each half of them is checked."""
    if len(together) == 1:
        together = [replace(together[0], twin=0)]
    can_be_read = len(together) == 1 or unaffected(folder, together)
    log = log_of(name, all_applied(folder, together), ends_of(folder, together)) if can_be_read else ""
    if len(together) > 1 and not (can_be_read and proves_unchanged(folder, together, log)):
        half = len(together) // 2
        yield from judged_together(folder, f"{name}a", together[:half], log_of)
        yield from judged_together(folder, f"{name}b", together[half:], log_of)
    else:
        yield from (judged_in(folder, together, it, log) for it in together)


def judged_in(folder, together, mutant, log):
    """Judges a mutant by the log of a check of the crate with all of these. If that check doesn't prove what none
    of them changes, it says nothing of any."""
    found = judged_by(folder, mutant, log)
    return found if proves_unchanged(folder, together, log) else replace(found, verdict=UNREAD)


def proves_unchanged(folder, together, log):
    """Returns whether the check with these mutants proves what none of them changes: a function that none affects, and
    the unchanged copy of each function with twins, which may still call what is changed."""
    twins = [name_of_twin(it.name, UNCHANGED) for it in twinned(folder, together)]
    is_sound = verdict_on([bystander(folder, together)], log) == PROVED
    return is_sound and all(verdict_on([it], log) in (PROVED, OTHER) for it in twins)


def unchanged(folder, together):
    """Returns the ends of the names of functions that none of these mutants changes. Each check proves them too."""
    return [bystander(folder, together), *(name_of_twin(it.name, UNCHANGED) for it in twinned(folder, together))]


def bystander(folder, together):
    """Returns the end of the name of a function that none of these mutants affects. If possible it is no theorem, whose
    proof may be long, and of a file that uses no other of the crate, so that it doesn't depend on a type which a mutant
    changes."""
    found = unaffected(folder, together)
    if not found:
        crate = os.path.basename(folder)
        raise BadMutant(f"{crate}: each function has to do with one of the mutants {together[0].name} ..")
    return min(found, key=lambda it: it[0])[1]


def unaffected(folder, together):
    """Returns the ends of the names of the functions that call nothing of what these mutants change, neither directly nor
    through others, each with how much speaks against it as a bystander."""
    taken = {name for mutant in together for name in taken_by(folder, replace(mutant, twin=0))}
    changed = {file for mutant in together for file, _, _ in mutant.pairs}
    texts = texts_of_functions(folder)
    touched = callers(texts, {it.split("::")[-1].strip() for it in taken})
    return [
        (
            4 * text.endswith("{}")
            + 2 * (it.file in changed)
            + bool(re.search(r"\b(crate|super)::", read(folder, it.file))),
            it.name,
        )
        for it, text in texts
        if not it.is_of_trait and it.name.split("::")[-1] not in touched
    ]


def ends_of(folder, together):
    """Returns the ends of the names of all functions that a check with these mutants is asked for."""
    return sorted({*unchanged(folder, together), *(end for mutant in together for end in targets(folder, mutant))})
