"""Which mutants can be put into one copy of a crate, and which can't be tried."""

from dataclasses import dataclass, field, replace

from trying.mutants.files import BadMutant, mutants_in, names_of_files, read
from trying.mutants.functions import can_have_twin, changes_type, function_at, only_function, reads_by
from trying.mutants.texts import all_applied, applied, name_of_twin


def faults(folder, mutant):
    """Yields why the mutant can't be tried by itself."""
    if not mutant.pairs:
        yield "it changes nothing"
    elif applied(folder, mutant, {}) is None:
        yield "an 'old:' text of it is not in its file exactly once"
    elif not targets(folder, mutant):
        yield "it changes no function: 'refused-in:' has to name the one whose proof has to fail"


def faults_of_files(folder):
    """Yields the files of a crate whose mutants can't be tried together, each with its reason."""
    for name in names_of_files(folder):
        together = [it for group in fitting(folder, mutants_in(folder, name)) for it in group]
        if any(it.twin for it in together) or all_applied(folder, together) is None:
            yield name, "two mutants of it change one function: they belong into two files"


def targets(folder, mutant):
    """Returns the ends of the names of the functions whose proofs have to fail: of each that the mutant names, or else
    of one of those that it changes."""
    if mutant.twin:
        return [name_of_twin(only_function(folder, mutant).name, mutant.twin)]
    if mutant.refused_in:
        return sorted(set(mutant.refused_in))
    found = {function_at(file, read(folder, file), old) for file, old, _ in mutant.pairs}
    return sorted(it.name for it in found if it)


def taken_by(folder, mutant):
    """Returns what a mutant shares with no other in a check: the functions that it changes, those whose proofs have to
    fail, those that read a constant which it changes, and texts outside functions."""
    taken = {*targets(folder, mutant), *reads_by(folder, mutant)}
    for file, old, _ in mutant.pairs:
        inside = function_at(file, read(folder, file), old)
        taken.add(inside.name if inside else old)
    return taken


@dataclass
class Group:
    """Bodies that are put into one copy of their crate."""

    together: list = field(default_factory=list)
    # What none of them shares with another.
    taken: set = field(default_factory=set)
    # The functions that have twins, and those that read a constant which a mutant changes.
    with_twins: set = field(default_factory=set)
    readers: set = field(default_factory=set)
    is_closed: bool = False

    def took(self, folder, mutant):
        """Adds the mutant, or a twin of its function with it, and returns whether it could."""
        mine, reads = taken_by(folder, mutant), reads_by(folder, mutant)
        if self.is_closed:
            return False
        if not mine & self.taken and not reads & self.with_twins:
            return self.added(folder, mutant, mine, reads)
        only = only_function(folder, mutant)
        if not can_have_twin(folder, mutant) or only.name in self.readers:
            return False
        twin = replace(mutant, twin=len(self.together))
        self.with_twins.add(only.name)
        return self.added(folder, twin, set(targets(folder, twin)), set())

    def added(self, folder, mutant, mine, reads):
        if self.together and all_applied(folder, [*self.together, mutant]) is None:
            return False
        self.together.append(mutant)
        self.taken |= mine
        self.readers |= reads
        return True


def fitting(folder, mutants):
    """Cuts the mutants into groups, each of which can be put into one copy of the crate: no two of a group change or
    judge one function, or change a text of the other, and none of several changes a type. If two change one
    function, the second goes into a twin of it."""
    groups = []
    for mutant in mutants:
        if applied(folder, mutant, {}) is None:
            raise BadMutant(f"{mutant.crate}/{mutant.name}: a text of it is not in its file exactly once")
        is_alone = changes_type(folder, mutant)
        if is_alone or not any(it.took(folder, mutant) for it in groups):
            groups.append(Group(is_closed=is_alone))
            groups[-1].added(folder, mutant, taken_by(folder, mutant), reads_by(folder, mutant))
    return [it.together for it in groups]
