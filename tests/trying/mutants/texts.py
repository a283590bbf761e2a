"""The texts of a crate with mutants put into them.

A second mutant of one function goes into a twin: a copy of that function, under a name of its own and with its proof
files. If it has such files, an unchanged copy of the function is added too, and has to be proved. So what fails is the
mutant, and not a file that doesn't fit in its new place. A function without such files is proved in the same way under
any name.
"""

import glob
import os
import re

from trying.mutants.files import read
from trying.mutants.functions import functions_of, lines_of, only_function

UNCHANGED = 0


def applied(folder, mutant, texts):
    """Returns these texts with the mutant put into them, or None if a text of it isn't there exactly once."""
    if mutant.twin:
        return with_twin(folder, only_function(folder, mutant), mutant.twin, mutant.pairs, texts)
    texts = dict(texts)
    for file, old, new in mutant.pairs:
        text = texts[file] if file in texts else read(folder, file)
        if text.count(old) != 1:
            return None
        texts[file] = text.replace(old, new)
    return texts


def all_applied(folder, together):
    """Returns the texts with all of these mutants put into them, or None if one no longer fits. Twins come last, since
    they are made from the text of the repository."""
    texts = {}
    for mutant in sorted(together, key=lambda it: it.twin):
        texts = applied(folder, mutant, texts)
        if texts is None:
            return None
    for function in twinned(folder, together):
        texts = with_twin(folder, function, UNCHANGED, [], texts)
    return texts


def twinned(folder, together):
    """Returns the functions that have twins and proof files."""
    found = {only_function(folder, it) for it in together if it.twin}
    with_files = (it for it in found if proof_of_twin(folder, it, UNCHANGED))
    return sorted(with_files, key=lambda it: (it.file, it.name))


def name_of_twin(name, number):
    return f"{name}_twin{number}"


def with_twin(folder, function, number, pairs, texts):
    """Returns these texts with a twin of a function after it, in which these pairs of texts are changed."""
    word = function.name.split("::")[-1]
    twin = "\n".join(lines_of(folder, function))
    for _, old, new in pairs:
        twin = twin.replace(old, new)
    twin = re.sub(rf"\bfn {word}\b", f"fn {name_of_twin(word, number)}", twin, count=1)
    text = texts[function.file] if function.file in texts else read(folder, function.file)
    last = next(it.last for it in functions_of(function.file, text) if it.name == function.name)
    lines = text.split("\n")
    lines[last:last] = ["", *twin.split("\n")]
    return {**texts, function.file: "\n".join(lines), **proof_of_twin(folder, function, number)}


def proof_of_twin(folder, function, number):
    """Returns the proof files of a function as those of its twin."""
    block, word = function.name.split("::")
    module = os.path.splitext(os.path.relpath(function.file, "src"))[0]
    inside = module if block == os.path.basename(module) else os.path.join(module, block)
    place, names = os.path.join("proofs", inside, word), ".".join(["proofs", *inside.split(os.sep), word])
    found = {}
    for file in sorted(glob.glob(os.path.join(folder, place, "*.antt"))):
        text = read(folder, os.path.relpath(file, folder))
        there = os.path.join(name_of_twin(place, number), os.path.basename(file))
        found[there] = text.replace(f"{names}.", f"{name_of_twin(names, number)}.")
    return found
