"""Programs in which one allocation, or one start of a thread, fails (tests/refuse.c)."""

import itertools
import os
import struct
import subprocess
import tempfile
from dataclasses import dataclass

from trying.counting import Fault
from trying.running import preloaded, run

SECONDS = 20

# What tests/refuse.c makes fail, and what else would allocate or start something. A program that uses any of these
# would bypass it.
REFUSED = {"malloc", "realloc", "pthread_create"}
OTHERS = set(
    "calloc reallocarray aligned_alloc memalign posix_memalign valloc pvalloc mmap mmap64 mremap brk sbrk strdup "
    "strndup clone fork vfork thrd_create posix_spawn posix_spawnp".split()
)


# What a program reports that is out of memory, and what it reports while it reads its command line.
NO_MEMORY = b"no memory\n"
UNREAD = b"error: out of memory\n"


@dataclass
class Ran:
    status: int
    output: bytes
    notes: bytes
    was_refused: bool

    @property
    def ended(self):
        return self.status, self.output, self.notes


class Refuser:
    """Runs programs in which one allocation or one start of a thread fails."""

    def __init__(self, folder):
        self.library = preloaded(folder, "refuse")

    def ran(self, command, text, refused, number, output=subprocess.PIPE):
        """Runs a command in which the call of this number fails: an allocation (REQUEST) or a start (START)."""
        seen, tell = os.pipe()
        more = {"LD_PRELOAD": self.library, "REFUSED_TELL": str(tell), f"REFUSED_{refused}": str(number)}
        try:
            how = {"stdout": output, "pass_fds": [tell], "env": {**os.environ, **more}}
            status, written, notes = run(command, text, SECONDS, **how)
        except subprocess.TimeoutExpired:
            raise Fault(f"had not ended after {SECONDS} seconds") from None
        finally:
            os.close(tell)
            with open(seen, "rb") as pipe:
                was_refused = pipe.read() != b""
        return Ran(status, written or b"", notes, was_refused)

    def refusals(self, command, text, refused="REQUEST", output=subprocess.PIPE):
        """Yields each run of a command in which a call failed, with its number, and last the run in which none did."""
        for number in itertools.count(1):
            ran = self.ran(command, text, refused, number, output)
            yield number, ran
            if not ran.was_refused:
                return


def plainly(command, text=b""):
    return Ran(*run(command, text, SECONDS), False)


def imported(program):
    """Returns the names that a program for x86-64 Linux imports from libraries."""
    with open(program, "rb") as file:
        data = file.read()
    start, size, count = struct.unpack_from("<Q", data, 40)[0], *struct.unpack_from("<HH", data, 58)
    sections = [struct.unpack_from("<IIQQQQIIQQ", data, start + size * it) for it in range(count)]
    (_, _, _, _, begin, length, link, _, _, entry) = next(it for it in sections if it[1] == 11)
    names = sections[link][4]
    found = set()
    for at in range(begin, begin + length, entry):
        name, _, _, section, _, _ = struct.unpack_from("<IBBHQQ", data, at)
        if section == 0:
            found.add(data[names + name : data.index(b"\0", names + name)].decode())
    return found


def faults_of_imports(program):
    found = imported(program)
    if not found & REFUSED:
        return ["takes no memory from the C library, so no allocation of it can fail"]
    return [f"takes {name} from the C library, which tests/refuse.c does not refuse" for name in sorted(found & OTHERS)]


def is_whole(ran, ample):
    return ran.ended == ample.ended


def is_out_of_memory(ran):
    """Returns whether a run reports out of memory. While the command line is read, nothing can have been written."""
    return ran.status == 4 and (ran.notes == NO_MEMORY or (ran.notes, ran.output) == (UNREAD, b""))


def is_prefix(ran, ample):
    return ample.output.startswith(ran.output)


def fault_of_text(program, ran, ample):
    """Returns what is wrong with a run that has one right text."""
    if is_whole(ran, ample) or (is_out_of_memory(ran) and is_prefix(ran, ample)):
        return None
    return "neither as with ample memory nor reported as out of memory"


def faults_of_line(refuser, program, words, text, fault_of):
    """Returns what is wrong with runs of a command line in which each allocation fails in turn, and the runs."""
    command = [program, *words]
    ample = plainly(command, text)
    faults, seen = [], []
    for number, ran in refuser.refusals(command, text):
        fault = fault_of(program, ran, ample)
        if fault or (not ran.was_refused and ran.status != ample.status):
            faults.append(f"request {number}: {fault or 'another status'}: status {ran.status}, {ran.notes[:200]}")
        seen.append(ran)
    if len(seen) < 2:
        faults.append("no request was refused")
    return faults, seen


def try_texts(part, path, tries, fault_of=fault_of_text):
    """Has each allocation of a program fail in turn, with each of these words and texts."""
    with tempfile.TemporaryDirectory() as folder:
        refuser = Refuser(folder)
        for words, text in tries:
            faults, _ = faults_of_line(refuser, path, words, text, fault_of)
            part.add(f"refused memory: {' '.join(words)} of {text!r}", faults)
