"""Counts what passed and what failed, and writes the last line of a test."""

import subprocess

# How many failures of a part are shown, and how many bytes of a text.
SHOWN = 10
SHOWN_BYTES = 2000


class Fault(Exception):
    """What is wrong with something that was tried."""


def need(holds, what):
    if not holds:
        raise Fault(what)


def tried(test, *given):
    """Returns what a test finds wrong, or why it could not be made."""
    try:
        return test(*given)
    except (Fault, ValueError, OSError, subprocess.TimeoutExpired) as fault:
        return [str(fault)]


class Count:
    """How many things passed and failed. Failures are shown as they come; in a part with a name, only the first."""

    def __init__(self, name=None):
        self.name, self.passed, self.failed = name, 0, 0

    def add(self, what, faults, text=b""):
        """Counts a thing that was tried, with what is wrong with it: a text, a list of texts, or nothing."""
        if not faults:
            self.passed += 1
            return
        self.failed += 1
        if self.name is None or self.failed <= SHOWN:
            for fault in [faults] if isinstance(faults, str) else faults:
                print(f"{self.name}: {what}: {fault}" if self.name else f"{what}: {fault}", flush=True)
            if text:
                print(text[:SHOWN_BYTES].decode("latin-1"), end="--\n", flush=True)

    def expect(self, is_right, what):
        """Counts what has to be so, and returns whether it is."""
        if not is_right:
            print(what)
        self.passed += bool(is_right)
        self.failed += not is_right
        return is_right

    def end(self, more=""):
        """Shows how many passed and failed of a part, and returns it."""
        print(f"{self.name}: {self.passed} passed, {self.failed} failed{more}", flush=True)
        return self


def ended(counts):
    """Writes the last line of a test, and returns its status."""
    passed, failed = map(sum, zip(*((it.passed, it.failed) for it in counts)))
    print(f"{passed} passed, {failed} failed")
    return 1 if failed else 0


def numbers(words, *otherwise):
    """Returns the numbers that these words are, and defaults for words that are missing."""
    return [*map(int, words), *otherwise[len(words) :]]
