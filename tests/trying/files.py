"""The files of the repository, as tests and commands read them."""

from pathlib import Path

TOP = Path(__file__).resolve().parent.parent.parent
EXAMPLES = TOP / "examples"


def read(*path):
    """Returns the text of a file of the repository."""
    return TOP.joinpath(*path).read_text(encoding="utf-8")


def example(name):
    return (EXAMPLES / name).read_bytes()


def examples(pattern):
    """Yields the name and the bytes of each example whose path in examples/ fits the pattern."""
    for path in sorted(EXAMPLES.glob(pattern)):
        yield str(path.relative_to(EXAMPLES)), path.read_bytes()
