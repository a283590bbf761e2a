"""What the recorders of calls have to write and say."""

CALLS = 4 * 4000  # of four threads

WHOLE = """evc-calls 1
limit 281474976710655
workers a b c
eventcount E signal a b c observe a b c
sequencer T take a b c
cells X 2 write a b c read a b c
semaphore R 1 use a b c
semaphore S 2 use a b c
both use a b c
database D 7 write a b read c
buffer B 1 produce a consume b c
from E 3
run
c calls read E
a calls advance E
a returns done
c returns 4
c calls await E 9
c returns timeout
c calls await E 4
c returns 4
c calls await E 2
c returns done
a calls ticket T
a returns 0
a calls put X[1] 7
b calls get X[1]
a returns done
b returns 7
a calls pboth R S
a returns done
a calls v R
a returns done
b calls p R
b returns done
b calls p R
b returns timeout
a calls write D 1 2 3 4 5 0 999999999999999999
a returns done
c calls snapshot D
c returns 1 2 3 4 5 0 999999999999999999
a calls produce B 7
a returns done
a calls produce B 8
a returns timeout
b calls consume B
b returns 7
c calls consume B
c returns timeout
b calls p R
end
"""

NAMES = """worker: 1 |
worker: 1 |
worker: 1 |
worker: 0 |bad name: NOTHING
worker: 0 |bad name: 9a
worker: 0 |bad name: _a
worker: 0 |bad name: a-b
worker: 0 |bad name: a?
worker: 0 |bad name: abcdefghijklmnopq
worker: 0 |reserved word: p
worker: 0 |reserved word: v
worker: 0 |reserved word: done
worker: 0 |reserved word: workers
16 workers: 1 |
17 workers: 0 |too many: a
worker twice: 0 |name taken: w1
object as worker: 0 |name taken: w1
object p: 0 |reserved word: p
both twice: 0 |name taken: both
from: 1 |
from: 0 |out of range: E
0 cells: 0 |out of range: X
257 cells: 0 |out of range: X
units: 0 |out of range: S
database: 1 |
all write: 0 |out of range: D
none writes: 0 |out of range: D
unknown writer: 0 |out of range: D
writer twice: 0 |out of range: D
buffer: 1 |
none consumes: 0 |out of range: B
257 items: 0 |out of range: B
300 cells: 0 |too many: C
33 eventcounts: 0 |too many: E32
late worker: 0 |declared too late: b
late object: 0 |declared too late: T
no workers: 0 |no worker: T
no room: 0 |out of range: a
""".replace("NOTHING", "")

OBJECT = "a: a call on an object that does not have it"
NUMBER = "a number above 999999999999999999"
ROLE = "a call of the other role"
REPLY = "a: a reply that does not suit the call"

# Each wrong use: the worker and what is said, and the call that stays pending, if any.
WRONG = [
    ("a: a call while another is pending", "a calls read E"),
    ("a: a return without a call", None),
    (OBJECT, None),
    (OBJECT, None),
    (OBJECT, None),
    ("a: an index out of range", None),
    (f"a: {NUMBER}", None),
    (f"b: {NUMBER}", None),
    (f"a: {ROLE}", None),
    (f"b: {ROLE}", None),
    (REPLY, "a calls read E"),
    (REPLY, "a calls advance E"),
    (REPLY, "a calls snapshot D"),
    (REPLY, "a calls read E"),
    (OBJECT, None),
    (f"a: {ROLE}", None),
    (f"b: {ROLE}", None),
    (REPLY, "a calls consume B"),
    (f"a: {NUMBER}", "a calls consume B"),
    (f"a: {NUMBER}", "a calls snapshot D"),
    (None, None),
]
ONLY_IN_C = (2, 3, 4)  # the types of Rust have no such use
