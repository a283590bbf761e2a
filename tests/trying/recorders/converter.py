"""The converter of histories, recorder/evc_convert.py: texts, and events of each kind."""

import os
import re
import sys

from trying.counting import need
from trying.files import TOP
from trying.recorders.texts import WHOLE
from trying.recorders.tools import ran

CONVERTER = os.path.join(TOP, "recorder", "evc_convert.py")


def converted(folder, *words, text=None):
    return ran([sys.executable, CONVERTER, *words], folder, input=text)


def try_form(folder, form):
    """Converts the text with each call, and back. Workers are then named by their positions."""
    said = converted(folder, form, text=WHOLE)
    need(said.returncode == 0 and "timeout" not in said.stdout, said.stderr)
    starts = ["--initial", "S=2", "--from", "E=3"]
    back = converted(folder, f"from-{form}", *starts, text=said.stdout).stdout.split("\n")
    right = WHOLE
    for name, place in zip("abc", range(3)):
        right = re.sub(rf"\b{name}\b", f"p{place}", right)
    right = right.split("\n")
    run = right.index("run")
    need(back[run:] == right[run:], f"it wrote {back}")


EDN = """; a register and an eventcount
{:process 0, :type :invoke, :f :advance, :value [:E]}
#jepsen.history.Op{:process 1 :type :invoke :f :read :value [:E] :time 3.5e9 :index 1}
{:process :nemesis, :type :info, :f :kill, :value nil}
{:process 0, :type :info, :f :advance, :value [:E], :error ["lost" {:a #{1 2}}]}
{:process 1, :type :ok, :f :read, :value [:E 1]}
{:process 0, :type :invoke, :f :await, :value [:E 5]}
{:process 2, :type :invoke, :f :advance, :value [:E]}
{:process 2, :type :fail, :f :advance, :value [:E]}
{:process 0, :type :fail, :f :await, :value [:E 5]}
"""
OF_EDN = """evc-calls 1
limit 281474976710655
workers p0 p1 p0_1
eventcount E signal p0 p1 p0_1 observe p0 p1 p0_1
run
p0 calls advance E
p1 calls read E
p1 returns 1
p0_1 calls await E 5
p0_1 returns timeout
end
"""
REGISTER = """{"process": 0, "type": "invoke", "f": "write", "value": 3}
{"process": 1, "type": "invoke", "f": "read", "value": null}
{"process": 0, "type": "ok", "f": "write", "value": 3}
{"process": 1, "type": "ok", "f": "read", "value": 3}
"""
OF_REGISTER = """evc-calls 1
limit 281474976710655
workers p0 p1
cells X 1 write p0 p1 read p0 p1
run
p0 calls put X[0] 3
p1 calls get X[0]
p0 returns done
p1 returns 3
end
"""
QUEUE = """{:process 0, :type :invoke, :f :enqueue, :value 3}
{:process 1, :type :invoke, :f :dequeue, :value nil}
{:process 0, :type :ok, :f :enqueue, :value 3}
{:process 1, :type :ok, :f :dequeue, :value 3}
{:process 1, :type :invoke, :f :enqueue, :value 4}
{:process 1, :type :fail, :f :enqueue, :value 4}
{:process 0, :type :invoke, :f :dequeue, :value nil}
{:process 0, :type :fail, :f :dequeue, :value nil}
"""
OF_QUEUE = """evc-calls 1
limit 281474976710655
workers p0 p1c p1 p0c
buffer B 5 produce p0 p1 consume p1c p0c
run
p0 calls produce B 3
p1c calls consume B
p0 returns done
p1c returns 3
p1 calls produce B 4
p1 returns timeout
p0c calls consume B
p0c returns timeout
end
"""
NO_EVENTS = [
    ("{:process 0", "the EDN ends within {"),
    ('"', 'this is no EDN: "'),
    ("{:process 0, :type :ok, :f :read}", "event 0: no call of process 0 is pending"),
    ("{:process 0, :type :invoke, :f :cas, :value [:E]}", "there is no call cas"),
    ("{:process 0, :type :invoke, :f :read, :value nil}", "read: the value has no object: [None]"),
    ("{:process 0, :type :invoke, :f :read, :value [:p]}", "p is a reserved word"),
    ("{:process 0, :type :invoke, :f :await, :value [:E]}", "await: ['E'] has too few numbers"),
    ("[1 2]", "event 0 is no map"),
]


def try_events(folder):
    said = converted(folder, "from-edn", text=EDN)
    need(said.stdout == OF_EDN, said.stdout + said.stderr)
    said = converted(folder, "from-json", "--register", "X", text=REGISTER)
    need(said.stdout == OF_REGISTER, said.stdout + said.stderr)
    said = converted(folder, "from-edn", "--queue", "B", "--room", "B=5", text=QUEUE)
    need(said.stdout == OF_QUEUE, said.stdout + said.stderr)
    said = converted(folder, "edn", "--queue", "B", text=OF_QUEUE)
    # (a process that was split is two)
    back, right = (re.sub(r":process \d", "", it) for it in (said.stdout, QUEUE))
    need(back == right, said.stdout + said.stderr)
    for text, note in NO_EVENTS:
        said = converted(folder, "from-edn", text=text)
        answer = (said.returncode, said.stdout, said.stderr)
        need(answer == (1, "", f"evc_convert.py: {note}\n"), f"{text}: {answer}")
    many = [f"{{:process {it}, :type :invoke, :f :read, :value [:E]}}" for it in range(17)]
    said = converted(folder, "from-edn", text="\n".join(many))
    need("17 workers" in said.stderr and said.returncode == 1, said.stderr)
    need(converted(folder, "edn", "nothing.calls").returncode == 1, "a missing file")
    need(converted(folder, "from-xml").returncode == 2, "wrong words")


def try_converter(folder, count):
    for form in ("edn", "json"):
        count.tried(f"converting to {form} and back", try_form, folder, form)
    count.tried("converting events", try_events, folder)
