"""The C library: a driver that calls it, built by the toolchain, and the programs that it is compared with."""

import os
import struct
import subprocess
from dataclasses import dataclass

from trying.counting import Fault
from trying.files import TOP
from trying.running import run, toolchain

COMMANDS = {b"check": b"c", b"audit": b"a", b"upgrade": b"u", b"sim": b"s"}
# `check` of histories of calls.
CALLS = b"calls"
# `watch` of them, as a monitor.
WATCH = b"watch"
LETTERS = {**COMMANDS, CALLS: b"h", WATCH: b"m"}

NOTES_ROOM = 1024
NO_ROOM = b"write fault\n"


@dataclass(frozen=True)
class Answer:
    status: int
    text: bytes
    notes: bytes


def histories_in(text):
    """Returns how many histories of calls a text may have."""
    return max(text.count(b"evc-calls 1\n"), 1)


def notes_room_of(command, text):
    """Returns the room that library/evc.h asks for the notes of a command."""
    return len(text) + 4096 * histories_in(text) if command == CALLS else NOTES_ROOM


def room_of(command, text):
    """Returns the room that library/evc.h asks for the text of a command."""
    if command == WATCH:
        return 32
    if command == CALLS:
        return 2 * len(text) + 16384 * histories_in(text)
    return 44 * len(text) + 64 if command == b"sim" else len(text) if command == b"upgrade" else 2 * len(text) + 16384


def request(command, text, room, notes_room=None):
    notes_room = notes_room_of(command, text) if notes_room is None else notes_room
    return struct.pack("<8sQQQ", LETTERS[command], len(text), room, notes_room) + text


@dataclass(frozen=True)
class Programs:
    evc: str
    evc_calls: str


def by_program(programs, command, text):
    of_calls = {CALLS: b"check", WATCH: b"watch"}
    words = [programs.evc_calls, of_calls[command]] if command in of_calls else [programs.evc, command]
    return Answer(*run(words, text, None))


def answer_in(data):
    """Returns the first answer of some bytes, and the bytes after it."""
    if len(data) < 24:
        raise Fault("the driver ended early")
    status, changed, text, notes = struct.unpack_from("<BB6xQQ", data)
    if changed:
        raise Fault("a byte was changed that had to stay, or more was told than there is room for")
    end = 24 + text
    return Answer(status, data[24:end], data[end : end + notes]), data[end + notes :]


class Driver:
    """The built driver, kept open for many requests."""

    def __init__(self, path):
        self.process = subprocess.Popen([path], stdin=subprocess.PIPE, stdout=subprocess.PIPE)

    def ask(self, asked):
        self.process.stdin.write(asked)
        self.process.stdin.flush()
        head = self.process.stdout.read(24)
        if len(head) < 24:
            raise Fault("the driver ended early")
        text, notes = struct.unpack_from("<8xQQ", head)
        return answer_in(head + self.process.stdout.read(text + notes))[0]

    def close(self):
        self.process.stdin.close()
        return self.process.wait()


def short(answer):
    return f"status {answer.status}, {len(answer.text)} bytes {answer.text[:60]!r}, notes {answer.notes[:100]!r}"


def archive(library, folder):
    """Makes the archive libevc.a: the library, and the functions by which it allocates."""
    kit, whole = toolchain(), os.path.join(folder, "libevc.a")
    tool = os.path.join(kit, "toolchain", "bin", "llvm-ar")
    subprocess.run([tool, "qcLD", whole, library, os.path.join(kit, "c", "liblibc_c.a")], check=True)
    return whole


# What library/evc.h uses of a compiler's own headers.
HEADERS = {
    "stddef.h": "typedef __SIZE_TYPE__ size_t;\n",
    "stdint.h": "".join(f"typedef __UINT{it}_TYPE__ uint{it}_t;\n" for it in (8, 32, 64)),
}


def driver_of(library, folder):
    """Builds the driver with the toolchain only."""
    kit = toolchain()
    headers, made, program = (os.path.join(folder, it) for it in ("headers", "driver.o", "driver"))
    os.mkdir(headers)
    for name, text in HEADERS.items():
        with open(os.path.join(headers, name), "w", encoding="utf-8") as file:
            file.write(text)
    compiler = [os.path.join(kit, "toolchain", "bin", "clang"), "-std=c11", "-O1", "-Wall", "-Wextra", "-Werror"]
    words = [*compiler, "-fPIC", "-c", "-isystem", headers, "-o", made, str(TOP / "tests/library.c")]
    subprocess.run(words, check=True)
    linker = [os.path.join(kit, "bin", "rattle-link"), "--target", "x86_64-unknown-linux-gnu"]
    linked = [*linker, "--toolchain", os.path.join(kit, "toolchain"), "-o", program, made, library]
    subprocess.run(linked, stdout=subprocess.DEVNULL, check=True)
    return program
