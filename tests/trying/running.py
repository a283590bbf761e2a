"""Runs programs on whole texts, on texts in pieces or without end, and on files that can't be read or written."""

import os
import resource
import socket
import subprocess
import tempfile

from trying.counting import Fault, need
from trying.files import TOP

# How long a program may take.
SECONDS = 120


def run(words, text=b"", seconds=SECONDS, **how):
    """Returns the status, the output and the notes of a program that gets this text."""
    how = {"stdout": subprocess.PIPE, "stderr": subprocess.PIPE, "timeout": seconds, "check": False, **how}
    if "stdin" not in how:
        how["input"] = text
    ran = subprocess.run(words, **how)
    return ran.returncode, ran.stdout, ran.stderr


class Program:
    """A program. The result of a run is its status, its output and its notes."""

    def __init__(self, path, seconds=SECONDS):
        self.path, self.seconds = os.path.abspath(path), seconds

    def ends(self, words, text=b"", **how):
        return run([self.path, *words], text, self.seconds, **how)

    def says(self, *words, text):
        """Returns the same, as strings."""
        status, output, notes = self.ends(words, text)
        return status, output.decode("latin-1"), notes.decode("latin-1")

    def output(self, words, text):
        """Returns the output of a command that has to go well."""
        status, output, notes = self.ends(words, text)
        need(status == 0, f"{words[0]} ended with status {status}: {notes[:200]}")
        return output

    def begun(self, words, **how):
        pipes = {"stdin": subprocess.PIPE, "stdout": subprocess.PIPE, "stderr": subprocess.PIPE}
        return subprocess.Popen([self.path, *words], **{**pipes, **how})

    def ends_in_pieces(self, words, text, most):
        """Returns the result if each read gives at most so many bytes: a socket of packets gives one at a time."""
        near, far = socket.socketpair(socket.AF_UNIX, socket.SOCK_SEQPACKET)
        with near, self.begun(words, stdin=far, cwd=TOP) as begun:
            far.close()
            try:
                for at in range(0, len(text), most):
                    near.send(text[at : at + most])
            except (BrokenPipeError, ConnectionResetError):
                pass  # (what comes after a fault need not be read)
            near.close()
            output, notes = begun.communicate(timeout=self.seconds)
        return begun.returncode, output, notes

    def ends_of_endless(self, words, head, more):
        """Returns the result for a text that repeats some lines without end after its beginning."""
        with self.begun(words, bufsize=0) as begun:
            try:
                begun.stdin.write(head)
                for _ in range(10_000):
                    begun.stdin.write(more * 1000)
                raise Fault("it reads on and on")
            except BrokenPipeError:
                pass
            output, notes = begun.communicate(timeout=self.seconds)
        return begun.returncode, output, notes

    def ends_of_folder(self, words, folder=TOP):
        """Returns the result for a folder instead of a text."""
        room = os.open(folder, os.O_RDONLY)
        try:
            return self.ends(words, stdin=room)
        finally:
            os.close(room)

    def ends_of_file(self, words, text):
        """Returns the result for a file with this text, and how many bytes of it were read."""
        with tempfile.TemporaryFile() as file:
            file.write(text)
            file.seek(0)
            return *self.ends(words, stdin=file), os.lseek(file.fileno(), 0, os.SEEK_CUR)

    def ends_at_full(self, words, text, place="stdout"):
        """Returns the result if the output, or another stream named by `place`, is a device that is full."""
        with open("/dev/full", "wb") as full:
            return self.ends(words, text, **{place: full})

    def ends_into(self, words, text, most):
        """Returns the result if the output is a file that takes at most so many bytes: its contents are the output."""
        before = resource.getrlimit(resource.RLIMIT_FSIZE)
        with tempfile.TemporaryFile() as file:
            resource.setrlimit(resource.RLIMIT_FSIZE, (most, before[1]))
            try:
                # (the signal for reaching this limit stays ignored, so that the write fails)
                status, _, notes = self.ends(words, text, stdout=file, restore_signals=False)
            finally:
                resource.setrlimit(resource.RLIMIT_FSIZE, before)
            file.seek(0)
            return status, file.read(), notes


def differing(found, right):
    """Returns what is wrong if something else was found."""
    return [] if found == right else [f"{found}, and right is {right}"]


def toolchain():
    """Returns the folder of the kit."""
    return os.path.dirname(run(["rt", "doc"])[1].decode().strip())


def preloaded(folder, name):
    """Builds tests/NAME.c as a library that is loaded before the C library."""
    library, source = os.path.join(folder, f"{name}.so"), TOP / "tests" / f"{name}.c"
    compiler = [os.path.join(toolchain(), "toolchain", "bin", "clang"), "-O2", "-shared", "-fPIC", "-nostdlib"]
    subprocess.run([*compiler, "-fuse-ld=lld", "-o", library, source], check=True)
    return library
