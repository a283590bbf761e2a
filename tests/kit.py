"""The kit's command `rt` as a Python module, for the tests that read what its checks say."""

import importlib.machinery
import importlib.util
import json
import os
import shutil
import subprocess
import sys
import tempfile


def load():
    """Returns the command `rt` that is on PATH as a module, or ends if there is none."""
    found = shutil.which("rt")
    if found is None:
        sys.exit("the toolchain's command 'rt' is not on PATH")
    loader = importlib.machinery.SourceFileLoader("rt", os.path.realpath(found))
    module = importlib.util.module_from_spec(importlib.util.spec_from_loader("rt", loader))
    sys.modules["rt"] = module
    loader.exec_module(module)
    return module


def check_functions(rt, crate, texts, ends, kept):
    """Checks the functions whose names have these ends, in a crate with these texts, and returns what the check says. It
    uses a copy of the kept work, so that the next check finds that unchanged: each check replaces what was there by what it
    read."""
    flags = ["--jobs", "1", *(word for end in ends for word in ("--only", end))]
    with tempfile.TemporaryDirectory(prefix="rt-kept-") as room, tempfile.TemporaryDirectory(prefix="rt-edit-") as folder:
        if os.path.isdir(kept):
            shutil.copytree(kept, room, dirs_exist_ok=True, copy_function=linked)
        for part in rt.rtlib.PARTS:
            if os.path.isdir(f"{crate.folder}/{part}"):
                shutil.copytree(f"{crate.folder}/{part}", f"{folder}/{part}")
        for path, text in texts.items():
            os.makedirs(os.path.dirname(f"{folder}/{path}"), exist_ok=True)
            with open(f"{folder}/{path}", "w", encoding="utf-8") as file:
                file.write(text)
        words = [rt.rtlib.RATTLE, "check", *crate.words(flags, keeps=False), "--incremental", room]
        how = {"cwd": folder, "stdin": subprocess.DEVNULL, "stdout": subprocess.PIPE, "stderr": subprocess.STDOUT}
        return subprocess.run([*rt.rtlib.guarded(), *words], errors="replace", **how).stdout


def linked(old, new):
    """Gives a file of kept work a second name, or copies it if that isn't possible. A check never writes into such a file:
    it replaces it by a new one."""
    try:
        os.link(old, new)
    except OSError:
        shutil.copy2(old, new)


def keep_proof(crate, kept):
    """Copies what the proof of a library has left in its rlib to where a check looks for kept work. So a check of the crate
    with a few changes proves only these. Such a module counts only while all that it was proved from is the same. If
    there is none, as of a program, the check proves all."""
    modules, archive = (f"{crate.rlib}/toolchain/checked.{it}" for it in ("json", "a"))
    if not os.path.isfile(modules):
        return
    folder = os.path.join(kept, made_by(crate).replace("/", "_"))
    os.makedirs(folder)
    with open(archive, "rb") as whole, open(modules, encoding="utf-8") as lines:
        for name, start, length in map(json.loads, lines):
            if "/" not in name:
                whole.seek(start)
                with open(os.path.join(folder, f"{name}.oantt"), "wb") as module:
                    module.write(whole.read(length))


def made_by(crate):
    """Returns what built a crate's rlib, as kept work names it."""
    with open(f"{crate.rlib}/format", encoding="utf-8") as lines:
        return next(it.split(" ", 1)[1].strip() for it in lines if it.startswith("rattle-build "))
