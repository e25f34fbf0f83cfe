"""The part of the gate that proves: `rt ci`, on a copy of the tree without the crates that are not proved."""
import contextlib
import importlib.machinery
import importlib.util
import os
import re
import shutil
import subprocess
import tempfile
import threading
import time

from unproved.crates import Repository

from .parts import STARTED, STOPS, TOP, Part, wait_for

# What `rt ci` tells of a proof of a crate that has ended.
ENDED = re.compile(r"rt: (\w+) (?:proved|NOT PROVED|is kept)\b")
LEFT_OUT = shutil.ignore_patterns(".git", "out", "__pycache__")


def without_unproved(repository, text):
    """Returns the text of crates.txt without the lines of the crates that are not proved."""
    names = [it for it in repository.used if not repository.is_proved(it)]
    line = re.compile(rf"({'|'.join(map(re.escape, names))})[ :]" if names else r"(?!)")
    return "".join(it for it in text.splitlines(True) if not line.match(it))


@contextlib.contextmanager
def copy_of_proved():
    """Gives a copy of the tree that has no crate that is not proved, and in which `rt ci` finds all that it reads. It lies outside of any
    repository, as `rt ci` wants of a tree without a folder .git."""
    with STOPS.held():
        folder = tempfile.mkdtemp(prefix="gate-")
    try:
        copy_proved(f"{folder}/top")
        yield f"{folder}/top"
    finally:
        with STOPS.held():
            shutil.rmtree(folder, ignore_errors=True)


def copy_proved(copy):
    repository = Repository(TOP)
    shutil.copytree(TOP, copy, symlinks=True, ignore=LEFT_OUT)
    for crate in repository.used:
        if not repository.is_proved(crate):
            shutil.rmtree(f"{copy}/crates/{crate}", ignore_errors=True)
    with open(f"{TOP}/crates.txt", encoding="utf-8") as it:
        text = it.read()
    with open(f"{copy}/crates.txt", "w", encoding="utf-8") as it:
        it.write(without_unproved(repository, text))


def bring_back(copy):
    """Puts the programs that were built, and what they wrote, into the tree. The launchers take a program that is newer than all sources."""
    for crate in os.listdir(f"{copy}/crates"):
        made, out = f"{copy}/crates/{crate}/out", f"{TOP}/crates/{crate}/out"
        for name in os.listdir(made) if os.path.isdir(made) else ():
            if name == crate or name.startswith("stdout"):
                os.makedirs(out, exist_ok=True)
                if name == crate:
                    with contextlib.suppress(OSError):
                        os.remove(f"{out}/proved_from")
                shutil.copy(f"{made}/{name}", f"{out}/{name}.new")
                os.replace(f"{out}/{name}.new", f"{out}/{name}")


class Proofs(Part):
    """`rt ci`, with what each crate takes."""

    def told(self, words):
        with copy_of_proved() as self.copy:
            try:
                told = self.told_of(words)
            except BaseException:
                # (what works in the copy ends before it goes)
                STARTED.end()
                raise
            bring_back(self.copy)
            return told

    def told_of(self, words):
        ran, last = STARTED.start(words, cwd=self.copy, stdout=subprocess.PIPE, stderr=subprocess.STDOUT), ""
        with Crates(self.copy, ran.pid) as crates:
            for line in ran.stdout:
                last = self.say(line.replace(f"{self.copy}/", "")) or last
                crates.count(last)
            taken = wait_for(ran)
        crates.tell(taken)
        return ran.returncode, last, taken


class Crates:
    """Tells of each proof of `rt ci` that ended, and looks what each crate takes, as tools/gate_cost does."""

    def __init__(self, copy, pid):
        loader = importlib.machinery.SourceFileLoader("gate_cost", f"{TOP}/tools/gate_cost")
        self.cost = importlib.util.module_from_spec(importlib.util.spec_from_loader("gate_cost", loader))
        loader.exec_module(self.cost)
        self.watched, self.is_done, self.pid = self.cost.Watched(), threading.Event(), pid
        self.ended, self.all, self.began = 0, len(Repository(copy).used), time.monotonic()

    def __enter__(self):
        self.thread = threading.Thread(target=self.look, daemon=True)
        self.thread.start()
        return self

    def __exit__(self, *_):
        self.is_done.set()
        self.thread.join(10)

    def look(self):
        while not self.is_done.wait(0.5):
            self.watched.look(self.pid)

    def count(self, line):
        if found := ENDED.match(line):
            self.ended += 1
            gone = (time.monotonic() - self.began) / 60
            print(f"gate: {found[1]}, {self.ended} of {self.all} proofs, {gone:.0f} minutes gone", flush=True)

    def tell(self, taken):
        print("\n".join(self.cost.table(self.watched.sums(), taken, 0)), flush=True)
