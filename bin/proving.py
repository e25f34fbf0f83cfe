"""Proves crates of a repository with the toolchain, those below first, and tells how far that is.

What a check proves is kept in the crates' folders out/, so one that was stopped goes on from there; what was proved in another copy of the
same crates on this machine is not proved again."""
import contextlib
import fcntl
import hashlib
import os
import re
import select
import shutil
import subprocess
import sys
import time

TOP = os.path.dirname(os.path.dirname(os.path.realpath(__file__)))
sys.path.insert(0, f"{TOP}/tools")

from unproved.crates import Kit, NotBuilt, Repository, text_of  # noqa: E402
from unproved.machine import FULL, is_full, need_memory  # noqa: E402
from unproved.times import measured  # noqa: E402

# A first check of 1,000 lines of a crate that no gate measured takes a processor so many minutes, and a check over kept work much less.
MINUTES_A_LINE, KEPT_SHARE = 2 / 1000, 0.2
# The prover takes so much memory.
MEMORY = 4 << 30


class Stopped(Exception):
    """A signal asks to end."""


def say(name, text):
    print(f"{name}: {text}", file=sys.stderr, flush=True)


class Sources(Repository):
    """Some crates of a repository, each after those that it stands on, and what they are proved from."""

    def __init__(self, top, *crates):
        super().__init__(top)
        for crate in crates:
            if crate not in self.used:
                raise NotBuilt(f"{top}/crates.txt has no line for {crate}: bin/vendor writes it")
        self.crates = list(dict.fromkeys(it for crate in crates for it in [*self.below(crate), crate]))
        lacks = next((it for it in self.crates if not os.path.isdir(f"{self.folder(it)}/src")), None)
        if lacks:
            raise NotBuilt(f"{self.folder(lacks)}/src is not there, and {top}/crates.txt names {lacks}: copy the crate, or take its line out")

    def all_files(self, crate):
        for part in ("src", "specs", "proofs"):
            for at, folders, names in os.walk(f"{self.folder(crate)}/{part}"):
                folders.sort()
                yield from (f"{at}/{it}" for it in sorted(names))

    def sum_of(self, crate):
        """Returns a sum of all that the crate is proved from."""
        made = hashlib.sha256()
        for it in [*self.below(crate), crate]:
            made.update(repr((it, self.used[it])).encode())
            for file in self.all_files(it):
                with open(file, "rb") as opened:
                    made.update(repr((os.path.relpath(file, self.top), opened.read())).encode())
        return made.hexdigest()

    def lines(self, crate):
        return sum((text_of(it) or "").count("\n") for it in self.all_files(crate))

    def newest(self):
        return max(os.stat(it).st_mtime for crate in self.crates for it in self.all_files(crate))


class Progress:
    """Tells how far a build is: on a terminal in one line that changes, elsewhere in a line for each step and minute."""

    def __init__(self, name):
        self.name, self.start, self.told = name, time.monotonic(), None
        self.is_terminal = sys.stderr.isatty()

    def minutes(self):
        gone = int((time.monotonic() - self.start) / 60)
        return f"{gone} minute{'s' * (gone != 1)}"

    def show(self, step, detail=""):
        line = f"{self.name}: {step}{detail}, {self.minutes()} gone"
        if self.is_terminal:
            print(f"\r\033[K{line[: shutil.get_terminal_size().columns - 1]}", end="", file=sys.stderr, flush=True)
        elif self.told != (step, self.minutes()):
            print(line, file=sys.stderr, flush=True)
        self.told = step, self.minutes()

    def clear(self):
        if self.is_terminal and self.told:
            print("\r\033[K", end="", file=sys.stderr, flush=True)


class Prover:
    """Proves the crates of some sources, and builds their libraries. Its name stands before what it tells."""

    def __init__(self, name, sources):
        self.name, self.sources, self.progress = name, sources, Progress(name)
        self.out = f"{sources.folder(sources.crates[-1])}/out"
        self.log = f"{self.out}/build.log"

    def mark(self, crate):
        return f"{self.sources.folder(crate)}/out/proved_from"

    def write_mark(self, crate, its_sum):
        with contextlib.suppress(OSError), open(self.mark(crate), "w", encoding="utf-8") as it:
            it.write(its_sum)

    def is_kept(self, crate):
        """Returns whether the crate's library was built from what its files have now."""
        return os.path.isfile(f"{self.sources.folder(crate)}/out/rlib/stamp") and text_of(self.mark(crate)) == self.sources.sum_of(crate)

    def todo(self):
        return [it for it in self.sources.crates if not self.is_kept(it)]

    def about(self, todo):
        """Returns about how long it takes to prove some crates."""
        is_new = lambda it: not os.path.isdir(f"{self.sources.folder(it)}/out/incremental")
        times = measured()
        of_first = lambda it: times[it]["proof"] / 60 if it in times else self.sources.lines(it) * MINUTES_A_LINE
        minutes = sum(of_first(it) * (1 if is_new(it) else KEPT_SHARE) for it in todo)
        return f"about {minutes:.0f} minutes on one processor, less on several" if minutes >= 2 else "a minute or two"

    def need_machine(self):
        """Fails where the kit is another one, or memory is short."""
        Kit().need_version()
        need_memory(MEMORY, "proving")

    @contextlib.contextmanager
    def alone(self):
        """Waits for another start that builds the same."""
        os.makedirs(self.out, exist_ok=True)
        with open(f"{self.out}/launch.lock", "w", encoding="utf-8") as lock:
            try:
                fcntl.flock(lock, fcntl.LOCK_EX | fcntl.LOCK_NB)
            except OSError:
                say(self.name, "another start of it builds: waiting")
                fcntl.flock(lock, fcntl.LOCK_EX)
            yield

    def prove(self, log, crate, step, finish):
        """Proves a crate, and then lets `finish` build it."""
        its_sum = self.sources.sum_of(crate)
        self.rt(log, crate, ["check"], step, "is not proved")
        finish(crate, step)
        if its_sum == self.sources.sum_of(crate):
            self.write_mark(crate, its_sum)

    def prove_all(self, log, todo, finish):
        for number, crate in enumerate(todo):
            self.prove(log, crate, f"crate {number + 1} of {len(todo)}, {crate}", lambda it, step: finish(log, it, step))
        self.progress.clear()

    def build_library(self, log, crate, step):
        self.rt(log, crate, ["lib"], f"{step}: building the library", "was not built")

    def rt(self, log, crate, words, step, fault=None):
        """Runs rt in the crate's folder, and shows how far it is. Where a fault is given, status 0 is wanted."""
        how = {"cwd": self.sources.folder(crate), "stdin": subprocess.DEVNULL, "stdout": subprocess.PIPE, "stderr": subprocess.STDOUT}
        print(f"rt {' '.join(words)}, of {crate}", file=log, flush=True)
        try:
            ran = subprocess.Popen(["rt", *words], **how)
        except OSError as error:
            raise NotBuilt(f"rt does not start ({error.strerror}): install the Rattle kit, and put its folder bin on the PATH") from None
        detail, wrong, rest = "", "", b""
        try:
            self.progress.show(step)
            while True:
                if select.select([ran.stdout], [], [], 1)[0]:
                    got = os.read(ran.stdout.fileno(), 65536)
                    if not got:
                        break
                    *lines, rest = (rest + got).split(b"\n")
                    for line in lines:
                        told = line.decode(errors="replace")
                        print(told, file=log, flush=True)
                        found = re.match(r"checked \S+, (\d+) of (\d+)", told)
                        detail = f": {found[1]} of {found[2]} functions" if found else detail
                        wrong = wrong or (told.strip() if re.search(r"\berror\b|killed|No space left", told) else "")
                self.progress.show(step, detail)
            status = ran.wait()
        finally:
            # (rt takes with it what it started)
            if ran.poll() is None:
                ran.terminate()
                ran.wait()
        if fault and status:
            self.fail(f"{crate} {fault}", wrong)

    def fail(self, fault, wrong):
        """Fails, and says why, by the first line that tells."""
        if "No space left" in wrong or is_full(self.out):
            raise NotBuilt(f"{fault}: the disk is full: {FULL}")
        if "killed" in wrong:
            raise NotBuilt(f"{fault}: the prover was killed, most likely for memory: {MEMORY >> 30} GB are wanted: end other programs, and start again")
        raise NotBuilt(f"{fault}{f': {wrong[:200]}' if wrong else ''}")
