"""Runs a program of this repository, and builds it first where its sources have changed.

usage: launch.py NAME WORD..              the proved program with these words: where it is not there, its crates are proved first
       launch.py NAME --unproved WORD..   the program as it is compiled without its proofs, which takes a minute or two where it is not there

A program is built anew only where a crate that it stands on has changed, by crates.txt and the crates' files; until the new one is done the old
one stays. Standard error tells how far a build is; all that rt says goes to out/build.log in the program's crate. Words that the program
would answer without a map, and a file that is not there, are answered before anything is built."""
import contextlib
import os
import signal
import sys

from proving import TOP, NotBuilt, Progress, Prover, Repository, Sources, Stopped, say, text_of
from unproved.build import Build as UnprovedBuild
from unproved.machine import refused
from words import Answered, answer

# The programs' own status where the machine is at fault.
NOT_BUILT = 3
SIGNALS = (signal.SIGINT, signal.SIGTERM, signal.SIGHUP)


def short(path):
    return os.path.relpath(path)


class Build(Prover):
    """Proves and builds a program."""

    def __init__(self, name):
        super().__init__(name, Sources(TOP, name))
        self.program = f"{self.out}/{name}"
        # (while this is there, the program beside it is not done)
        self.before = f"{self.program}.before"

    def is_current(self):
        if not os.access(self.program, os.X_OK) or os.path.exists(self.before):
            return False
        told = text_of(self.mark(self.name))
        built = os.stat(self.program).st_mtime
        if told is None:
            # (rt ci builds each program, and leaves no mark)
            is_current = built > self.sources.newest()
        else:
            # (a program that is newer than its mark was built by hand, from files of which nothing is told)
            is_current = built <= os.stat(self.mark(self.name)).st_mtime and told == self.sources.sum_of(self.name)
        if is_current:
            self.write_mark(self.name, self.sources.sum_of(self.name))
        return is_current

    def make(self):
        self.need_machine()
        with self.alone():
            self.put_back()
            if self.is_current():
                return
            try:
                with open(self.log, "w", encoding="utf-8") as log:
                    todo = [it for it in self.sources.crates[:-1] if not self.is_kept(it)] + [self.name]
                    self.foretell(todo)
                    self.prove_all(log, todo, self.finish)
                    say(self.name, f"proved and built in {self.progress.minutes()}")
            finally:
                self.put_back()

    def finish(self, log, crate, step):
        if crate != self.name:
            self.build_library(log, crate, step)
            return
        self.set_aside()
        self.rt(log, crate, ["run", "--", "--help"], f"{step}: compiling the program")
        if not os.access(self.program, os.X_OK):
            raise NotBuilt(f"{crate} was not compiled")
        os.remove(self.before)

    def foretell(self, todo):
        """Says what is to be done, about how long it takes, and what is there at once."""
        why = "has changed, or a crate below it" if os.path.exists(self.program) else "is not built yet"
        are = "crates are" if len(todo) > 1 else "crates is"
        say(self.name, f"the program {why}: {len(todo)} of {len(self.sources.crates)} {are} to be proved first. That takes {self.about(todo)}.")
        say(self.name, "it can be stopped at any time: what is proved by then is kept. With --unproved as the first word it runs in a minute or two, not proved.")

    def set_aside(self):
        """Keeps the program of the last build until the new one is done. An empty file stands for none."""
        with contextlib.suppress(OSError):
            os.remove(self.mark(self.name))
        if os.path.exists(self.program):
            os.replace(self.program, self.before)
        else:
            open(self.before, "wb").close()

    def put_back(self):
        """Undoes set_aside, where the new program was not done."""
        if not os.path.exists(self.before):
            return
        if os.path.getsize(self.before):
            os.replace(self.before, self.program)
        else:
            with contextlib.suppress(OSError):
                os.remove(self.program)
            os.remove(self.before)


def stop(number, _):
    # (one is enough: what the first one started is not to be cut off by a second)
    for it in SIGNALS:
        signal.signal(it, signal.SIG_IGN)
    raise Stopped(number)


def run(program, name, words):
    """Becomes the program."""
    for it in (*SIGNALS, signal.SIGPIPE, signal.SIGXFSZ):
        signal.signal(it, signal.SIG_DFL)
    os.execv(program, [name, *words])


def run_unproved(name, words):
    """Runs the program without its proofs, and compiles it so first where no build of these sources is kept."""
    progress = Progress(name)
    try:
        build = UnprovedBuild(Repository(TOP), name, tell=progress.show)
        is_kept = os.path.exists(build.kept())
    except NotBuilt:
        answer(name, words)
        raise
    if not is_kept:
        answer(name, words)
        say(name, "no proof is checked. The program is compiled without its proofs first, and kept: that takes a minute or two.")
    try:
        program = build.make()
    except Stopped:
        progress.clear()
        say(name, f"stopped after {progress.minutes()}: nothing is kept of this build")
        raise
    finally:
        progress.clear()
    run(program, name, words)


def run_proved(name, words):
    """Runs the program, and proves and builds it first where no build of these sources is there."""
    build = Build(name)
    try:
        if not build.is_current():
            answer(name, words)
            build.make()
    except Stopped:
        build.progress.clear()
        old = f" The program of the last build is {short(build.program)}." if os.path.exists(build.program) else ""
        say(name, f"stopped after {build.progress.minutes()}. What was proved is kept: the next start goes on from there.{old}")
        raise
    except NotBuilt as why:
        build.progress.clear()
        has_log = os.path.isfile(build.log) and os.path.getsize(build.log)
        raise NotBuilt(f"{why} ({short(build.log)} has what rt said)" if has_log else str(why)) from None
    run(build.program, name, words)


def tell(name, told):
    """Tells an answer, and returns its status. Where the output is closed or full, that is told as the program does."""
    rest = told.text.encode()
    try:
        while rest:
            rest = rest[os.write(1 if told.is_output else 2, rest) :]
    except OSError:
        if told.is_output:
            return tell(name, Answered(NOT_BUILT, f"{name}: device\n"))
    return told.status


def main(name, *words):
    for it in SIGNALS:
        signal.signal(it, stop)
    try:
        if words[:1] == ("--unproved",):
            run_unproved(name, words[1:])
        run_proved(name, words)
    except Answered as told:
        return tell(name, told)
    except OSError as error:
        raise refused(error) from None


if __name__ == "__main__":
    try:
        sys.exit(main(*sys.argv[1:]))
    except NotBuilt as why:
        say(sys.argv[1], f"the program was not built: {why}")
        sys.exit(NOT_BUILT)
    except Stopped as by:
        sys.exit(128 + by.args[0])
