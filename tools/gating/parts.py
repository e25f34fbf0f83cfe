"""Parts of the gate: commands that run one after the other, or beside each other, and what each counts."""
import contextlib
import os
import re
import shutil
import signal
import subprocess
import sys
import tempfile
import threading
import time

TOP = os.path.dirname(os.path.dirname(os.path.dirname(os.path.realpath(__file__))))
COUNTS = re.compile(r"(\d+) passed, (\d+) failed(?:, (\d+) left out)?.*")
# What was started has so many seconds to end by itself once the gate is stopped.
PATIENCE = 1.2
# What runs beside the proofs takes what they leave of the processors. Linux shares them between sessions first, by a number of each session, and
# by the niceness of processes only within a session.
BESIDE = ["sh", "-c", 'echo 10 2> /dev/null > /proc/$$/autogroup; exec nice -n 10 "$@"', "sh"]
PRINTING = threading.RLock()


class Stopped(Exception):
    """A signal asks to end."""


class Stops:
    """Takes the signals that ask to end: at once, or after what must not be cut in two."""

    def __init__(self):
        self.is_held, self.asked = False, 0

    def __call__(self, number, _):
        # (one is enough: what it ends is not to be cut off by a second)
        for it in (signal.SIGINT, signal.SIGTERM, signal.SIGHUP):
            signal.signal(it, signal.SIG_IGN)
        self.asked = number
        if not self.is_held:
            raise Stopped(number)

    @contextlib.contextmanager
    def held(self):
        if threading.current_thread() is not threading.main_thread():
            yield
            return
        self.is_held = True
        yield
        self.is_held = False
        if self.asked:
            raise Stopped(self.asked)


STOPS = Stops()


class Started:
    """What was started, each in a session of its own, so that Ctrl-C reaches the gate alone, which then ends all of it."""

    def __init__(self):
        self.all, self.lock, self.is_over = [], threading.Lock(), False

    def start(self, words, **how):
        with STOPS.held(), self.lock:
            if self.is_over:
                raise Stopped(0)
            how = {"cwd": TOP, "stdin": subprocess.DEVNULL, "start_new_session": True, "text": True, "errors": "replace", **how}
            self.all.append(subprocess.Popen(words, **how))
            return self.all[-1]

    def end(self):
        """Asks all by the signal of Ctrl-C to end, and kills what has not ended in time."""
        with self.lock:
            self.is_over = True
        running = [it for it in self.all if not has_ended(it)]
        for it in running:
            with contextlib.suppress(ProcessLookupError):
                it.send_signal(signal.SIGINT)
        until = time.monotonic() + PATIENCE
        while time.monotonic() < until and not all(map(has_ended, running)):
            time.sleep(0.05)
        for it in running:
            with contextlib.suppress(ProcessLookupError):
                os.killpg(it.pid, signal.SIGKILL)


STARTED = Started()


def has_ended(ran):
    try:
        return os.waitid(os.P_PID, ran.pid, os.WEXITED | os.WNOHANG | os.WNOWAIT) is not None
    except ChildProcessError:
        return True


def wait_for(ran):
    """Waits for a command. Returns the seconds of processor time of it and of all that it waited for. What was ended has nothing to say."""
    _, status, used = os.wait4(ran.pid, 0)
    ran.returncode = os.waitstatus_to_exitcode(status)
    if STARTED.is_over:
        raise Stopped(0)
    return used.ru_utime + used.ru_stime


class Part:
    """A part of the gate: its command, what it needs, and whether it takes the word --all."""

    def __init__(self, name, words, tool="", takes_all=False):
        self.name, self.words, self.tool, self.takes_all = name, words, tool, takes_all
        self.counts = (0, 1, 0)

    def lacks(self):
        """Returns what the part needs and is not here, if there is something."""
        return f"there is no {self.tool}" if self.tool and not shutil.which(self.tool) else None

    def run(self, wants_all):
        """Runs the part, says what it says, and keeps how much of it passed, failed and was left out."""
        with PRINTING:
            print(f"== {self.name}", flush=True)
        if why := self.lacks():
            print(f"{self.name}: left out, {why}", flush=True)
            self.counts = 0, 0, 1
            return
        began = time.monotonic()
        status, last, taken = self.told([*self.words, *["--all"] * (wants_all and self.takes_all)])
        print(f"{self.name}: {taken / 60:.1f} minutes of processor time, {(time.monotonic() - began) / 60:.1f} by the clock", flush=True)
        self.count(status, last, wants_all)

    def count(self, status, last, wants_all):
        if not (found := COUNTS.fullmatch(last)):
            self.counts = (0, 1, 0) if status else (1, 0, 0)
            return
        passed, failed, left_out = (int(it or 0) for it in found.groups())
        is_told = failed or wants_all and left_out
        self.counts = passed, failed + (status != 0 and not is_told), left_out

    def told(self, words):
        """Says what a command says. Returns its status, its last line and its processor time."""
        ran, last = STARTED.start(words, stdout=subprocess.PIPE, stderr=subprocess.STDOUT), ""
        for line in ran.stdout:
            last = self.say(line) or last
        taken = wait_for(ran)
        return ran.returncode, last, taken

    def say(self, line):
        """Says a line of the part's, and returns it. The line that counts all is to stand last, and alone."""
        with PRINTING:
            print(f"{self.name}: {line}" if COUNTS.fullmatch(line.strip()) else line, end="", flush=True)
        return line.strip()


class PartBeside(Part):
    """A part that runs beside the proofs. What it says is said at once when it has ended."""

    def told(self, words):
        with tempfile.TemporaryFile("w+", encoding="utf-8", errors="replace") as said:
            ran = STARTED.start([*BESIDE, *words], stdout=said, stderr=subprocess.STDOUT)
            taken, last = wait_for(ran), ""
            said.seek(0)
            with PRINTING:
                for line in said:
                    last = self.say(line) or last
        return ran.returncode, last, taken


@contextlib.contextmanager
def beside(parts, wants_all):
    """Runs these parts beside what is done meanwhile, each beside the others, and waits for them."""

    def run(part):
        with contextlib.suppress(Stopped):
            part.run(wants_all)

    threads = [threading.Thread(target=run, args=(it,), daemon=True) for it in parts]
    for it in threads:
        it.start()
    yield
    for it in threads:
        it.join()


def python(*words):
    """Returns the words that start a script of this repository."""
    return [sys.executable, *words]
