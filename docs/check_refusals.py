"""Fault injection: runs programs while each request for memory, and each start of a thread, fails in turn.

usage: python3 docs/check_refusals.py [mapcli[=PATH]] [map_bench[=PATH]]

It takes some seconds. With no word it runs both programs: mapcli as it was proved and built last, and map_bench as it is built without its
proofs, which takes a minute or two where no build of its sources is kept. PATH is another one. It compiles tools/refuse.c with `cc`, and preloads that into each program, which runs again and again:
  the first request fails, then the second, and so on to the last; and all fail from the first on, then from the second on:
    the program writes what it writes without a failure, or it ends with its status and its line for want of memory;
  the same for the starts of threads: the program writes what it writes without a failure.
It prints a line for each run that did otherwise, and ends with status 1 if one did."""
import collections
import os
import subprocess
import sys
import tempfile

TOP = os.path.dirname(os.path.dirname(os.path.realpath(__file__)))
sys.path.insert(0, f"{TOP}/tools")
from unproved.build import Build  # noqa: E402
from unproved.crates import NotBuilt, Repository  # noqa: E402

# (a lone client, whose script has one outcome; the queries are shared by four workers, of which three are to be started)
SCRIPTS = [
    "client\n" + "".join(f"put k{number} {number}\n" for number in range(24)) + "query\ncount\nreduce sum 1\nreduce max 1\nsearch above 22 1\nlist 1\n",
    "client\nput a 1\nput b 2\nmerge a 4 sum\nquery\nreduce sum 1\nsearch above 4 1\nlist 18446744073709551615\n",
]
# What a program does: its words, what it reads, and its status and its errors for want of memory. The bulk operations of
# map_bench on a live map have four workers, too.
Case = collections.namedtuple("Case", "program words script short")
CASES = [Case("mapcli", ["--workers", "4", "-"], it, (3, ["mapcli: no memory\n"])) for it in SCRIPTS]
BULK = ["--mode", "bulk", "--entries", "100", "--runs", "0"]
CASES += [Case("map_bench", BULK, "", (1, [f"Error: {it}\n" for it in ("no memory", "out of memory", "memory allocation failed")]))]


class Program:
    """A program, with the library that refuses."""

    def __init__(self, path, case, top):
        self.path, self.case, self.library, self.told = path, case, f"{top}/refuse.so", f"{top}/told"

    def run(self, **refused):
        """Returns the status, the output and the errors, where this is refused."""
        environment = {**os.environ, **refused, "LD_PRELOAD": self.library, "REFUSE_TOLD": self.told}
        words = [self.path, *self.case.words]
        ran = subprocess.run(words, input=self.case.script, env=environment, capture_output=True, text=True, timeout=60, check=False)
        return ran.returncode, ran.stdout, ran.stderr

    def counts(self):
        """Returns what a run writes of which nothing is refused, and how many requests and starts it makes: the most of some runs."""
        counts = []
        for _ in range(5):
            whole = self.run()
            with open(self.told, encoding="utf-8") as it:
                counts.append([int(number) for number in it.read().split()])
        return whole, [max(it) for it in zip(*counts)]


def numbers(count):
    """Each number alone, and each with all that follow it."""
    return [f"{number}{more}" for number in range(1, count + 1) for more in ("", "-")]


def faults_of(program):
    whole, (requests, starts) = program.counts()
    if whole[0] or whole[2] or not requests or not starts:
        yield f"with nothing refused: {whole}, {requests} requests, {starts} starts"
        return
    short = 0
    for number in numbers(requests):
        ran = program.run(REFUSE_REQUEST=number)
        status, errors = program.case.short
        is_short = ran[0] == status and ran[2] in errors and whole[1].startswith(ran[1])
        short += is_short
        if ran != whole and not is_short:
            yield f"request {number}: {ran}"
    if not short:
        yield "no run tells that there is no memory"
    for number in numbers(starts):
        ran = program.run(REFUSE_START=number)
        if ran != whole:
            yield f"start {number}: {ran}"
    print(f"{program.case.program}: {requests} requests, {starts} starts: {2 * (requests + starts)} runs, of which {short} told want of memory")


def program_of(name):
    """Returns the program that is tried where no other is named."""
    return f"{TOP}/crates/mapcli/out/mapcli" if name == "mapcli" else Build(Repository(TOP), name).make()


def main(*words):
    paths = dict(it.partition("=")[::2] for it in words or ("mapcli", "map_bench"))
    if lacking := [it for it in paths if it not in (case.program for case in CASES)]:
        print(__doc__ if lacking[0] in ("--help", "-h") else f"check_refusals: there is no program {lacking[0]}")
        return 0 if lacking[0] in ("--help", "-h") else 2
    paths = {name: os.path.realpath(path or program_of(name)) for name, path in paths.items()}
    if missing := [it for it in paths.values() if not os.access(it, os.X_OK)]:
        print(f"{os.path.relpath(missing[0])} is not there: nothing was tested")
        return 1
    with tempfile.TemporaryDirectory() as top:
        subprocess.run(["cc", "-O2", "-fPIC", "-shared", "-o", f"{top}/refuse.so", f"{TOP}/tools/refuse.c"], check=True)
        faults = [fault for case in CASES if case.program in paths for fault in faults_of(Program(paths[case.program], case, top))]
    for fault in faults:
        print(fault)
    print(f"{len(faults)} faults")
    return 1 if faults else 0


if __name__ == "__main__":
    try:
        sys.exit(main(*sys.argv[1:]))
    except NotBuilt as why:
        sys.exit(f"check_refusals: {why}")
