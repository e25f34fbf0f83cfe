"""The maps that are measured: what builds each, and the command that runs it."""
import os
import re
import shutil
import subprocess
import sys
from collections import namedtuple

BENCH = os.path.dirname(os.path.realpath(__file__))
TOP = os.path.dirname(BENCH)
PEERS = f"{BENCH}/peers"
OUT = f"{BENCH}/out"
# Where Debian's packages put the sources of Rust crates.
DEBIAN_CRATES = "/usr/share/cargo/registry"
# A run that takes longer is given up.
SECONDS = 900

# The forms of this repository's own map: the name of a form, and the words that map_bench takes for it.
OWN_FORMS = [("facingberyl", ["--form", "lean"]), ("facingberyl, recorded", ["--form", "recorded"])]
# The peers that call it from C, by the kind of the map.
FROM_C = {"numbers": "numbers_from_c", "counts": "counts_from_c", "bytes": "bytes_from_c"}
# A team has at most 32 passes, and one caller fills the map; a map that is called from C is opened for so many clients.
OWN_THREADS, OWN_CLIENTS = 31, 1023
# The crates that a peer in Rust is built with.
WITH_RAYON = "dashmap, rayon"
RUST_CRATES = {"dashmap": ["dashmap"], WITH_RAYON: ["dashmap", "rayon"]}

# The modes that all maps have; a map may have some more.
COMMON_MODES = ["get", "mix", "merge", "fill", "stall"]
# These are of maps that lend a value, or change it by a function, where it lies; and a walk shows all entries.
IN_PLACE_MODES = ["view", "update", "walk"]
# This is of the peers that take a kind of keys: they fill a map, and tell how many bytes an entry takes.
MEMORY = "memory"

# What a run is of.
Workload = namedtuple("Workload", "mode keys threads calls choice")


class Lacking(Exception):
    """What a map needs is not on this machine, or did not build."""


class Failed(Exception):
    """A run gave no rate."""


class Map:
    """One map to measure. `words` gives the command for a workload; `more_modes` are those that not all maps have."""

    def __init__(self, name, words, is_own=False, most_threads=None, more_modes=()):
        self.name, self.words, self.is_own = name, words, is_own
        self.most_threads, self.modes = most_threads, [*COMMON_MODES, *more_modes]

    def takes(self, workload):
        return workload.mode in self.modes and (not self.most_threads or workload.threads <= self.most_threads)

    def run(self, workload):
        """Returns how many million calls a second the map made, or in mode stall how many milliseconds its longest call took."""
        words = [str(it) for it in self.words(workload)]
        try:
            ran = subprocess.run(words, capture_output=True, text=True, timeout=SECONDS)
        except subprocess.TimeoutExpired:
            raise Failed(f"{self.name} had not ended after {SECONDS} seconds") from None
        lines = ran.stdout.splitlines()
        found = re.fullmatch(r"\S+ (\w+) (\d+) (\d+\.\d+)", lines[-1]) if lines else None
        if ran.returncode or not found or found[1] != workload.mode or int(found[2]) != workload.threads:
            why = (ran.stderr or ran.stdout).strip().split("\n")[0]
            raise Failed(f"{self.name} ended with status {ran.returncode}: {why[:200]}")
        return float(found[3])


def need(tool):
    if not shutil.which(tool):
        raise Lacking(f"there is no {tool}")


def build(what, words, **how):
    """Runs a compiler."""
    need(words[0])
    ran = subprocess.run(words, stdout=subprocess.PIPE, stderr=subprocess.STDOUT, text=True, **how)
    if ran.returncode:
        lines = [it for it in ran.stdout.splitlines() if "error" in it] or ran.stdout.splitlines() or ["no reason told"]
        raise Lacking(f"{what} did not build: {lines[0].strip()[:200]}")


def first_line(*words):
    """Returns the first line that a command prints, as its version."""
    try:
        ran = subprocess.run(words, stdout=subprocess.PIPE, stderr=subprocess.STDOUT, text=True)
    except OSError:
        return None
    return ran.stdout.strip().split("\n")[0] if ran.returncode == 0 else None


def jdk(_kind):
    """The JDK's map, plain and with each call recorded."""
    need("java")
    build("JdkMap.java", ["javac", "-d", f"{OUT}/jdk", f"{PEERS}/JdkMap.java"])
    words = lambda kind: lambda it: ["java", "-cp", f"{OUT}/jdk", "JdkMap", kind, it.mode, it.threads, it.calls, it.keys, it.choice]
    return [Map("JDK, recorded", words("recorded")), Map("JDK", words("plain"), more_modes=IN_PLACE_MODES)]


def program_of_jdk(name):
    """A program over the JDK's map, which takes its words as they are."""
    build(f"{name}.java", ["javac", "-d", f"{OUT}/jdk", f"{PEERS}/{name}.java"])
    need("java")
    return [("JDK", lambda *them: ["java", "-cp", f"{OUT}/jdk", name, *them], False)]


def bulk_of_jdk(_):
    return program_of_jdk("JdkBulk")


def bulk_of_dashmap(_):
    program = f"{of_rust('dashmap_bulk')}/dashmap_bulk"
    return [(WITH_RAYON, lambda *them: [program, *them], False)]


def own_bulk(binary):
    """This repository's bulk operations, by the given binary, or else by the proved one."""
    program = own_program(binary)
    words = lambda entries, workers, writers, runs: [
        *[program, "--mode", "bulk", "--entries", entries, "--workers", workers, "--writers", writers, "--runs", runs],
    ]
    return [("facingberyl", words, True)]


def own_users(binary):
    """This repository's programs as users write them, by the given binary, or else built without proofs."""
    program = binary
    if not program:
        program = f"{OUT}/user_bench"
        build("user_bench", [f"{TOP}/tools/build_unproved", "user_bench", program])
    if not os.access(program, os.X_OK):
        raise Lacking(f"{program} is no program")
    return [("facingberyl", lambda *them: [program, *them], True)]


def users_of_jdk(_):
    return program_of_jdk("JdkUsers")


def users_of_dashmap(_):
    program = f"{of_rust('dashmap_users')}/dashmap_users"
    return [("dashmap", lambda *them: [program, *them], False)]


def jdk_memory(kind):
    """The JDK's map, whose heap is looked at."""
    need("java")
    build("JdkMemory.java", ["javac", "-d", f"{OUT}/jdk", f"{PEERS}/JdkMemory.java"])
    return [Map("JDK", lambda it: ["java", "-cp", f"{OUT}/jdk", "JdkMemory", it.keys, kind], more_modes=[MEMORY])]


def peer(name, program, kind=None, more_modes=(), **more):
    """A peer whose program takes the workload in five words, and its kind in one more where keys are no texts."""
    kinds = [kind] if kind else []
    modes = [*more_modes, *([MEMORY] if kind else [])]
    return Map(name, lambda it: [program, it.mode, it.threads, it.calls, it.keys, it.choice, *kinds], more_modes=modes, **more)


def of_rust(name):
    """Builds a peer in Rust over the crates that Debian packages, and returns the program's path up to its name."""
    if not os.path.isdir(f"{DEBIAN_CRATES}/"):
        raise Lacking("librust-dashmap-dev is not installed")
    # (a copy, since cargo writes a file beside Cargo.toml)
    shutil.copytree(f"{PEERS}/{name}", f"{OUT}/{name}", dirs_exist_ok=True)
    words = ["cargo", "build", "--release", "--offline", "--target-dir", "target"]
    words += ["--config", 'source.crates-io.replace-with="debian"', "--config", f'source.debian.directory="{DEBIAN_CRATES}"']
    build(name, words, cwd=f"{OUT}/{name}")
    return f"{OUT}/{name}/target/release"


def dashmap(kind):
    program = f"{of_rust('dashmap')}/dashmap_peer"
    spread = [peer("dashmap, hash as ours", program, "spread")] if kind == "numbers" else []
    return [peer("dashmap", program, kind, more_modes=IN_PLACE_MODES), *spread]


def of_cpp(name, libraries):
    words = ["g++", "-O3", "-std=c++17", f"-I{TOP}/include", "-o", f"{OUT}/{name}", f"{PEERS}/{name}.cpp", *libraries, "-pthread"]
    build(f"{name}.cpp", words)
    return f"{OUT}/{name}"


def tbb(kind):
    return [peer("TBB", of_cpp("tbb", ["-ltbb"]), kind)]


def libcuckoo(kind):
    return [peer("libcuckoo", of_cpp("libcuckoo", []), kind)]


def called_from_c(library, kind):
    """This repository's map of this kind, through the given static library that was installed, or else the proved one."""
    if not library:
        library = f"{OUT}/installed/lib/libfacing.a"
        build("the C library", [f"{TOP}/tools/install", f"{OUT}/installed"])
    if not os.path.exists(library):
        raise Lacking(f"{library} is not there")
    program = of_cpp(FROM_C[kind], [library])
    return [peer("facingberyl, from C", program, kind, is_own=True, most_threads=OWN_CLIENTS)]


def own_program(binary):
    """Returns the given binary, or else the proved map_bench, which is built where it is not current."""
    if not binary:
        if subprocess.run([f"{TOP}/bin/map_bench"], stdout=subprocess.DEVNULL).returncode:
            raise Lacking("map_bench was not proved and built")
        binary = f"{TOP}/crates/map_bench/out/map_bench"
    if not os.access(binary, os.X_OK):
        raise Lacking(f"{binary} is no program")
    return binary


def own(binary):
    """This repository's map in each form."""
    program = own_program(binary)
    words = lambda more: lambda it: [
        *[program, "--mode", it.mode, "--threads", it.threads, "--calls", it.calls, "--keys", it.keys, "--choice", it.choice],
        *more,
    ]
    modes = [*IN_PLACE_MODES, "copies", "list", "churn"]
    return [Map(name, words(more), is_own=True, most_threads=OWN_THREADS, more_modes=modes) for name, more in OWN_FORMS]


OWN_NAME = "this repository's map"
JDK_BUILD, PEER_BUILDS = ("the JDK's map", jdk), [("dashmap", dashmap), ("TBB", tbb), ("libcuckoo", libcuckoo)]
# Of bulk operations: what builds gives a name, the command for numbers of entries, workers, writers and runs, and whether it is this
# repository's.
BULK_BUILDS = [(OWN_NAME, own_bulk), ("the JDK's map", bulk_of_jdk), (WITH_RAYON, bulk_of_dashmap)]
# Of programs that users write: what builds gives a name, the command for a mode, clients, a size and runs, and whether it is this repository's.
USER_BUILDS = [(OWN_NAME, own_users), ("the JDK's map", users_of_jdk), ("dashmap", users_of_dashmap)]


def built(builds, given):
    """Builds what this machine can build. Returns what each gives, and a line on each that is left out."""
    os.makedirs(OUT, exist_ok=True)
    found, lacking = [], []
    for name, make in builds:
        try:
            found += make(given)
        except Lacking as why:
            lacking.append(f"{name}: {why}")
            print(f"bench: left out {name}: {why}", file=sys.stderr)
    return found, lacking


def build_all(given, kind=None):
    """Builds what this machine can build: maps of texts, or with the word `numbers`, `counts` or `bytes` those of numbers, of numbers
    by byte strings or of byte strings, this repository's called from C. A program or static library that is given is this repository's. Returns the maps, and a line on
    each that is left out."""
    ours = (OWN_NAME, lambda _: called_from_c(given, kind) if kind else own(given))
    return built([ours, *([] if kind else [JDK_BUILD]), *PEER_BUILDS], kind)


def versions(maps):
    """Returns what the maps were built with, as far as it tells."""
    names, found = {it.name for it in maps}, []
    if any(it.is_own for it in maps):
        found.append(first_line("rt", "version"))
    if "JDK" in names:
        found.append(first_line("java", "-version"))
    if crates := {it for name in names for it in RUST_CRATES.get(name, ())}:
        found += [it for it in sorted(os.listdir(DEBIAN_CRATES)) if it.rpartition("-")[0] in crates]
        found.append(first_line("rustc", "--version"))
    packages = [package for name, package in (("TBB", "libtbb-dev"), ("libcuckoo", "libcuckoo-dev")) if name in names]
    found += [first_line("dpkg-query", "-W", "-f", "${Package} ${Version}", it) for it in packages]
    if packages:
        found.append(first_line("g++", "--version"))
    return [it for it in found if it]
