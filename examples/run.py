#!/usr/bin/env python3
"""Installs the C library into a temporary folder, and builds and runs over it the examples in C, C++, Rust and Python, and the
tests in C: as they are, with the sanitizers of addresses and of undefined behaviour, and under valgrind. Each compares what it got
with what it must be.

usage: python3 examples/run.py [--proved] [--all] [WORD]

Without --proved the library is built without its proofs; with it it is the one of `rt lib`. WORD: only what has it in its
name. What needs a tool that is not there is left out and named; with --all that is a failure. The last line is
`N passed, M failed, K left out`; the status is 1 where one failed."""
import os
import re
import shlex
import shutil
import subprocess
import sys
import tempfile

HERE = os.path.dirname(os.path.realpath(__file__))
TOP = os.path.dirname(HERE)
C, CPP, CPP17, CPP20 = ["cc", "-std=c11"], ["c++", "-std=c++17", "-x", "c++"], ["c++", "-std=c++17"], ["c++", "-std=c++20"]
SANITIZED = ["-g", "-O1", "-fsanitize=address,undefined", "-fno-sanitize-recover=all"]
WATCHED = ["-g", "-O1", "-fsanitize=thread"]
VALGRIND = ["valgrind", "-q", "--leak-check=full", "--show-leak-kinds=all", "--error-exitcode=9"]
# No program takes so many seconds, on a busy machine either.
LONGEST = 1200
# The tests that refuse memory, or stop where it is requested, stand between the library and the heap.
WRAPPED = ["-Wl,--wrap=malloc,--wrap=calloc,--wrap=realloc,--wrap=free"]
STOPPED = ["-Wl,--wrap=malloc,--wrap=sched_yield"]
WARNED = ["-Wall", "-Wextra", "-Wpedantic", "-Wshadow", "-Wconversion", "-Werror"]
CMAKE = """cmake_minimum_required(VERSION 3.13)
project(tried C)
find_package(facing @VERSION@ REQUIRED CONFIG)
add_executable(shared {0})
target_link_libraries(shared facing::facing)
add_executable(static {0})
target_link_libraries(static facing::static)
"""


class Lacking(Exception):
    """A tool is not there."""


def need(*tools):
    for tool in tools:
        if not shutil.which(tool):
            raise Lacking(f"there is no {tool}")


class Place:
    """The folder of what is built, and the package in it."""

    def __init__(self, folder, is_proved):
        self.folder, self.prefix, self.made = folder, f"{folder}/installed", 0
        unproved = {} if is_proved else {"UNPROVED": "1"}
        subprocess.run([f"{TOP}/tools/install", self.prefix], env={**os.environ, **unproved}, check=True)
        self.found = {**os.environ, "PKG_CONFIG_PATH": f"{self.prefix}/lib/pkgconfig"}

    def built(self, words, flags=()):
        ran = subprocess.run(words, capture_output=True, text=True, check=False)
        if ran.returncode:
            if "cannot find" in ran.stderr and "-fsanitize" in " ".join(flags):
                raise Lacking("the sanitizers' libraries are not installed")
            raise subprocess.CalledProcessError(ran.returncode, words, ran.stdout, ran.stderr)

    def program(self, compiler, source, flags=("-O2",), more=()):
        """Builds a program with the static library, and returns its path."""
        need(compiler[0])
        self.made += 1
        program = f"{self.folder}/program_{self.made}"
        words = [*compiler, *flags, *WARNED, f"-I{self.prefix}/include", f"{HERE}/{source}", "-x", "none"]
        self.built([*words, f"{self.prefix}/lib/libfacing.a", *more, "-lpthread", "-o", program], flags)
        return program

    def sanitized(self, compiler, source, more=()):
        return self.program(compiler, source, SANITIZED, more)

    def watched(self, compiler, source):
        """A program that ThreadSanitizer watches."""
        return self.program(compiler, source, WATCHED)

    def without_warnings(self):
        """Builds ordinary programs by two compilers at three levels, in each of which nothing may be warned of, and runs them."""
        need("gcc", "clang")
        folder, built, programs = f"{HERE}/c/tests/ordinary", 0, []
        for source in sorted(os.listdir(folder)):
            for compiler in ("gcc", "clang"):
                for level in ("-O1", "-O2", "-O3"):
                    programs.append(f"{self.folder}/{source}_{compiler}{level}")
                    words = [compiler, "-std=c11", "-D_GNU_SOURCE", level, "-Wall", "-Wextra", "-Werror", f"-I{self.prefix}/include"]
                    self.built([*words, f"{folder}/{source}", f"{self.prefix}/lib/libfacing.a", "-lpthread", "-o", programs[-1]])
                    built += 1
        is_right, said = run(*programs)
        return is_right, f"{built} built, 0 wrong" if is_right else said

    def leaks_no_macros(self):
        """What the headers define, and is still there behind facing.hpp: nothing but what stands before each, and the version."""
        need("c++")
        headers = sorted(it for it in os.listdir(f"{self.prefix}/include") if it.startswith("facing"))
        text = "".join(open(f"{self.prefix}/include/{it}", encoding="utf-8").read() for it in headers)
        own = set(re.findall(r"(?m)^#define (\w+)", text))
        expected = {it.upper().replace(".", "_") for it in headers} | {"FACING_VERSION_NUMBER"}
        source = f"{self.folder}/behind.cpp"
        with open(source, "w", encoding="utf-8") as it:
            it.write("#include <facing.hpp>\n" + "".join(f"#include <{header}>\n" for header in headers))
        left = set()
        for flags in ([], ["-fsanitize=thread"], ["-DFACING_DEBUG=1"]):
            words = ["c++", "-std=c++17", *flags, f"-I{self.prefix}/include", source]
            self.built([*words, "-fsyntax-only", *WARNED])
            ran = subprocess.run([*words, "-dM", "-E"], capture_output=True, text=True, check=True)
            left |= own & set(re.findall(r"(?m)^#define (\w+)", ran.stdout))
        return left == expected, "0 wrong" if left == expected else f"left: {' '.join(sorted(left ^ expected))}"

    def finds_race(self):
        """Whether ThreadSanitizer finds two threads that use one client."""
        ran = subprocess.run(self.watched(C, "c/tests/race.c"), capture_output=True, text=True, check=False, timeout=LONGEST)
        is_found = "data race" in ran.stderr and "facing_put" in ran.stderr
        return is_found, "found" if is_found else f"not found: {ran.stderr}"

    def plugins(self):
        """Hosts and plugins with either library, the host with and without its symbols for what it loads."""
        need("cc")
        shared = ["-L" + f"{self.prefix}/lib", "-lfacing", f"-Wl,-rpath,{self.prefix}/lib"]
        static, words = [f"{self.prefix}/lib/libfacing.a"], [*C, *WARNED, f"-I{self.prefix}/include"]
        commands = []
        for name, library in (("static", static), ("shared", shared)):
            self.built([*words, "-fPIC", "-shared", f"{HERE}/c/tests/plugin.c", *library, "-lpthread", "-o", f"{self.folder}/{name}.so"])
            for more in ([], ["-rdynamic"]):
                host = f"{self.folder}/host_{name}{''.join(more)}"
                self.built([*words, *more, f"{HERE}/c/tests/plugin_host.c", *library, "-lpthread", "-ldl", "-o", host])
                for plugin in ("static", "shared"):
                    is_one = plugin == "shared" if name == "shared" else bool(more)
                    commands.append([host, f"{self.folder}/{plugin}.so", *(["shared"] if is_one else [])])
        return run(*commands)

    def under_valgrind(self, compiler, source, more=()):
        need("valgrind")
        return [*VALGRIND, self.program(compiler, source, more=more)]

    def by_pkg_config(self):
        """A program with the shared library, as pkg-config says to build it."""
        need("cc", "pkg-config")
        told = subprocess.run(["pkg-config", "--cflags", "--libs", "facing"], capture_output=True, text=True, check=True, env=self.found)
        program, moved = f"{self.folder}/by_pkg_config", f"{self.folder}/a name with blanks"
        self.built([*C, f"{HERE}/c/first.c", *told.stdout.split(), "-lpthread", "-o", program])
        words = ["pkg-config", f"--define-variable=prefix={moved}", "--cflags", "--libs", "facing"]
        told = subprocess.run(words, capture_output=True, text=True, check=True, env=self.found)
        if shlex.split(told.stdout) != [f"-I{moved}/include", f"-L{moved}/lib", "-lfacing"]:
            return False, told.stdout
        return run(program, env={**os.environ, "LD_LIBRARY_PATH": f"{self.prefix}/lib"})

    def by_cmake(self):
        """The same by CMake, with the shared and with the static library."""
        need("cmake", "cc")
        folder, version = f"{self.folder}/cmake", open(f"{TOP}/VERSION", encoding="utf-8").read().strip()
        os.makedirs(folder)
        with open(f"{folder}/CMakeLists.txt", "w", encoding="utf-8") as it:
            it.write(CMAKE.format(f"{HERE}/c/first.c").replace("@VERSION@", version))
        self.built(["cmake", "-S", folder, "-B", f"{folder}/out", f"-DCMAKE_PREFIX_PATH={self.prefix}"])
        self.built(["cmake", "--build", f"{folder}/out"])
        for asked, is_there in self.asked_of_cmake(version):
            if self.is_found_by_cmake(asked) != is_there:
                return False, f"version {asked} is {'not ' if is_there else ''}found"
        return run(f"{folder}/out/shared", f"{folder}/out/static")

    def asked_of_cmake(self, version):
        """Versions that a program may ask for, and whether this one serves them: the first two numbers are the same, and it is no older."""
        first, second, third = map(int, version.split("."))
        served = ["", f"{first}.{second}", version, f"{version} EXACT"]
        others = [f"{first}.{second + 1}", f"{first + 1}.0", f"{first}.{second}.{third + 1}", f"{first}.{second + 1}.0"]
        return [(it, True) for it in served] + [(it, False) for it in others]

    def is_found_by_cmake(self, asked):
        folder = f"{self.folder}/cmake_{asked.replace(' ', '_')}"
        os.makedirs(folder)
        with open(f"{folder}/CMakeLists.txt", "w", encoding="utf-8") as it:
            it.write(f"cmake_minimum_required(VERSION 3.13)\nproject(asked C)\nfind_package(facing {asked} REQUIRED CONFIG)\n")
        words = ["cmake", "-S", folder, "-B", f"{folder}/out", f"-DCMAKE_PREFIX_PATH={self.prefix}"]
        return subprocess.run(words, capture_output=True, check=False).returncode == 0

    def cargo(self, *words):
        need("cargo")
        more = {"CARGO_TARGET_DIR": f"{self.folder}/rust", "FACING_LIBS": f"{self.prefix}/lib"}
        return run(["cargo", words[0], "--release", "--quiet", "--offline", *words[1:]], cwd=f"{HERE}/rust", env={**os.environ, **more})

    def packages(self):
        """What others ship: packages that are made, unpacked and compiled against. Those of a proved library are made by hand."""
        ran = subprocess.run([f"{TOP}/packaging/test"], capture_output=True, text=True, check=False, timeout=LONGEST)
        said = ran.stdout.strip().splitlines() or [ran.stderr.strip()]
        if ran.returncode:
            return False, "; ".join(it for it in said if ": failed" in it) or said[-1]
        if lacks := [it for it in said if ": left out, " in it]:
            raise Lacking("; ".join(lacks))
        return True, said[-1]

    def cache(self, kind):
        """The quick tests of the cache server, built in one way; a minute each."""
        need("cc")
        words = [sys.executable, f"{TOP}/tools/cache_test", "--quick", "--kind", kind, "--prefix", self.prefix]
        ran = subprocess.run(words, capture_output=True, text=True, check=False, timeout=LONGEST)
        said = ran.stdout.strip().splitlines() or [ran.stderr.strip()]
        if ran.returncode:
            return False, "; ".join(it for it in said if " passed, " not in it)
        if lacks := [it for it in said if ": left out, " in it]:
            raise Lacking("; ".join(lacks))
        return True, said[-1]

    def python_by_name(self):
        """A program that finds the library by the linker alone, without a compiler or ldconfig."""
        found = {"LD_LIBRARY_PATH": f"{self.prefix}/lib", "PYTHONPATH": f"{HERE}/python", "PYTHONDONTWRITEBYTECODE": "1", "PATH": ""}
        return run([sys.executable, "-c", "import facing; print(facing.version())"], env=found)

    def python_types(self):
        """What the package says of its types, to mypy, and a program that relies on it."""
        need("mypy")
        words = ["mypy", "--strict", f"--cache-dir={self.folder}/mypy", f"{HERE}/python/facing", f"{HERE}/python/typed.py"]
        is_right, said = run(words)
        return self.python("typed.py") if is_right else (False, said)

    def python(self, program):
        more = {"FACING": f"{self.prefix}/lib/libfacing.so", "PYTHONDONTWRITEBYTECODE": "1"}
        return run([sys.executable, f"{HERE}/python/{program}"], env={**os.environ, **more})


def run(*commands, **more):
    """Runs commands, and returns whether all were right, and what they said."""
    said, is_right = [], True
    for command in commands:
        command = [command] if isinstance(command, str) else command
        ran = subprocess.run(command, capture_output=True, text=True, check=False, timeout=LONGEST, **more)
        is_right = is_right and ran.returncode == 0
        said.append(ran.stdout.strip() if ran.returncode == 0 else f"status {ran.returncode}: {ran.stdout}{ran.stderr}")
    return is_right, "; ".join(said)


def counted(ran):
    """Says of tests how many were wrong, as programs do: all were right, or there is more to say."""
    is_right, said = ran
    return is_right, "0 wrong" if is_right else said


def each(program, *counts):
    """Returns a command for each number of keys, with so many calls of each thread."""
    program = [program] if isinstance(program, str) else program
    return [[*program, str(keys), str(calls)] for keys, calls in counts]


# Megabytes that a process may have.
LIMITS = ("20", "60", "200")
MANY, FEW = ((1, 100000), (16, 100000), (60000, 300000)), ((1, 5000), (16, 10000), (60000, 10000))
BY_TEXT, CPP_BY_TEXT = [*C, "-DCOUNTS"], [*CPP, "-DCOUNTS"]
SEEDED = ["-Wl,--wrap=getrandom"]
WORKS = [
    ("exports and headers, what makes them", lambda it: counted(run([sys.executable, f"{TOP}/tools/test_exports.py"]))),
    ("C, the first program", lambda it: run(it.program(C, "c/first.c"))),
    ("C, the first program by pkg-config", lambda it: it.by_pkg_config()),
    ("C, the first program by CMake", lambda it: it.by_cmake()),
    ("C++, the first program", lambda it: run(it.program(CPP17, "cpp/first.cpp"))),
    ("C++, calls", lambda it: run(it.program(CPP17, "cpp/calls.cpp"))),
    ("C++, ranges, pools and many keys", lambda it: run(it.program(CPP17, "cpp/ranges.cpp"))),
    ("C++20, ranges, pools and many keys", lambda it: run(it.program(CPP20, "cpp/ranges.cpp"))),
    ("C++, sanitized, ranges, pools and many keys", lambda it: run(it.sanitized(CPP17, "cpp/ranges.cpp"))),
    ("C++, ThreadSanitizer, ranges, pools and many keys", lambda it: run(it.watched(CPP17, "cpp/ranges.cpp"))),
    ("C++, macros", lambda it: it.leaks_no_macros()),
    ("C++, ThreadSanitizer, calls", lambda it: run(it.watched(CPP17, "cpp/calls.cpp"))),
    ("C++, sanitized, calls", lambda it: run(it.sanitized(CPP17, "cpp/calls.cpp"))),
    ("packages", lambda it: it.packages()),
    ("C, hooks of the heap", lambda it: run(it.program(C, "c/tests/hooks.c"))),
    ("C, sanitized, hooks of the heap", lambda it: run(it.sanitized(C, "c/tests/hooks.c"))),
    ("C, word count", lambda it: run(it.program(C, "c/word_count.c"))),
    ("C++, word count", lambda it: run(it.program(CPP, "c/word_count.c"))),
    ("C, word count by byte strings", lambda it: run(it.program(C, "c/bytes.c"))),
    ("C++, word count by byte strings", lambda it: run(it.program(CPP, "c/bytes.c"))),
    ("Rust, word count", lambda it: it.cargo("run", "--example", "word_count")),
    ("Rust, tests", lambda it: counted(it.cargo("test"))),
    ("Python, word count", lambda it: it.python("word_count.py")),
    ("Python, the library by its name", lambda it: it.python_by_name()),
    ("Python, types", lambda it: it.python_types()),
    ("Python, tests", lambda it: counted(it.python("test_facing.py"))),
    ("C, many keys at once", lambda it: run(it.program(C, "c/tests/many.c"))),
    ("C, ordinary programs by gcc and clang", lambda it: it.without_warnings()),
    ("C, answers to wrong arguments", lambda it: run(it.program(C, "c/tests/answers.c"))),
    ("C, at most 1,024 buckets a call", lambda it: run(it.program(C, "c/tests/bounded.c"))),
    ("C, children of a fork", lambda it: run(it.program(C, "c/tests/fork.c", more=STOPPED))),
    ("C, sanitized, children of a fork", lambda it: run(it.sanitized(C, "c/tests/fork.c", STOPPED))),
    ("C, a plugin that is unloaded, and forks", lambda it: it.plugins()),
    ("C, threads that are cancelled", lambda it: run(it.program(C, "c/tests/cancel.c"))),
    ("C, ThreadSanitizer, threads that are cancelled", lambda it: run(it.watched(C, "c/tests/cancel.c"))),
    ("C, sanitized, answers to wrong arguments", lambda it: run(it.sanitized(C, "c/tests/answers.c"))),
    ("C, exchanges and bounded sums", lambda it: run(it.program(C, "c/tests/change.c"))),
    ("C++, exchanges and bounded sums", lambda it: run(it.program(CPP, "c/tests/change.c"))),
    ("C, sanitized, exchanges and bounded sums", lambda it: run(it.sanitized(C, "c/tests/change.c"))),
    ("C, ThreadSanitizer, exchanges and bounded sums", lambda it: run(it.watched(C, "c/tests/change.c"))),
    ("C, misuses one by one", lambda it: run(it.program(C, "c/tests/rows.c"))),
    ("C++, sanitized, misuses one by one", lambda it: run(it.sanitized(CPP, "c/tests/rows.c"))),
    ("C, seeds of maps of numbers", lambda it: run(it.program(C, "c/tests/seeds.c"))),
    ("C++, sanitized, seeds of maps of numbers", lambda it: run(it.sanitized(CPP, "c/tests/seeds.c"))),
    ("C, handles of another kind, and no seed", lambda it: run(it.program(C, "c/tests/kinds.c", more=SEEDED))),
    ("C, a closed map that several threads read", lambda it: run(it.program(C, "c/tests/again.c"))),
    ("C++, sanitized, a closed map that several threads read", lambda it: run(it.sanitized(CPP, "c/tests/again.c"))),
    ("C, ThreadSanitizer, a closed map that several threads read", lambda it: run(it.watched(C, "c/tests/again.c"))),
    ("C, a handle of another library and a freed one", lambda it: run(it.program(C, "c/tests/debug.c"))),
    ("C, a handle's box that is refused", lambda it: run(it.program(C, "c/tests/debug_refused.c", more=WRAPPED))),
    ("C, sanitized, a handle's box that is refused", lambda it: run(it.sanitized(C, "c/tests/debug_refused.c", WRAPPED))),
    ("C, sanitized, many keys at once", lambda it: run(it.sanitized(C, "c/tests/many.c"))),
    ("C, sanitized, handles of another kind", lambda it: run(it.sanitized(C, "c/tests/kinds.c", SEEDED))),
    ("C, sanitized, a handle of another library and a freed one", lambda it: run(it.sanitized(C, "c/tests/debug.c"))),
    ("C, ThreadSanitizer, many keys at once", lambda it: run(it.watched(C, "c/tests/many.c"))),
    ("C, ThreadSanitizer, two threads that use one client", lambda it: it.finds_race()),
    ("C, ThreadSanitizer, misuses one by one", lambda it: run(it.watched(C, "c/tests/rows.c"))),
    ("bytes, C, a pool of clients", lambda it: run(it.program(C, "c/tests/bytes_pool.c"))),
    ("bytes, C++, sanitized, a pool of clients", lambda it: run(it.sanitized(CPP, "c/tests/bytes_pool.c"))),
    ("bytes, C, many keys at once", lambda it: run(it.program(C, "c/tests/bytes_many.c"))),
    ("bytes, C++, sanitized, many keys at once", lambda it: run(it.sanitized(CPP, "c/tests/bytes_many.c"))),
    ("bytes, C, threads", lambda it: run(it.program(C, "c/tests/bytes_threads.c"))),
    ("bytes, C, memory refused", lambda it: run(it.program(C, "c/tests/bytes_refused.c", more=WRAPPED))),
    ("bytes, C, values of 512 MB", lambda it: run(it.program(C, "c/tests/large.c"))),
    ("bytes, C, misuses", lambda it: run(it.program(C, "c/tests/bytes_misuse.c"))),
    ("bytes, C, sanitized, threads", lambda it: run(it.sanitized(C, "c/tests/bytes_threads.c"))),
    ("bytes, C, sanitized, memory refused", lambda it: run(it.sanitized(C, "c/tests/bytes_refused.c", WRAPPED))),
    ("bytes, C++, sanitized, misuses", lambda it: run(it.sanitized(CPP, "c/tests/bytes_misuse.c"))),
    ("bytes, C, ThreadSanitizer, threads", lambda it: run([it.watched(C, "c/tests/bytes_threads.c"), "2000"])),
    ("bytes, C, ThreadSanitizer, word count", lambda it: run(it.watched(C, "c/bytes.c"))),
    ("bytes, C, valgrind, threads", lambda it: run([*it.under_valgrind(C, "c/tests/bytes_threads.c"), "500"])),
    ("bytes, C, valgrind, memory refused", lambda it: run([*it.under_valgrind(C, "c/tests/bytes_refused.c", WRAPPED), "7"])),
    ("bytes, cache server", lambda it: it.cache("plain")),
    ("bytes, cache server, sanitized", lambda it: it.cache("address")),
    ("bytes, cache server, ThreadSanitizer", lambda it: it.cache("thread")),
    ("bytes, cache server, with programs of Redis", lambda it: it.cache("redis")),
    ("bytes, cache server, without Lua", lambda it: it.cache("without-lua")),
    ("bytes, C, valgrind, misuses", lambda it: run([*it.under_valgrind(C, "c/tests/bytes_misuse.c"), "2000"])),
]


def works_on_values(kind, c, cpp):
    """Returns the works on a map whose values are numbers."""
    return [
        (f"{kind}, C, 4 threads on 1, 16 and 60000 keys", lambda it: run(*each(it.program(c, "c/tests/counts.c"), *MANY))),
        (f"{kind}, C, a pool of clients", lambda it: run(it.program(c, "c/tests/pool.c"))),
        (f"{kind}, C++, a pool of clients", lambda it: run(it.program(cpp, "c/tests/pool.c"))),
        (f"{kind}, C, memory refused", lambda it: run(it.program(c, "c/tests/refused.c", more=WRAPPED))),
        (f"{kind}, C, misuses", lambda it: run(it.program(c, "c/tests/misuse.c"))),
        (f"{kind}, C, limits of memory", lambda it: run(*[[it.program(c, "c/tests/limits.c"), limit] for limit in LIMITS])),
        (f"{kind}, C, sanitized, 4 threads", lambda it: run(*each(it.sanitized(c, "c/tests/counts.c"), *MANY))),
        (f"{kind}, C++, sanitized, 4 threads", lambda it: run(*each(it.sanitized(cpp, "c/tests/counts.c"), *MANY))),
        (f"{kind}, C, sanitized, a pool of clients", lambda it: run(it.sanitized(c, "c/tests/pool.c"))),
        (f"{kind}, C, sanitized, memory refused", lambda it: run(it.sanitized(c, "c/tests/refused.c", WRAPPED))),
        (f"{kind}, C, sanitized, misuses", lambda it: run(it.sanitized(c, "c/tests/misuse.c"))),
        (f"{kind}, C++, sanitized, misuses", lambda it: run(it.sanitized(cpp, "c/tests/misuse.c"))),
        (f"{kind}, C, ThreadSanitizer, 4 threads", lambda it: run(*each(it.watched(c, "c/tests/counts.c"), *FEW))),
        (f"{kind}, C, ThreadSanitizer, a pool of clients", lambda it: run([it.watched(c, "c/tests/pool.c"), "2000"])),
        (f"{kind}, C, valgrind, 4 threads", lambda it: run(*each(it.under_valgrind(c, "c/tests/counts.c"), *FEW))),
        (f"{kind}, C, valgrind, memory refused", lambda it: run([*it.under_valgrind(c, "c/tests/refused.c", WRAPPED), "7"])),
        (f"{kind}, C, valgrind, misuses", lambda it: run(it.under_valgrind(c, "c/tests/misuse.c"))),
    ]


WORKS += works_on_values("numbers", C, CPP) + works_on_values("counts", BY_TEXT, CPP_BY_TEXT)


def main(words):
    is_proved, needs_all = "--proved" in words, "--all" in words
    wanted = [it for it in words if it not in ("--proved", "--all")]
    if len(wanted) > 1 or any(it.startswith("-") for it in wanted):
        print(__doc__)
        return 2
    passed = failed = left_out = 0
    with tempfile.TemporaryDirectory() as folder:
        try:
            place = Place(folder, is_proved)
        except subprocess.CalledProcessError:
            print("0 passed, 1 failed, 0 left out")
            return 1
        for name, work in WORKS:
            if wanted and wanted[0] not in name:
                continue
            try:
                is_right, said = work(place)
                passed, failed = passed + is_right, failed + (not is_right)
            except Lacking as why:
                said, left_out = f"left out, {why}", left_out + 1
            except subprocess.CalledProcessError as why:
                said, failed = f"not built: {why.stderr or why}", failed + 1
            except subprocess.TimeoutExpired:
                said, failed = f"no end in {LONGEST} seconds", failed + 1
            print(f"{name}: {said}", flush=True)
    if needs_all:
        failed, left_out = failed + left_out, 0
    print(f"{passed} passed, {failed} failed, {left_out} left out")
    return 1 if failed else 0


if __name__ == "__main__":
    sys.exit(main(sys.argv[1:]))
